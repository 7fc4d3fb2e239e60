%% Whole runs of the command, over a program that stands in the place of `dialyze' or over the one that the environment
%% names.
-module(podruksis_tests).

-include_lib("eunit/include/eunit.hrl").

%% A compiled module with a source in a folder.
compiled(Folder, Name, Lines) ->
    Source = podruksis_folder:write(Folder, Name ++ ".erl", lists:join("\n", ["-module('" ++ filename:basename(Name) ++ "')." | Lines] ++ [""])),
    Beam = filename:rootname(Source) ++ ".beam",
    {ok, _, Bytes} = compile:file(Source, [debug_info, binary]),
    ok = file:write_file(Beam, Bytes),
    Beam.

%% The status, and the findings as they are printed. Paths below the folder are shown without it.
run(Folder, Words) ->
    Output = filename:join(Folder, "output"),
    {ok, Options} = podruksis_options:parse(["--quiet", "--cache", filename:join(Folder, "cache"), "--output", Output | Words]),
    Status = podruksis:run(Options),
    Below = unicode:characters_to_binary(podruksis_places:real(Folder) ++ "/"),
    Printed = case file:read_file(Output) of
                  {ok, Text} -> binary:replace(Text, Below, <<>>, [global]);
                  {error, enoent} -> none
              end,
    _ = file:delete(Output),
    {Status, Printed}.

in_folder(Test) -> {timeout, 60, fun() -> podruksis_folder:with(Test) end}.

program(Folder, Text) -> podruksis_folder:program(Folder, "bin/dialyze", Text).

%% A program that keeps no tables and reports a line.
reporting(Line) -> ["case \"$2\" in --out) exit 6 ;; esac\necho \"", Line, "\"\nexit 2\n"].

%% The number of a line leads to the place in the source.
place_test_() -> in_folder(fun(Folder) ->
    Beam = compiled(Folder, "m", ["-export([f/0]).", "", "f() -> ok."]),
    Program = program(Folder, reporting("'m':1: function 'f'/0 has no local return")),
    ?assertEqual({{2, 1}, <<"m.erl:4:1: function 'f'/0 has no local return\n">>}, run(Folder, ["--dialyze", Program, Beam]))
end).

%% The statuses: nothing, something, an error.
status_test_() -> in_folder(fun(Folder) ->
    Beam = compiled(Folder, "m", ["-export([f/0]).", "f() -> ok."]),
    Run = fun(Text, Words) -> run(Folder, ["--dialyze", program(Folder, Text) | Words]) end,
    ?assertEqual({{0, 0}, <<>>}, Run("exit 0", [Beam])),
    Found = reporting("'m':1: function 'f'/0 has no local return"),
    ?assertMatch({{2, 1}, _}, Run(Found, [Beam])),
    %% left out by an option
    ?assertEqual({{0, 0}, <<>>}, Run(Found, ["-Wno_return", Beam])),
    %% the module isn't reported on
    Other = compiled(Folder, "n", ["-export([f/0]).", "f() -> ok."]),
    ?assertEqual({{0, 0}, <<>>}, Run(Found, ["--context", Beam, "--", Other])),
    %% an input that can't be listed: what was found is printed
    Broken = podruksis_folder:write(Folder, "broken.erl", "-module(broken).\nf( -> ok.\n"),
    ?assertMatch({{1, 1}, <<"m.erl:3:1: ", _/binary>>}, Run(Found, [Beam, Broken])),
    %% nothing to check, a crash, a refusal, a report on another module, a report that is cut
    [?assertEqual({Text, {{1, 0}, none}}, {Text, Run(Text, Inputs)}) || {Text, Inputs} <- [
        {"exit 0", [Broken]},
        {"kill -SEGV $$", [Beam]},
        {"echo 'refused 24 TooMany'; exit 1", [Beam]},
        {"echo \"'x':1: function 'f'/0 has no local return\"; exit 2", [Beam]},
        {"printf \"'m':1: function 'f'/0 has no\"; exit 2", [Beam]}
    ]],
    ?assertEqual({{1, 0}, none}, run(Folder, ["--dialyze", filename:join(Folder, "gone"), Beam])),
    ?assertEqual({{1, 0}, none}, Run("exit 0", [filename:join(Folder, "gone.beam")])),
    ?assertEqual({{1, 0}, none}, Run("exit 0", ["--apps", "no_application_of_this_name"])),
    %% no tables are kept
    ?assertEqual({{1, 0}, none}, Run(Found, ["--plt", Beam, "--", Beam]))
end).

%% `build' says that there are no tables yet.
build_test_() -> in_folder(fun(Folder) ->
    Beam = compiled(Folder, "m", ["-export([f/0]).", "f() -> ok."]),
    {ok, Options} = podruksis_options:parse(["build", "--quiet", "--cache", filename:join(Folder, "cache"), "--dialyze",
                                             program(Folder, "echo 'usage: dialyze check [--plt T] FILE..'; exit 6"), Beam]),
    ?assertEqual({1, 0}, podruksis:run(Options))
end).

%% A module that is named twice is listed once; what has no debug information is left out.
twice_test_() -> in_folder(fun(Folder) ->
    Beam = compiled(Folder, "a/m", ["-export([f/0]).", "f() -> ok."]),
    Again = compiled(Folder, "b/m", ["-export([f/0]).", "f() -> no."]),
    Stripped = filename:join(Folder, "s.beam"),
    {ok, s, Bytes} = compile:forms([{attribute, 1, module, s}], []),
    ok = file:write_file(Stripped, Bytes),
    Program = program(Folder, "case \"$2\" in --out) exit 6 ;; esac\nshift 3\n[ $# -eq 1 ] || kill -ABRT $$\nexit 0\n"),
    ?assertEqual({{0, 0}, <<>>}, run(Folder, ["--dialyze", Program, Beam, Again, Stripped]))
end).

%% Calls of functions that applications export, or that stand in a module that was left out, aren't unknown.
known_test_() -> in_folder(fun(Folder) ->
    Beam = compiled(Folder, "m", ["-export([f/0]).", "f() -> ok."]),
    {ok, s, Bytes} = compile:forms([{attribute, 1, module, s}], []),
    ok = file:write_file(filename:join(Folder, "s.beam"), Bytes),
    Program = program(Folder, ["case \"$2\" in --out) exit 6 ;; esac\n",
                               [["echo \"'m':1: unknown function ", Function, "\"\n"]
                                || Function <- ["'lists':'map'/2", "'lists':'map'/7", "'s':'g'/0", "'gone':'g'/0"]], "exit 2\n"]),
    Unknown = fun(Words) -> {Status, Text} = run(Folder, ["--dialyze", Program | Words]),
                            {Status, binary:split(Text, <<"m.erl:3:1: unknown function ">>, [global, trim_all])} end,
    ?assertEqual({{2, 4}, [<<"'gone':'g'/0\n">>, <<"'lists':'map'/2\n">>, <<"'lists':'map'/7\n">>, <<"'s':'g'/0\n">>]},
                 Unknown([Beam])),
    ?assertEqual({{2, 2}, [<<"'gone':'g'/0\n">>, <<"'lists':'map'/7\n">>]},
                 Unknown(["--known", "stdlib", "--", Beam, filename:join(Folder, "s.beam")])),
    ?assertEqual({{0, 0}, []}, Unknown(["--no-unknown", Beam]))
end).

%% Names with blanks, ends of lines, quotes and letters past ASCII, of folders and files.
names_test_() -> in_folder(fun(Folder) ->
    Program = program(Folder, reporting("'m':1: function 'f'/0 has no local return")),
    [begin
         Beam = compiled(Folder, Name ++ "/m", ["-export([f/0]).", "f() -> ok."]),
         ?assertEqual({{2, 1}, unicode:characters_to_binary([Shown, "/m.erl:3:1: function 'f'/0 has no local return\n"])},
                      run(Folder, ["--dialyze", Program, Beam]))
     end || {Name, Shown} <- [{"a b", "a b"}, {"a\nb", "a\\x0Ab"}, {"$HOME `id` 'q' \"w\"", "$HOME `id` 'q' \"w\""}, {"\x{e9}", "\x{e9}"}]]
end).

%% With the program that the environment names: each kind of finding, at its place, from a beam and from a source; and
%% what attributes and options leave out.
kinds_test_() ->
    case os:getenv("PODRUKSIS_DIALYZE", "") of
        "" -> {"skipped: PODRUKSIS_DIALYZE isn't set", []};
        Program -> in_folder(fun(Folder) -> kinds(Folder, Program) end)
    end.

kinds(Folder, Program) ->
    Lines = ["-export([start/1, get/0, call/0]).",
             "-compile(nowarn_unused_function).",
             "start(X) -> X + b.",
             "get() -> level(on).",
             "call() -> n:fresh().",
             "level(on) -> 1;",
             "level(off) -> 0.",
             "-dialyzer({no_return, quiet/0}).",
             "quiet() -> 1 + a."],
    Beam = compiled(Folder, "m", Lines),
    Expected = <<"m.erl:4:1: function 'start'/1 has no local return\n"
                 "m.erl:4:15: the call 'erlang':'+'/2 never returns\n"
                 "m.erl:6:11: unknown function 'n':'fresh'/0\n"
                 "m.erl:8:1: this clause can never match\n">>,
    ?assertEqual({{2, 4}, Expected}, run(Folder, ["--dialyze", Program, Beam])),
    ?assertEqual({{2, 4}, Expected}, run(Folder, ["--dialyze", Program, filename:rootname(Beam) ++ ".erl"])),
    ?assertEqual({{2, 1}, <<"m.erl:8:1: this clause can never match\n">>},
                 run(Folder, ["--dialyze", Program, "-Wno_return", "-Wno_fail_call", "-Wno_unknown", Beam])),
    %% handed in together, nothing is unknown; what is context isn't reported on
    Other = compiled(Folder, "n", ["-export([fresh/0]).", "fresh() -> 1 + c."]),
    {{2, 4}, _} = run(Folder, ["--dialyze", Program, "-Wno_return", Beam, Other]),
    {{2, 2}, Together} = run(Folder, ["--dialyze", Program, "-Wno_return", "-Wno_match", "--context", Other, "--", Beam]),
    ?assertEqual(<<"m.erl:4:15: the call 'erlang':'+'/2 never returns\nm.erl:6:11: the call 'n':'fresh'/0 never returns\n">>, Together).
