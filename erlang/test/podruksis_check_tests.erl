%% Runs of a program that stands in the place of `dialyze', tables and parts among them.
-module(podruksis_check_tests).

-include_lib("eunit/include/eunit.hrl").

listed(Folder, Module) ->
    Listing = podruksis_folder:write(Folder, atom_to_list(Module) ++ ".core", atom_to_list(Module)),
    #{module => Module, input => "/p/" ++ atom_to_list(Module) ++ ".beam", new => true, context => false,
      entry => #{listing => Listing}}.

setting(Program, Place) ->
    #{program => Program, workers => 3, place => Place, fresh => false, say => fun(_) -> ok end}.

%% The program writes its words into a log, a word a line, and does what Text says.
program(Folder, Text) ->
    podruksis_folder:program(Folder, "dialyze", ["for word in \"$@\"; do echo \"$word\"; done >> ", Folder, "/log\n", Text]).

log(Folder) ->
    {ok, Log} = file:read_file(filename:join(Folder, "log")),
    ok = file:delete(filename:join(Folder, "log")),
    [string:replace(Word, Folder, "F") || Word <- string:split(string:trim(binary_to_list(Log)), "\n", all)].

words(Folder) -> [lists:flatten(Word) || Word <- log(Folder)].

run(Parts, Setting) ->
    case podruksis_check:run(Parts, Setting, #{}) of
        {ok, Lines, Notes} -> {ok, [Text || #{text := Text} <- Lines], [unicode:characters_to_list(Note) || Note <- Notes]};
        {error, Reason} -> {error, unicode:characters_to_list(Reason)}
    end.

in_folder(Test) -> {timeout, 60, fun() -> podruksis_folder:with(Test) end}.

%% One run of all files, and its report.
one_part_test_() -> in_folder(fun(Folder) ->
    Program = program(Folder, "echo \"'m':1: this clause can never match\"; exit 2"),
    ?assertEqual({ok, [<<"this clause can never match">>], []},
                 run([[listed(Folder, m), listed(Folder, n)]], setting(Program, none))),
    ?assertEqual(["check", "--workers", "3", "F/m.core", "F/n.core"], words(Folder))
end).

%% A run a part.
two_parts_test_() -> in_folder(fun(Folder) ->
    Program = program(Folder, "echo \"'m':1: this clause can never match\"; exit 2"),
    ?assertEqual({ok, [<<"this clause can never match">>, <<"this clause can never match">>], []},
                 run([[listed(Folder, m)], [listed(Folder, n)]], setting(Program, none))),
    ?assertEqual(["check", "--workers", "3", "F/m.core", "check", "--workers", "3", "F/n.core"], words(Folder))
end).

%% A refusal names the input; a wrong line and a crash are errors.
errors_test_() ->
    [in_folder(fun(Folder) ->
        Program = program(Folder, Text),
        {error, Error} = run([[listed(Folder, m), listed(Folder, n)]], setting(Program, none)),
        ?assertEqual(Expected, lists:flatten(string:replace(Error, Folder, "F")))
    end) || {Text, Expected} <- [
        {"echo \"$(dirname \"$0\")/n.core:7: refused 5 Syntax\"; exit 1",
         "dialyze refuses the listing of /p/n.beam: F/n.core:7: refused 5 Syntax"},
        {"echo 'refused 24 TooMany'; exit 1", "dialyze refuses the listings: refused 24 TooMany"},
        {"echo surprise; exit 2", "dialyze printed a line that is none of a report: surprise"},
        {"echo 't: table fault 20 Torn'; exit 3", "dialyze: t: table fault 20 Torn"},
        {"kill -ABRT $$", "dialyze crashed: it was ended by signal 6 (abort)"}
    ]].

%% A program that keeps tables: it writes the files that it was given into the table, behind those of the old one, and
%% refuses a table that begins with an x.
keeping() ->
    "shift\nold=/dev/null\n"
    "while true; do case \"$1\" in\n"
    "  --plt) old=\"$2\"; shift 2 ;;\n  --out) new=\"$2\"; shift 2 ;;\n  --workers) shift 2 ;;\n  *) break ;;\nesac; done\n"
    "case \"$(head -c 1 \"$old\")\" in x) echo \"$old: table fault 18 NotATable\"; exit 3 ;; esac\n"
    "{ cat \"$old\"; for file in \"$@\"; do basename \"$file\"; done; } > \"$new.made\"; mv \"$new.made\" \"$new\"\n".

place(Folder, Base) -> #{table => filename:join(Folder, "tables/t"), program => <<"digest">>, base => Base}.

table(Folder) ->
    {ok, Text} = file:read_file(filename:join(Folder, "tables/t")),
    binary:split(Text, <<"\n">>, [global, trim_all]).

options(Words) -> [Word || Word <- Words, string:prefix(Word, "--plt") =/= nomatch orelse string:prefix(Word, "F/tables") =/= nomatch
                           orelse Word =:= "F/base"].

%% The first run begins without a table, the next with that of the first.
table_test_() -> in_folder(fun(Folder) ->
    Setting = setting(program(Folder, keeping()), place(Folder, none)),
    Part = [listed(Folder, m), listed(Folder, n)],
    ?assertEqual({ok, [], []}, run([Part], Setting)),
    ?assertEqual([<<"m.core">>, <<"n.core">>], table(Folder)),
    ?assertNot(lists:member("--plt", words(Folder))),
    ?assertEqual({ok, [], []}, run([Part], Setting)),
    ?assertMatch(["--plt", "F/tables/t", "F/tables/t.new." ++ _], options(words(Folder))),
    ?assertEqual([<<"m.core">>, <<"n.core">>, <<"m.core">>, <<"n.core">>], table(Folder)),
    %% with a further module too; with one that is gone, another program, or `--fresh', from the beginning
    ?assertEqual({ok, [], []}, run([Part ++ [listed(Folder, o)]], Setting)),
    ?assert(lists:member("--plt", words(Folder))),
    [begin
         ?assertEqual({ok, [], []}, run(Parts, Other)),
         ?assertNot(lists:member("--plt", words(Folder)))
     end || {Parts, Other} <- [{[Part], Setting}, {[Part], Setting#{fresh := true}},
                               {[Part], Setting#{place := (place(Folder, none))#{program := <<"other">>}}}]]
end).

%% Each part begins with the table of the part before it.
parts_with_table_test_() -> in_folder(fun(Folder) ->
    Setting = setting(program(Folder, keeping()), place(Folder, none)),
    ?assertEqual({ok, [], []}, run([[listed(Folder, m)], [listed(Folder, n)], [listed(Folder, o)]], Setting)),
    ?assertEqual([<<"m.core">>, <<"n.core">>, <<"o.core">>], table(Folder))
end).

%% The table of `build' is where the first run begins; when it changes, so does the next.
base_test_() -> in_folder(fun(Folder) ->
    Base = podruksis_folder:write(Folder, "base", "kernel.core\n"),
    Setting = fun(Digest) -> setting(program(Folder, keeping()), place(Folder, {Base, Digest})) end,
    Run = fun(Digest) -> {ok, [], []} = run([[listed(Folder, m)]], Setting(Digest)), options(words(Folder)) end,
    ?assertMatch(["--plt", "F/base" | _], Run(<<"1">>)),
    ?assertEqual([<<"kernel.core">>, <<"m.core">>], table(Folder)),
    ?assertMatch(["--plt", "F/tables/t" | _], Run(<<"1">>)),
    ?assertMatch(["--plt", "F/base" | _], Run(<<"2">>))
end).

%% A damaged table of the last run isn't used, with a note; one of `build' is an error.
damaged_table_test_() -> in_folder(fun(Folder) ->
    Setting = setting(program(Folder, keeping()), place(Folder, none)),
    Parts = [[listed(Folder, m)]],
    {ok, [], []} = run(Parts, Setting),
    podruksis_folder:write(Folder, "tables/t", "x"),
    {ok, [], [Note]} = run(Parts, Setting),
    ?assertEqual("the table of the last run isn't used: F/tables/t: table fault 18 NotATable",
                 lists:flatten(string:replace(Note, Folder, "F"))),
    ?assertEqual([<<"m.core">>], table(Folder)),
    Base = podruksis_folder:write(Folder, "base", "x"),
    {error, Error} = run(Parts, setting(program(Folder, keeping()), place(Folder, {Base, <<"1">>}))),
    ?assertEqual("dialyze doesn't take the table (F/base: table fault 18 NotATable): podruksis build makes it again",
                 lists:flatten(string:replace(Error, Folder, "F")))
end).

%% Whether a program keeps tables is tried: a usage line that names them isn't enough.
keeps_test_() -> in_folder(fun(Folder) ->
    Keeps = fun(Text) -> podruksis_tables:keeps(podruksis_folder:program(Folder, "program", Text), filename:join(Folder, "c")) end,
    ?assert(Keeps(keeping())),
    ?assertNot(Keeps("echo 'usage: dialyze check [--plt T] [--out T2] FILE..'; exit 6")),
    ?assertNot(Keeps("exit 0")),
    ?assertNot(Keeps([keeping(), "echo more; exit 2"])),
    ?assertEqual({ok, []}, file:list_dir(filename:join(Folder, "c")))
end).
