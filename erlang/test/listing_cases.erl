%%% What the tests share: sources in folders of their own, their listings, and the reports of `dialyze' on them.
-module(listing_cases).

-export([tests/1, in_folder/1, source/3, compiled/4, list/2, list/3, text/1, lines/1, has/2, notes/1]).
-export([with_program/1, check/1, report/1, findings/1]).

%% @doc The tests of a module, each with enough time for a busy machine.
tests(Module) ->
    {module, Module} = code:ensure_loaded(Module),
    Named = [{lists:reverse(atom_to_list(Name)), Name} || {Name, 0} <- Module:module_info(exports)],
    {atom_to_list(Module),
     [{timeout, 600, {Module, Name}} || {"tset_" ++ _, Name} <- Named] ++
         [{generator, Module, Name} || {"_tset_" ++ _, Name} <- Named]}.

%% @doc Runs a test in a new folder, which is gone afterwards.
in_folder(Test) ->
    Unique = integer_to_list(erlang:unique_integer([positive])),
    Folder = filename:join(filename:basedir(user_cache, "core_listing_tests"), os:getpid() ++ "_" ++ Unique),
    ok = filelib:ensure_path(Folder),
    try Test(Folder) after file:del_dir_r(Folder) end.

%% @doc Writes a source of some lines.
source(Folder, Module, Lines) ->
    File = filename:join(Folder, atom_to_list(Module) ++ ".erl"),
    ok = file:write_file(File, unicode:characters_to_binary(lists:join($\n, Lines ++ [""]))),
    File.

%% @doc Compiles a source to a file with debug information.
compiled(Folder, Module, Options, Lines) ->
    File = source(Folder, Module, Lines),
    {ok, Module} = compile:file(File, [debug_info, {outdir, Folder}, return_errors | Options]),
    filename:join(Folder, atom_to_list(Module) ++ ".beam").

list(Module, Lines) -> list(Module, #{}, Lines).

%% @doc The listing of a source of some lines.
list(Module, Options, Lines) ->
    in_folder(fun(Folder) ->
        {ok, Listing} = core_listing:file(source(Folder, Module, Lines), Options),
        Listing#{text := iolist_to_binary(maps:get(text, Listing))}
    end).

text(#{text := Text}) -> Text.

lines(Listing) -> binary:split(text(Listing), <<"\n">>, [global, trim]).

has(Part, Listing) -> binary:match(text(Listing), iolist_to_binary(Part)) =/= nomatch.

notes(#{notes := Notes}) -> [lists:flatten(Note) || Note <- Notes].

%% @doc A test that needs the program; it is skipped, and says so, where the environment doesn't name it.
with_program(Test) ->
    case os:getenv("PODRUKSIS_DIALYZE") of
        false -> {"skipped: PODRUKSIS_DIALYZE isn't set", fun() -> ok end};
        _ -> {timeout, 600, Test}
    end.

%% @doc The status and the output of the program on some texts.
check(Texts) ->
    in_folder(fun(Folder) ->
        Files = [begin
                     File = filename:join(Folder, integer_to_list(N) ++ ".core"),
                     ok = file:write_file(File, Text),
                     File
                 end || {N, Text} <- lists:enumerate(Texts)],
        Port = open_port({spawn_executable, os:getenv("PODRUKSIS_DIALYZE")},
                         [{args, ["check" | Files]}, exit_status, stderr_to_stdout, binary]),
        answer(Port, [])
    end).

answer(Port, Output) ->
    receive
        {Port, {data, Bytes}} -> answer(Port, [Output, Bytes]);
        {Port, {exit_status, Status}} -> {Status, iolist_to_binary(Output)}
    end.

%% @doc The lines of a report on listings, all of which must be accepted.
report(Listings) ->
    {Status, Output} = check([text(Listing) || Listing <- Listings]),
    case lists:member(Status, [0, 2]) of
        true -> binary:split(Output, <<"\n">>, [global, trim_all]);
        false -> error({refused, Output})
    end.

%% @doc The findings of a text without their lines, in order; or why it is refused.
findings(Text) ->
    case check([Text]) of
        {Status, Output} when Status =:= 0; Status =:= 2 ->
            Lines = binary:split(Output, <<"\n">>, [global, trim_all]),
            {ok, lists:sort([re:replace(Line, "':[0-9]+: ", "': ", [{return, binary}]) || Line <- Lines])};
        {_, Output} -> {refused, Output}
    end.
