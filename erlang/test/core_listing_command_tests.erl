-module(core_listing_command_tests).

-include_lib("eunit/include/eunit.hrl").

-define(LINES, ["-module(m).", "-export([f/0]).", "f() -> n:g()."]).

listings_and_locations_are_written_test() ->
    listing_cases:in_folder(fun(Folder) ->
        Source = listing_cases:source(Folder, m, ?LINES),
        Out = filename:join(Folder, "a folder"),
        ?assertEqual(0, quietly(["-o", Out, "--locations", Source])),
        {ok, Text} = file:read_file(filename:join(Out, "m.core")),
        ?assertMatch({_, _}, binary:match(Text, <<"(call 'n':'g'() -| [2])">>)),
        ?assertEqual({ok, [{1, Source, 3, 1, {f, 0}, []}, {2, Source, 3, 8, {f, 0}, []}]},
                     file:consult(filename:join(Out, "m.locations")))
    end).

without_the_option_there_are_no_locations_test() ->
    listing_cases:in_folder(fun(Folder) ->
        ?assertEqual(0, quietly([listing_cases:source(Folder, m, ?LINES), "-o", Folder])),
        ?assertEqual({ok, ["m.core", "m.erl"]}, sorted(file:list_dir(Folder)))
    end).

sorted({ok, Names}) -> {ok, lists:sort(Names)}.

%% A name that no file may have everywhere.
names_of_files_are_safe_test() ->
    listing_cases:in_folder(fun(Folder) ->
        Source = filename:join(Folder, "a.erl"),
        ok = file:write_file(Source, "-module('a/b c').\n"),
        ?assertEqual(0, quietly(["-o", Folder, Source])),
        ?assert(filelib:is_regular(filename:join(Folder, "a%2Fb%20c.core")))
    end).

a_module_is_listed_once_test() ->
    listing_cases:in_folder(fun(Folder) ->
        [First, Second] = [listing_cases:source(filename:join(Folder, Each), m, ?LINES)
                           || Each <- ["1", "2"], ok =:= filelib:ensure_path(filename:join(Folder, Each))],
        ?assertEqual(0, quietly(["-o", Folder, "--locations", First, Second])),
        {ok, [{_, File, _, _, _, _} | _]} = file:consult(filename:join(Folder, "m.locations")),
        ?assertEqual(First, File)
    end).

options_reach_the_listing_test() ->
    listing_cases:in_folder(fun(Folder) ->
        Source = listing_cases:source(Folder, m, ["-module(m).", "-export([f/0]).", "f() -> ?WHAT."]),
        ?assertEqual(0, quietly(["-o", Folder, "-D", "WHAT={a,1}", "--open", "m", "--files", Source])),
        {ok, Text} = file:read_file(filename:join(Folder, "m.core")),
        ?assertMatch({_, _}, binary:match(Text, <<"{'a',1}">>)),
        ?assertMatch({_, _}, binary:match(Text, <<"primop 'replaced'()">>))
    end).

statuses_test() ->
    listing_cases:in_folder(fun(Folder) ->
        Broken = listing_cases:source(Folder, n, ["-module(n).", "f( ."]),
        Good = listing_cases:source(Folder, m, ?LINES),
        ?assertEqual(1, quietly(["-o", Folder, Broken, Good])),
        ?assert(filelib:is_regular(filename:join(Folder, "m.core"))),
        ?assertEqual(1, quietly(["-o", Folder, "--apps", "no_such_application"])),
        ?assertEqual(1, quietly(["-o", Good, Good])),
        ?assertEqual(2, quietly([])),
        ?assertEqual(2, quietly(["-D", "A=(", Good]))
    end).

%% Runs the command without its output.
quietly(Words) ->
    Leader = group_leader(),
    Sink = spawn_link(fun sink/0),
    Errors = whereis(standard_error),
    group_leader(Sink, self()),
    true = unregister(standard_error),
    true = register(standard_error, Sink),
    try core_listing_command:run(Words)
    after
        group_leader(Leader, self()),
        true = unregister(standard_error),
        true = register(standard_error, Errors),
        unlink(Sink),
        exit(Sink, kill)
    end.

sink() ->
    receive
        {io_request, From, Reply, _} ->
            From ! {io_reply, Reply, ok},
            sink();
        _ -> sink()
    end.
