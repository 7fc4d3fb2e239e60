-module(core_listing_origin_tests).

-include_lib("eunit/include/eunit.hrl").

-define(LINES, ["-module(m).", "-export([f/0]).", "f() -> ok."]).

%% A compiled file and its source have the same listing.
compiled_file_and_source_test() ->
    listing_cases:in_folder(fun(Folder) ->
        Beam = listing_cases:compiled(Folder, m, [], ?LINES),
        {ok, #{module := m, text := OfBeam}} = core_listing:file(Beam, #{}),
        {ok, #{module := m, text := OfSource}} = core_listing:file(filename:join(Folder, "m.erl"), #{}),
        ?assertEqual(iolist_to_binary(OfBeam), iolist_to_binary(OfSource)),
        {ok, #{text := ByBytes}} = core_listing:file(list_to_binary(Beam), #{}),
        ?assertEqual(iolist_to_binary(OfBeam), iolist_to_binary(ByBytes))
    end).

file_without_debug_information_is_left_out_test() ->
    listing_cases:in_folder(fun(Folder) ->
        Beam = listing_cases:compiled(Folder, m, [], ?LINES),
        {ok, {m, _}} = beam_lib:strip(Beam),
        ?assertEqual({left_out, "it has no debug information", []}, core_listing:file(Beam, #{})),
        {ok, m, Without} = compile:file(filename:join(Folder, "m.erl"), [binary]),
        ok = file:write_file(Beam, Without),
        ?assertEqual({left_out, "it has no debug information", []}, core_listing:file(Beam, #{}))
    end).

%% beam_lib writes files compressed, and so may the compiler.
compressed_file_is_read_test() ->
    listing_cases:in_folder(fun(Folder) ->
        Beam = listing_cases:compiled(Folder, m, [compressed], ?LINES),
        ?assertMatch({ok, <<31, 139, _/binary>>}, file:read_file(Beam)),
        ?assertMatch({ok, #{module := m}}, core_listing:file(Beam, #{}))
    end).

other_language_that_isnt_there_is_left_out_test() ->
    listing_cases:in_folder(fun(Folder) ->
        {ok, m, Bytes} = compile:file(listing_cases:source(Folder, m, ?LINES),
                                      [binary, {debug_info, {no_such_backend, data}}]),
        Beam = filename:join(Folder, "m.beam"),
        ok = file:write_file(Beam, Bytes),
        {left_out, Reason, []} = core_listing:file(Beam, #{}),
        ?assertEqual("its debug information gives no Core Erlang by no_such_backend: "
                     "\"this module isn't in the code path\"", lists:flatten(Reason))
    end).

faults_test() ->
    listing_cases:in_folder(fun(Folder) ->
        In = fun(Name) -> filename:join(Folder, Name) end,
        ok = file:write_file(In("m.beam"), "no compiled file"),
        ?assertMatch({error, _}, core_listing:file(In("m.beam"), #{})),
        ?assertMatch({error, _}, core_listing:file(In("none.beam"), #{})),
        ?assertMatch({error, _}, core_listing:file(In("none.erl"), #{})),
        Broken = listing_cases:source(Folder, n, ["-module(n).", "-export([f/0]).", "f() -> g()."]),
        {error, Reason} = core_listing:file(Broken, #{}),
        ?assertEqual("it doesn't compile: " ++ Broken ++ ":3:8: function g/0 undefined",
                     unicode:characters_to_list(Reason))
    end).

macros_and_included_files_test() ->
    listing_cases:in_folder(fun(Folder) ->
        ok = filelib:ensure_dir(filename:join(Folder, "include/x")),
        ok = filelib:ensure_dir(filename:join(Folder, "src/x")),
        ok = filelib:ensure_dir(filename:join(Folder, "other/x")),
        ok = file:write_file(filename:join(Folder, "include/a.hrl"), "-define(A, a).\n"),
        ok = file:write_file(filename:join(Folder, "other/b.hrl"), "-define(B, b).\n"),
        ok = file:write_file(filename:join(Folder, "rebar.config"), "{erl_opts, [debug_info, {d, 'D', d}]}.\n"),
        Source = listing_cases:source(filename:join(Folder, "src"), m,
                                      ["-module(m).", "-include(\"a.hrl\").", "-include(\"b.hrl\").",
                                       "-export([f/0]).", "f() -> {?A, ?B, ?C, ?D}."]),
        {ok, #{text := Text}} = core_listing:file(Source, #{include => [filename:join(Folder, "other")],
                                                            define => [{"C", {c, 1}}]}),
        ?assertMatch({_, _}, binary:match(iolist_to_binary(Text), <<"{'a','b',{'c',1},'d'}">>))
    end).

%% The test of a record is that of the module: with this option a tuple of another size passes it.
options_of_the_module_decide_test() ->
    Text = fun(Attribute) ->
        listing_cases:text(listing_cases:list(m, ["-module(m).", "-export([f/1]).", Attribute, "-record(r, {a}).",
                                                  "f(X) when X#r.a =:= 1 -> ok."]))
    end,
    ?assertMatch({_, _}, binary:match(Text(""), <<"'is_record'(">>)),
    ?assertEqual(nomatch, binary:match(Text("-compile(no_strict_record_tests)."), <<"'is_record'(">>)).
