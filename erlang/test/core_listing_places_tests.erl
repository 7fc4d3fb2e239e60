-module(core_listing_places_tests).

-include_lib("eunit/include/eunit.hrl").

-define(LINES, ["-module(m).",
                "-export([f/1]).",
                "f(X) -> h(g(X),",
                "          X).",
                "g({a, X}) -> X;",
                "g(X) ->",
                "    atom_to_list(X).",
                "h(X, Y) -> {X, Y}."]).

%% A number stands where it isn't the one that stands around already.
lines_test() ->
    Listing = listing_cases:list(m, ?LINES),
    ?assertEqual([], maps:get(locations, Listing)),
    ?assertEqual([<<"module 'm' ['f'/1,'module_info'/0,'module_info'/1]">>, <<"attributes []">>,
                  <<"'f'/1 =">>, <<"(fun (_0) ->">>, <<"case _0 of">>,
                  <<"<X> when 'true' -> let <_1> = apply 'g'/1(X) in">>, <<"apply 'h'/2(_1,X)">>,
                  <<"end -| [3])">>,
                  <<"'g'/1 =">>, <<"(fun (_0) ->">>, <<"case _0 of">>, <<"<{'a',X}> when 'true' -> X">>,
                  <<"(<X> when 'true' -> (call 'erlang':'atom_to_list'(X) -| [7]) -| [6])">>, <<"end -| [5])">>],
                 lists:sublist(listing_cases:lines(Listing), 14)).

locations_test() ->
    Listing = listing_cases:list(m, #{locations => true}, ?LINES),
    ?assertMatch([#{id := 1, line := 3, column := 1, function := {f, 1}, silent := []},
                  #{id := 2, line := 3, column := 11, function := {f, 1}},
                  #{id := 3, line := 3, column := 9, function := {f, 1}},
                  #{id := 4, line := 5, column := 1, function := {g, 1}},
                  #{id := 5, line := 6, column := 1, function := {g, 1}},
                  #{id := 6, line := 7, column := 5, function := {g, 1}},
                  #{id := 7, line := 8, column := 1, function := {h, 2}}],
                 lists:sort(fun(#{id := A}, #{id := B}) -> A =< B end, located(Listing))),
    ?assertEqual(["m.erl"], lists:usort([filename:basename(File) || #{file := File} <- maps:get(locations, Listing)])),
    ?assert(listing_cases:has("(call 'erlang':'atom_to_list'(X) -| [6])", Listing)).

located(#{locations := Locations}) -> Locations.

%% A function of an included file has its own file and line.
included_file_test() ->
    listing_cases:in_folder(fun(Folder) ->
        ok = file:write_file(filename:join(Folder, "h.hrl"), "\n\nh() -> atom_to_list(1).\n"),
        Source = listing_cases:source(Folder, m, ["-module(m).", "-export([h/0]).", "-include(\"h.hrl\")."]),
        {ok, #{locations := Locations}} = core_listing:file(Source, #{locations => true}),
        ?assertMatch([{"h.hrl", 3, 1}, {"h.hrl", 3, 8}],
                     [{filename:basename(File), Line, Column} ||
                         #{file := File, line := Line, column := Column} <- Locations])
    end).

file_attribute_test() ->
    Listing = listing_cases:list(m, #{locations => true},
                                 ["-module(m).", "-export([f/0]).", "-file(\"m.yrl\", 40).", "f() -> ok."]),
    ?assertMatch([#{file := "m.yrl", line := 41}], maps:get(locations, Listing)).

%% What the compiler made is marked, and what stands in it has no notes of its own.
generated_code_test() ->
    Listing = listing_cases:list(m, ["-module(m).", "-export([f/1]).", "f(L) -> [X || X <- L, X > 1]."]),
    ?assert(listing_cases:has("(<[X|_2]> when 'true' -> apply 'lc$^0'/1(_2) -| ['compiler_generated'])", Listing)),
    ?assert(listing_cases:has("call 'erlang':'get_module_info'('m')\nend -| ['compiler_generated'])", Listing)).

call_without_a_line_is_generated_test() ->
    Call = cerl:c_call(cerl:c_atom(a), cerl:c_atom(b), []),
    Fun = cerl:set_ann(cerl:c_fun([], Call), [7]),
    {Noted, _} = core_listing_places:of_definition({f, 0}, Fun, false, table()),
    ?assertEqual([7], cerl:get_ann(Noted)),
    ?assertEqual([compiler_generated], cerl:get_ann(cerl:fun_body(Noted))).

line_0_is_none_test() ->
    Call = cerl:ann_c_call([0], cerl:c_atom(a), cerl:c_atom(b), []),
    {Noted, _} = core_listing_places:of_definition({f, 0}, cerl:set_ann(cerl:c_fun([], Call), [0]), false, table()),
    ?assertEqual([compiler_generated], cerl:get_ann(Noted)).

function_without_a_line_takes_the_first_in_it_test() ->
    Argument = cerl:ann_c_call([8], cerl:c_atom(a), cerl:c_atom(b), []),
    Call = cerl:ann_c_call([{9, 2}], cerl:c_atom(a), cerl:c_atom(b), [Argument]),
    {Noted, _} = core_listing_places:of_definition({f, 0}, cerl:c_fun([], Call), false, table()),
    ?assertEqual([8], cerl:get_ann(Noted)),
    ?assertEqual([9], cerl:get_ann(cerl:fun_body(Noted))).

table() -> core_listing_places:new(false, "m.erl", core_listing_silence:of_module([], [])).

%% Each finding stands at the place of what it speaks of.
report_test_() ->
    listing_cases:with_program(fun() ->
        Lines = ["-module(m).", "-export([f/1]).",
                 "f(X) when is_integer(X) ->",
                 "    case X of", "        a ->", "            b;", "        _ ->",
                 "            {ok,", "             atom_to_list(X)}", "    end.",
                 "unused() -> ok."],
        ?assertEqual([<<"'m':3: function 'f'/1 has no local return">>,
                      <<"'m':5: this clause can never match">>,
                      <<"'m':9: the call 'erlang':'atom_to_list'/1 never returns">>,
                      <<"'m':11: function 'unused'/0 is never called">>],
                     listing_cases:report([listing_cases:list(m, Lines)])),
        Located = #{locations := Locations} = listing_cases:list(m, #{locations => true}, Lines),
        Ids = maps:from_list([{Id, {Line, Column}} || #{id := Id, line := Line, column := Column} <- Locations]),
        ?assertEqual([{3, 1}, {5, 9}, {9, 14}, {11, 1}],
                     [map_get(binary_to_integer(Number), Ids) ||
                         <<"'m':", Rest/binary>> <- listing_cases:report([Located]),
                         [Number | _] <- [binary:split(Rest, <<":">>)]])
    end).
