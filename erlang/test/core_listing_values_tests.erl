-module(core_listing_values_tests).

-include_lib("eunit/include/eunit.hrl").

-define(WIDE, "170141183460469231731687303715884105728").
-define(WIDEST_THAT_FITS, "170141183460469231731687303715884105727").

wide_integer_in_an_expression_is_any_integer_test() ->
    Listing = listing_cases:list(m, ["-module(m).", "-export([f/1]).", "f(X) -> X + " ?WIDE "."]),
    ?assert(listing_cases:has("(X,(call 'erlang':'bsl'(1,128) -| ['compiler_generated']))", Listing)),
    ?assertNot(listing_cases:has(?WIDE, Listing)).

%% Each value of a literal body.
written(Value) ->
    Fun = core_listing_values:rewrite(cerl:c_fun([], cerl:abstract(Value))),
    <<"'f'/0 =\nfun () ->\n", Text/binary>> = iolist_to_binary(core_listing_text:definition({f, 0}, Fun)),
    string:trim(Text).

negative_wide_integer_is_a_negative_shift_test() ->
    ?assertEqual(<<"{'a',[(call 'erlang':'bsl'(-1,128) -| ['compiler_generated'])|\"bc\"]}">>,
                 written({a, [-(1 bsl 127) | "bc"]})),
    ?assertEqual(<<"~{'k'=>(call 'erlang':'bsl'(1,128) -| ['compiler_generated'])}~">>, written(#{k => 1 bsl 200})).

integers_at_the_limit_are_written_test() ->
    Limit = 1 bsl 127 - 1,
    ?assertEqual(<<"[" ?WIDEST_THAT_FITS ",-" ?WIDEST_THAT_FITS "]">>, written([Limit, -Limit])).

wide_integer_in_a_pattern_is_a_variable_with_a_test_in_the_guard_test() ->
    Listing = listing_cases:list(m, ["-module(m).", "-export([f/1]).",
                                     "f({" ?WIDE ", Y}) when Y > 1 -> Y;", "f(_) -> other."]),
    ?assert(listing_cases:has(
        "<{_new1,Y}> when case call 'erlang':'=:='(_new1,call 'erlang':'bsl'(1,128)) of\n"
        "<'true'> when 'true' -> call 'erlang':'>'(Y,1)\n"
        "<__> when 'true' -> 'false'\n"
        "end -> Y", Listing)).

two_wide_integers_in_a_pattern_have_two_variables_test() ->
    Listing = listing_cases:list(m, ["-module(m).", "-export([f/1]).",
                                     "f([" ?WIDE ", -" ?WIDE "]) -> ok."]),
    ?assert(listing_cases:has("<[_new1,_new2]> when case call 'erlang':'=:='(_new1,call 'erlang':'bsl'(1,128)) of",
                              Listing)),
    ?assert(listing_cases:has("case call 'erlang':'=:='(_new2,call 'erlang':'bsl'(-1,128)) of", Listing)).

wide_integers_in_maps_and_segments_test() ->
    Listing = listing_cases:list(m, ["-module(m).", "-export([f/1, g/1]).",
                                     "f(#{" ?WIDE " := X}) -> #{" ?WIDE " => X}.",
                                     "g(<<" ?WIDE ":200, R/bits>>) -> <<" ?WIDE ":200, R/bits>>."]),
    ?assertNot(listing_cases:has(?WIDE, Listing)),
    ?assert(listing_cases:has("<~{call 'erlang':'bsl'(1,128):=X}~>", Listing)),
    ?assert(listing_cases:has("#<_new1>(200,1,'integer',['unsigned','big'])", Listing)).

process_identifiers_give_any_value_test() ->
    Fun = cerl:c_fun([cerl:c_var('X')],
                     cerl:c_case(cerl:c_var('X'),
                                 [cerl:c_clause([cerl:abstract({a, self()})], cerl:abstract([self(), 1]))])),
    Text = iolist_to_binary(core_listing_text:definition({f, 1}, core_listing_values:rewrite(Fun))),
    ?assertEqual(<<"'f'/1 =\nfun (X) ->\ncase X of\n<{'a',_new1}> when case primop 'left_out'() of\n"
                   "<'true'> when 'true' -> 'true'\n<__> when 'true' -> 'false'\nend -> [primop 'left_out'()|[1]]\n"
                   "end\n">>, Text).

what_has_a_literal_stays_as_it_is_test() ->
    Fun = cerl:c_fun([], cerl:abstract({1, 2.0, <<1:3>>, fun lists:map/2, #{a => [b]}})),
    ?assertEqual(Fun, core_listing_values:rewrite(Fun)).

%% A clause of a wide integer may be chosen, and those behind it too; but an atom is never one.
report_test_() ->
    listing_cases:with_program(fun() ->
        Listing = listing_cases:list(m, ["-module(m).", "-export([f/1, g/1, h/0]).",
                                         "f(X) when is_integer(X) ->",
                                         "    case X of", "        " ?WIDE " -> wide;", "        5 -> five;",
                                         "        _ -> other end.",
                                         "g(X) when is_atom(X) ->",
                                         "    case X of", "        " ?WIDE " -> wide;",
                                         "        _ -> other end.",
                                         "h() -> atom_to_list(" ?WIDE ")."]),
        ?assertEqual([<<"'m':10: this clause can never match">>,
                      <<"'m':12: function 'h'/0 has no local return">>,
                      <<"'m':12: the call 'erlang':'atom_to_list'/1 never returns">>],
                     listing_cases:report([Listing]))
    end).
