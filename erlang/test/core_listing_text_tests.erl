%%% The spelling of names, literals and forms.
-module(core_listing_text_tests).

-include_lib("eunit/include/eunit.hrl").

atoms_test_() ->
    [?_assertEqual(Text, iolist_to_binary(core_listing_names:atom(Atom)))
     || {Text, Atom} <- [{<<"'a'">>, a}, {<<"'a\\'b\\\\'">>, 'a\'b\\'}, {<<"'\\012\\177'">>, '\n\d'},
                         {<<"'ä→'"/utf8>>, 'ä→'}, {<<"''">>, ''}]].

literals_test_() ->
    [?_assertEqual(Text, iolist_to_binary(core_listing_constants:expression(Value)))
     || {Text, Value} <- [{<<"-1">>, -1}, {<<"1.0e-300">>, 1.0e-300}, {<<"-0.0">>, -0.0}, {<<"[]">>, []},
                          {<<"\"a\\\"b\\\\\"">>, "a\"b\\"}, {<<"[97,10]">>, "a\n"}, {<<"[97,300]">>, [97, 300]},
                          {<<"[1|'a']">>, [1 | a]}, {<<"[[],\"a\"|{}]">>, [[], "a" | {}]}, {<<"{1,{'a'}}">>, {1, {a}}},
                          {<<"~{'a'=>~{}~,'b'=>1}~">>, #{b => 1, a => #{}}}, {<<"#{}#">>, <<>>},
                          {<<"#{#<5>(3,1,'integer',['unsigned','big'])}#">>, <<5:3>>},
                          {<<"#{#<1>(120,1,'integer',['unsigned','big']),#<2>(8,1,'integer',['unsigned','big'])}#">>,
                           <<1:120, 2>>},
                          {<<"fun 'lists':'map'/2">>, fun lists:map/2}]].

map_literal_in_a_pattern_test() ->
    ?assertEqual(<<"~{'a':=~{1:=2}~}~">>, iolist_to_binary(core_listing_constants:pattern(#{a => #{1 => 2}}))).

%% Each variable has one spelling, and no two have the same.
variables_test() ->
    Names = ['X', 'Åb', '_C5b', '_X@C5b', 'x', 7, '_7', '_', '__', -1, 'a b'],
    Variables = core_listing_names:variables(cerl:c_values([cerl:c_var(Name) || Name <- Names])),
    Spelled = [lists:flatten(core_listing_names:variable(Name, Variables)) || Name <- Names],
    ?assertEqual(length(Names), length(lists:usort(Spelled))),
    [?assertMatch({match, _}, re:run(Each, "^[A-Z_][A-Za-z0-9_@]*$")) || Each <- Spelled],
    ?assertEqual("X", hd(Spelled)).

%% The map that is updated stays, also where values are rewritten.
updated_map_test() ->
    Listing = listing_cases:list(m, ["-module(m).", "-export([f/1]).", "f(M) -> M#{a => 1}, M#{b := 1 bsl 3, "
                                     "170141183460469231731687303715884105728 => M}."]),
    ?assert(listing_cases:has("~{'a'=>1|M}~", Listing)),
    ?assert(listing_cases:has("call 'erlang':'bsl'(1,128)=>M|M}~", Listing)).

%% Forms as the compiler gives them, and a report that shows that all were read.
forms_test_() ->
    listing_cases:with_program(fun() ->
        Lines = ["-module(m).", "-export([f/4, 'n\x{e4}'/1, g/2]).",
                 "f(A, #{k := {B, _}} = Map, [C | D] = List, <<E:4, F/bits>>) when A > B; is_atom(C) ->",
                 "    try Map#{k := A, new => [D | <<E:4, F/bits>>]} of",
                 "        #{k := 1} -> catch exit(List);",
                 "        Other -> {Other, fun lists:map/2, fun g/2, fun(X) -> X + A end}",
                 "    catch",
                 "        throw:{a, T} -> [T, 1.5, \"text\", <<\"bits\">>, $c];",
                 "        _:R:S -> erlang:raise(error, R, S)",
                 "    after g(fun(Z) -> Z end, lists) end.",
                 "'n\x{e4}'(\x{c5}b) -> [{X, Y} || X <- \x{c5}b, <<Y:3>> <= X, Y > 1].",
                 "g(F, M) -> F(M), (M:k())(1), receive M -> ok after 5 -> << <<Y>> || Y <- F(a) >> end."],
        ?assertEqual([], listing_cases:report([listing_cases:list(m, Lines)]))
    end).
