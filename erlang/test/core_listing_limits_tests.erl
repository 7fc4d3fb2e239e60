%%% Numbers of values, depth and length: what a listing may not have, and what stands in its place.
-module(core_listing_limits_tests).

-include_lib("eunit/include/eunit.hrl").

degrees_test_() ->
    One = cerl:c_atom(a),
    Two = cerl:c_values([One, One]),
    X = cerl:c_var('X'),
    Fun = fun(Body) -> cerl:c_fun([X], Body) end,
    Call = fun(Name) -> cerl:c_call(cerl:c_atom(erlang), cerl:c_atom(Name), [One]) end,
    Primop = cerl:c_primop(cerl:c_atom(some), []),
    Clause = fun(Patterns, Body) -> cerl:c_clause(Patterns, Body) end,
    Let = fun(Argument) -> cerl:c_let([X, cerl:c_var('Y')], Argument, X) end,
    Right = [One, X, Primop, cerl:c_seq(Two, One), Let(Two), Let(Primop), Let(Call(throw)),
             cerl:c_case(Two, [Clause([X, X], One)]), cerl:c_try(One, [X], X, [X, X, X], X),
             cerl:c_letrec([{cerl:c_var({f, 0}), cerl:c_fun([], One)}], X)],
    Wrong = [Two, Let(One), Let(Call(length)), cerl:c_tuple([Two]), cerl:c_case(Two, [Clause([X], One)]),
             cerl:c_case(X, [Clause([X], One), Clause([X, X], One)]), cerl:c_try(One, [X], X, [X], X),
             cerl:c_letrec([{cerl:c_var({f, 0}), cerl:c_fun([], Two)}], X), cerl:c_fun([], Two),
             cerl:c_let(lists:duplicate(256, X), Primop, X)],
    [?_assert(core_listing_degrees:are_right(Fun(Body))) || Body <- Right] ++
        [?_assertNot(core_listing_degrees:are_right(Fun(Body))) || Body <- Wrong].

%% Two values of a function that isn't a place to jump to: the body is left out, and what it names counts as used.
body_with_wrong_degree_is_left_out_test() ->
    F = cerl:c_var({f, 0}),
    Two = cerl:c_fun([], cerl:c_let([cerl:c_var('X')], cerl:c_values([cerl:c_apply(F, []), cerl:c_atom(a)]),
                                    cerl:c_var('X'))),
    Core = cerl:c_module(cerl:c_atom(m), [cerl:c_var({g, 0})], [],
                         [{F, cerl:c_fun([], cerl:c_atom(a))}, {cerl:c_var({g, 0}), Two}]),
    {ok, Listing} = core_listing_module:list(#{module => m, core => Core, compile => []}, #{}),
    ?assertEqual(["'g'/0: body left out: a part of it gives another number of values than its place asks for"],
                 listing_cases:notes(Listing)),
    ?assertEqual(<<"module 'm' ['g'/0]\nattributes []\n'f'/0 =\n(fun () ->\n'a' -| ['compiler_generated'])\n'g'/0 =\n"
                   "(fun () -> primop 'left_out'('f'/0) -| [1,'compiler_generated'])\nend\n">>,
                 iolist_to_binary(maps:get(text, Listing))).

%% Each way in which parts may stand in one another: accepted up to the limit, and left out behind it.
depth_test_() ->
    listing_cases:with_program(fun() ->
        [begin
             Deepest = lists:last([N || N <- lists:seq(100, 420), core_listing_depth:fits(fun_of(Nest(N)))]),
             ?assertEqual({Name, accepted}, {Name, answer(Nest(Deepest))}),
             ?assertEqual({Name, refused}, {Name, answer(Nest(Deepest + 1))})
         end || {Name, Nest} <- nests()]
    end).

fun_of(Body) -> cerl:c_fun([cerl:c_var('X')], Body).

%% The answer of the program to the text, whether it fits or not.
answer(Body) ->
    Text = core_listing_text:module(m, [{f, 1}], [core_listing_text:definition({f, 1}, fun_of(Body))]),
    case listing_cases:check([Text]) of
        {Status, _} when Status =:= 0; Status =:= 2 -> accepted;
        {1, Reason} ->
            ?assertMatch({_, _}, binary:match(Reason, <<"refused 6 TooDeep">>)),
            refused
    end.

nests() ->
    X = cerl:c_var('X'),
    True = cerl:c_atom(true),
    Pattern = fun(P) -> cerl:c_case(X, [cerl:c_clause([P], True, True)]) end,
    Times = fun(Wrap, Inner) ->
        fun(N) -> lists:foldl(fun(_, Each) -> Wrap(Each) end, Inner, lists:seq(1, N)) end
    end,
    In = fun(Nest, Wrap) -> fun(N) -> Wrap(Nest(N)) end end,
    Tuples = Times(fun(E) -> cerl:c_tuple([X, E]) end, X),
    Segment = fun(Value) ->
        cerl:c_binary([cerl:c_bitstr(Value, cerl:c_int(8), cerl:c_int(1), cerl:c_atom(integer), cerl:abstract([big]))])
    end,
    [{tuples, Tuples},
     {literals, Times(fun(E) -> cerl:c_tuple([E]) end, cerl:c_atom(a))},
     {literal_lists, Times(fun(E) -> cerl:c_cons(E, cerl:abstract([])) end, cerl:c_atom(a))},
     {literal_strings, Times(fun(E) -> cerl:c_tuple([E]) end, cerl:abstract("ab"))},
     {literal_binaries, Times(fun(E) -> cerl:c_tuple([E]) end, cerl:abstract(<<1:3>>))},
     {literal_maps, Times(fun(E) -> cerl:abstract(#{a => cerl:concrete(E)}) end, cerl:abstract(a))},
     {literal_tails, Times(fun(E) -> cerl:c_cons(cerl:c_tuple([E]), cerl:c_atom(a)) end, cerl:c_atom(a))},
     {lists, Times(fun(E) -> cerl:c_cons(E, X) end, X)},
     {strings_in_tails, Times(fun(E) -> cerl:c_tuple([E]) end, cerl:c_cons(X, cerl:abstract("ab")))},
     {cases, Times(fun(E) -> cerl:c_case(X, [cerl:c_clause([X], True, E)]) end, X)},
     {arguments, Times(fun(E) -> cerl:c_case(E, [cerl:c_clause([X], True, X)]) end, X)},
     {guards, In(Tuples, fun(E) -> cerl:c_case(X, [cerl:c_clause([X], E, X)]) end)},
     {funs, Times(fun(E) -> cerl:c_fun([], E) end, X)},
     {lets, Times(fun(E) -> cerl:c_let([X], E, X) end, X)},
     {let_bodies, Times(fun(E) -> cerl:c_let([X], X, cerl:c_tuple([E])) end, X)},
     {sequences, Times(fun(E) -> cerl:c_seq(E, X) end, X)},
     {letrecs, Times(fun(E) -> cerl:c_letrec([{cerl:c_var({g, 0}), cerl:c_fun([], E)}], X) end, X)},
     {letrec_bodies, Times(fun(E) -> cerl:c_letrec([{cerl:c_var({g, 0}), cerl:c_fun([], X)}], E) end, X)},
     {calls, Times(fun(E) -> cerl:c_call(cerl:c_atom(a), cerl:c_atom(b), [E]) end, X)},
     {applies, Times(fun(E) -> cerl:c_apply(E, []) end, X)},
     {primops, Times(fun(E) -> cerl:c_primop(cerl:c_atom(a), [E]) end, X)},
     {catches, Times(fun(E) -> cerl:c_catch(E) end, X)},
     {tries, Times(fun(E) -> cerl:c_try(E, [X], X, [X, cerl:c_var('Y'), cerl:c_var('Z')], X) end, X)},
     {handlers, Times(fun(E) -> cerl:c_try(X, [X], X, [X, cerl:c_var('Y'), cerl:c_var('Z')], E) end, X)},
     {maps, Times(fun(E) -> cerl:c_map([cerl:c_map_pair(X, E)]) end, X)},
     {updated_maps, Times(fun(E) -> cerl:ann_c_map([], E, [cerl:c_map_pair(X, X)]) end, X)},
     {segments, Times(Segment, X)},
     {pattern_tuples, In(Times(fun(E) -> cerl:c_tuple([cerl:c_atom(a), E]) end, cerl:c_var('Y')), Pattern)},
     {pattern_lists, In(Times(fun(E) -> cerl:c_cons(E, cerl:abstract([])) end, cerl:c_var('Y')), Pattern)},
     {pattern_literals, In(Times(fun(E) -> cerl:c_tuple([E]) end, cerl:c_atom(a)), Pattern)},
     {pattern_segments, In(Tuples, fun(E) -> Pattern(cerl:c_binary(
         [cerl:c_bitstr(cerl:c_var('Y'), E, cerl:c_int(1), cerl:c_atom(integer), cerl:abstract([big]))])) end)},
     {pattern_keys, In(Tuples, fun(E) -> Pattern(cerl:c_map_pattern([cerl:c_map_pair_exact(E, cerl:c_var('Y'))])) end)},
     {pattern_values, In(Times(fun(E) -> cerl:c_map_pattern([cerl:c_map_pair_exact(cerl:c_atom(k), E)]) end,
                               cerl:c_var('Y')), Pattern)}].

deep_body_is_left_out_test() ->
    Listing = listing_cases:list(m, ["-module(m).", "-export([f/1]).", "f(X) -> ",
                                     lists:duplicate(401, $[), "X", lists:duplicate(401, $]), "."]),
    ?assertEqual(["'f'/1: body left out: it is deeper than 400 expressions in one another"],
                 listing_cases:notes(Listing)),
    ?assertEqual(<<"(fun (A1) -> primop 'left_out'() -| [3,'compiler_generated'])">>,
                 lists:nth(4, listing_cases:lines(Listing))).

%% The longest body goes first, and no more than have to.
long_listing_test() ->
    Definition = fun(Name, Length) ->
        {cerl:c_var({Name, 0}), cerl:c_fun([], cerl:abstract(<<0:Length/unit:8>>))}
    end,
    Core = cerl:c_module(cerl:c_atom(m), [], [],
                         [Definition(a, 2400000), Definition(b, 2800000), Definition(c, 2000000)]),
    {ok, Listing} = core_listing_module:list(#{module => m, core => Core, compile => []}, #{}),
    ?assertEqual(["'b'/0: body left out: the listing is longer than 16 MiB"], listing_cases:notes(Listing)),
    ?assert(iolist_size(maps:get(text, Listing)) < 16 * 1024 * 1024).
