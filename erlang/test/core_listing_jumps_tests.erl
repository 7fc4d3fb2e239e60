-module(core_listing_jumps_tests).

-include_lib("eunit/include/eunit.hrl").

-define(HEAD, "-module(m).", "-export([f/1, g/0]).").

%% A loop that waits gives what its last round gives, in any number of values.
receive_of_three_values_test() ->
    Listing = listing_cases:list(m, [?HEAD, "f(X) -> X.",
                                     "g() -> receive {A, B} -> ok; [A | B] -> ok after 9 -> A = 1, B = 2 end,",
                                     "    {A, B}."]),
    ?assertNot(listing_cases:has("letrec", Listing)),
    ?assertNot(listing_cases:has("recv$", Listing)),
    ?assert(listing_cases:has("<{A,B}> when 'true' -> do primop 'remove_message'()\n<'ok',A,B>", Listing)),
    ?assert(listing_cases:has("<'true'> when 'true' -> let <A> = 1 in", Listing)),
    ?assertNot(listing_cases:has("recv_next", Listing)).

receive_that_waits_for_ever_test() ->
    Listing = listing_cases:list(m, [?HEAD, "f(X) -> receive X -> yes end.",
                                     "g() -> receive after infinity -> never end."]),
    ?assertNot(listing_cases:has("letrec", Listing)),
    ?assertNot(listing_cases:has("'recv_wait_timeout'('infinity') in\ncase _5", Listing)).

%% The clauses behind a split one are the second way of an unknown choice.
clause_that_is_split_test() ->
    Listing = listing_cases:list(m, [?HEAD, "f(<<N, Z:N/binary>>) -> Z;", "f(X) -> {none, X}.", "g() -> ok."]),
    ?assertNot(listing_cases:has("letrec", Listing)),
    ?assert(listing_cases:has("case primop 'unknown'() of\n<'a'> when 'true' -> case _0 of", Listing)),
    ?assert(listing_cases:has("<'b'> when 'true' -> case _0 of\n(<X> when 'true' -> {'none',X} -| [4])", Listing)),
    ?assertNot(listing_cases:has("label^", Listing)).

clauses_that_are_split_in_one_another_test() ->
    Listing = listing_cases:list(m, [?HEAD,
                                     "f({<<N, A:N/binary>>, <<M, B:M/binary>>}) -> {A, B};", "f(_) -> none.",
                                     "g() -> receive <<N, A:N/binary>> -> A; {<<N, A:N/binary>>, _} -> A end."]),
    ?assertNot(listing_cases:has("letrec", Listing)),
    ?assertNot(listing_cases:has("^", Listing)).

maybe_with_else_stays_a_letrec_test() ->
    Listing = listing_cases:list(m, ["-module(m).", "-feature(maybe_expr, enable).", "-export([f/1]).",
                                     "f(X) -> maybe {ok, Y} ?= X, Y else {error, _} -> none end."]),
    ?assert(listing_cases:has("letrec\n'maybe_else_fail'/1 = fun (", Listing)).

%% A jump from a place where its value is used isn't one that can be left out.
jump_that_is_no_tail_keeps_the_letrec_test() ->
    Place = cerl:c_var({l, 0}),
    Jump = cerl:c_apply(Place, []),
    Case = cerl:c_case(cerl:c_var('X'), [cerl:c_clause([cerl:c_atom(a)], cerl:c_atom(b)),
                                         cerl:c_clause([cerl:c_var('Y')], Jump)]),
    InArgument = goto(Place, cerl:c_atom(c), cerl:c_let([cerl:c_var('Z')], Case, cerl:c_var('Z'))),
    ?assertEqual(letrec, rewritten(cerl:c_fun([cerl:c_var('X')], InArgument))),
    InTail = goto(Place, cerl:c_atom(c), Case),
    ?assertEqual('case', rewritten(cerl:c_fun([cerl:c_var('X')], InTail))).

rewritten(Fun) -> cerl:type(cerl:fun_body(core_listing_jumps:rewrite(Fun))).

%% What is called before a jump may enter a function, so it stays.
call_before_a_jump_keeps_the_letrec_test() ->
    Place = cerl:c_var({l, 0}),
    Jump = cerl:c_seq(cerl:c_apply(cerl:c_var({f, 0}), []), cerl:c_apply(Place, [])),
    Case = cerl:c_case(cerl:c_var('X'), [cerl:c_clause([cerl:c_atom(a)], cerl:c_atom(b)),
                                         cerl:c_clause([cerl:c_var('Y')], Jump)]),
    Fun = cerl:c_fun([cerl:c_var('X')], goto(Place, cerl:c_atom(c), Case)),
    ?assertEqual(letrec, rewritten(Fun)).

goto(Place, Then, Body) ->
    cerl:set_ann(cerl:c_letrec([{Place, cerl:c_fun([], Then)}], Body), [letrec_goto, no_inline]).

%% A last clause of the compiler that only raises is gone; one of the source stays.
failing_clause_of_the_compiler_is_gone_test() ->
    Listing = listing_cases:list(m, [?HEAD, "f(X) -> case X of a -> b end.",
                                     "g() -> case f(a) of b -> c; _ -> error(d) end."]),
    ?assertNot(listing_cases:has("match_fail", Listing)),
    ?assert(listing_cases:has("<_1> when 'true' -> call 'erlang':'error'('d')", Listing)).

case_of_failing_clauses_alone_keeps_them_test() ->
    Fail = cerl:ann_c_clause([compiler_generated], [cerl:c_var('X')],
                             cerl:c_primop(cerl:c_atom(match_fail), [cerl:c_var('X')])),
    Case = cerl:c_case(cerl:c_atom(a), [Fail]),
    ?assertEqual([Fail], cerl:case_clauses(cerl:fun_body(core_listing_jumps:rewrite(cerl:c_fun([], Case))))).

%% Runs of the functions, and what the report may not say of them.
report_test_() ->
    listing_cases:with_program(fun() ->
        Lines = ["-module(m).", "-export([a/0, b/1, c/1, d/0]).",
                 "a() -> self() ! {x, 1}, receive {A, B} -> B, A; _ -> A = none end, hit(A).",
                 "b(X) -> case X of <<N, Z:N/binary>> -> hit(Z); {_, _} -> pair(); [] -> never_missed() end.",
                 "c(<<N, Z:N/binary, M, Y:M/binary>>) -> {Z, Y};",
                 "c(Other) -> pad(Other).",
                 "d() -> receive {X, Y} when X > Y -> X after 0 -> late() end.",
                 "hit(A) -> A.",
                 "pair() -> pair.",
                 "never_missed() -> nil.",
                 "pad(X) -> X.",
                 "late() -> late."],
        Listing = listing_cases:list(m, Lines),
        ?assertEqual([], listing_cases:report([Listing]))
    end).

report_of_what_cannot_match_in_a_receive_test_() ->
    listing_cases:with_program(fun() ->
        Listing = listing_cases:list(m, ["-module(m).", "-export([f/0]).",
                                         "f() ->", "  receive",
                                         "    {X, <<N, Z:N/binary>>} when is_atom(X) ->", "      case X of",
                                         "        1 -> Z;", "        _ -> none", "      end", "  end."]),
        ?assertEqual([<<"'m':7: this clause can never match">>], listing_cases:report([Listing]))
    end).
