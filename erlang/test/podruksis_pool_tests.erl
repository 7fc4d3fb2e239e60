-module(podruksis_pool_tests).

-include_lib("eunit/include/eunit.hrl").

%% Answers stand in the order of the members, whoever ends first.
order_test_() -> {timeout, 60, fun order/0}.

order() ->
    Slow = fun(Number) -> timer:sleep((5 - Number) * 5), Number * Number end,
    ?assertEqual([{ok, 1}, {ok, 4}, {ok, 9}, {ok, 16}], podruksis_pool:map(Slow, [1, 2, 3, 4], 3, fun(_) -> ok end)),
    ?assertEqual([], podruksis_pool:map(Slow, [], 3, fun(_) -> ok end)).

%% No more processes than are allowed; each answer is told.
told_test_() -> {timeout, 60, fun told/0}.

told() ->
    Self = self(),
    Running = counters:new(1, []),
    Work = fun(_) ->
        counters:add(Running, 1, 1),
        Self ! {running, counters:get(Running, 1)},
        timer:sleep(2),
        counters:sub(Running, 1, 1)
    end,
    _ = podruksis_pool:map(Work, lists:seq(1, 20), 4, fun(Count) -> Self ! {done, Count} end),
    ?assertEqual(lists:seq(1, 20), [Count || Count <- lists:seq(1, 20), receive {done, Count} -> true after 0 -> false end]),
    ?assertEqual(20, length([x || _ <- lists:seq(1, 20), receive {running, Now} -> Now =< 4 after 0 -> false end])).

%% A crash is the answer of its member alone.
crash_test_() -> {timeout, 60, fun crash/0}.

crash() ->
    Work = fun(2) -> exit(why); (Number) -> Number end,
    ?assertEqual([{ok, 1}, {crashed, why}, {ok, 3}], podruksis_pool:map(Work, [1, 2, 3], 2, fun(_) -> ok end)).
