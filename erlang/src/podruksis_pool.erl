%% One function over the members of a list, by some processes at once.
-module(podruksis_pool).

-export([map/4]).

%% The answers, in the order of the list. A member at which the function crashes
%% has {crashed, Reason}. Done is told how many answers there are.
-spec map(fun((Member) -> Answer), [Member], pos_integer(), fun((non_neg_integer()) -> term())) ->
          [{ok, Answer} | {crashed, term()}].
map(Function, Members, Processes, Done) ->
    Numbered = lists:zip(lists:seq(1, length(Members)), Members),
    Answers = work(Function, Numbered, Processes, #{}, #{}, Done),
    [maps:get(Number, Answers) || {Number, _} <- Numbered].

%% Starts processes while some are free, and takes answers; Running and Answers are by monitor and by number.
-spec work(fun((Member) -> Answer), [{pos_integer(), Member}], non_neg_integer(), #{reference() => pos_integer()},
           Answers, fun((non_neg_integer()) -> term())) -> Answers
              when Answers :: #{pos_integer() => {ok, Answer} | {crashed, term()}}.
work(Function, [{Number, Member} | Members], Free, Running, Answers, Done) when Free > 0 ->
    {_, Monitor} = spawn_monitor(fun() -> exit({answer, Function(Member)}) end),
    work(Function, Members, Free - 1, Running#{Monitor => Number}, Answers, Done);
work(_, [], _, Running, Answers, _) when map_size(Running) =:= 0 -> Answers;
work(Function, Members, Free, Running, Answers, Done) ->
    receive
        {'DOWN', Monitor, process, _, Reason} when is_map_key(Monitor, Running) ->
            {Number, Others} = maps:take(Monitor, Running),
            Answer = case Reason of {answer, Given} -> {ok, Given}; _ -> {crashed, Reason} end,
            Done(map_size(Answers) + 1),
            work(Function, Members, Free + 1, Others, Answers#{Number => Answer}, Done)
    end.
