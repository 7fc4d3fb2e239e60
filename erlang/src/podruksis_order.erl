%% The strongly connected components of a graph, by Tarjan's search.
-module(podruksis_order).

-export([components/1]).

-record(search, {
    graph :: #{term() => [term()]},
    next = 0 :: non_neg_integer(),
    %% the number of each node that was met, infinity once its list is found
    number = #{} :: #{term() => non_neg_integer() | infinity},
    stack = [] :: [term()],
    found = [] :: [[term()]]
}).

%% Lists of nodes that reach one another, in an order in which an edge leads to
%% no later list. Each edge leads to a node of the graph. The order of the nodes
%% in a list is that of terms.
-spec components(#{Node => [Node]}) -> [[Node]].
components(Graph) ->
    Search = lists:foldl(fun(Node, Found) -> {Next, _} = visit(Node, Found), Next end, #search{graph = Graph},
                         lists:sort(maps:keys(Graph))),
    lists:reverse(Search#search.found).

%% Visits a node; answers the least number that it reaches on the stack.
-spec visit(term(), #search{}) -> {#search{}, non_neg_integer() | infinity}.
visit(Node, #search{number = Number} = Search) when is_map_key(Node, Number) ->
    {Search, maps:get(Node, Number)};
visit(Node, #search{graph = Graph, next = Mine, number = Number, stack = Stack} = Search) ->
    Met = Search#search{next = Mine + 1, number = Number#{Node => Mine}, stack = [Node | Stack]},
    {Seen, Least} = lists:foldl(fun(Other, {Before, Low}) ->
                                        {After, Reached} = visit(Other, Before),
                                        {After, min(Low, Reached)}
                                end, {Met, Mine}, maps:get(Node, Graph)),
    case Least of
        Mine -> {close(Node, Seen), infinity};
        _ -> {Seen, Least}
    end.

%% Takes a component from the stack. Who meets its nodes again reaches nothing.
-spec close(term(), #search{}) -> #search{}.
close(Node, #search{stack = Stack, number = Number, found = Found} = Search) ->
    {Others, [Node | Rest]} = lists:splitwith(fun(Other) -> Other =/= Node end, Stack),
    Component = [Node | Others],
    Search#search{stack = Rest, found = [lists:sort(Component) | Found],
                  number = lists:foldl(fun(Other, Map) -> Map#{Other => infinity} end, Number, Component)}.
