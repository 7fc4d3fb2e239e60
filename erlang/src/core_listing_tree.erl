%%% Walks through the nodes of a tree. Unlike those of `cerl' and `cerl_trees' they see the map that a map expression
%%% updates, and take a literal as one node, so that long ones take no longer than they are.
-module(core_listing_tree).

-export([parts/1, with_parts/2, map_parts/2, map/2, fold/3, any/2]).

-spec parts(cerl:cerl()) -> [[cerl:cerl()]].
parts(Node) ->
    case cerl:type(Node) of
        map -> [[cerl:map_arg(Node)], cerl:map_es(Node)];
        _ -> cerl:subtrees(Node)
    end.

%% @doc The node with other parts, in the same groups.
-spec with_parts(cerl:cerl(), [[cerl:cerl()]]) -> cerl:cerl().
with_parts(Leaf, []) -> Leaf;
with_parts(Node, [First | Others] = Groups) ->
    case cerl:type(Node) of
        map -> cerl:update_c_map(Node, hd(First), lists:append(Others));
        _ -> cerl:update_tree(Node, Groups)
    end.

-spec map_parts(fun((cerl:cerl()) -> cerl:cerl()), cerl:cerl()) -> cerl:cerl().
map_parts(Change, Node) -> with_parts(Node, [[Change(Each) || Each <- Group] || Group <- parts(Node)]).

%% @doc Changes each node, after its parts.
-spec map(fun((cerl:cerl()) -> cerl:cerl()), cerl:cerl()) -> cerl:cerl().
map(Change, Node) -> Change(map_parts(fun(Each) -> map(Change, Each) end, Node)).

-spec fold(fun((cerl:cerl(), Value) -> Value), Value, cerl:cerl()) -> Value.
fold(Add, Value, Node) ->
    lists:foldl(fun(Group, OfGroups) ->
        lists:foldl(fun(Each, OfParts) -> fold(Add, OfParts, Each) end, OfGroups, Group)
    end, Add(Node, Value), parts(Node)).

-spec any(fun((cerl:cerl()) -> boolean()), cerl:cerl()) -> boolean().
any(Is, Node) ->
    Is(Node) orelse lists:any(fun(Group) -> lists:any(fun(Each) -> any(Is, Each) end, Group) end, parts(Node)).
