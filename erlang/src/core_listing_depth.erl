%%% How deep the parts of a function stand in one another, as `dialyze' counts it: what follows a `let' or a `do' is as
%%% deep as they are, and so is the rest of a list; characters are one deeper than their string.
-module(core_listing_depth).

-export([fits/1]).

-define(MOST, 400).

-spec fits(cerl:c_fun()) -> boolean().
fits(Fun) -> height(cerl:fun_body(Fun)) =< ?MOST.

%% The number of levels from the node to its deepest part.
height(Node) ->
    case cerl:type(Node) of
        literal -> of_value(cerl:concrete(Node));
        var -> 1;
        'let' -> max(1 + height(cerl:let_arg(Node)), height(cerl:let_body(Node)));
        seq -> max(1 + height(cerl:seq_arg(Node)), height(cerl:seq_body(Node)));
        cons -> max(1 + height(cerl:cons_hd(Node)), of_tail(cerl:cons_tl(Node)));
        letrec -> 1 + highest([cerl:letrec_body(Node) | [cerl:fun_body(Fun) || {_, Fun} <- cerl:letrec_defs(Node)]]);
        Type when Type =:= clause; Type =:= bitstr; Type =:= map_pair -> of_parts(Node);
        _ -> 1 + of_parts(Node)
    end.

of_parts(Node) -> highest(lists:append(core_listing_tree:parts(Node))).

highest(Nodes) -> lists:foldl(fun(Node, Highest) -> max(height(Node), Highest) end, 0, Nodes).

%% What follows the elements before it in a list.
of_tail(Node) ->
    case cerl:type(Node) of
        cons -> height(Node);
        literal -> of_value_tail(cerl:concrete(Node));
        _ -> 1 + height(Node)
    end.

of_value_tail([_ | _] = List) -> of_value(List);
of_value_tail(Value) -> 1 + of_value(Value).

of_value([Head | Tail]) -> max(1 + of_value(Head), of_value_tail(Tail));
of_value(Tuple) when is_tuple(Tuple) -> 1 + highest_value(tuple_to_list(Tuple));
of_value(Map) when is_map(Map) -> 1 + highest_value(maps:keys(Map) ++ maps:values(Map));
of_value(Bits) when is_bitstring(Bits), Bits =/= <<>> -> 1 + of_value([unsigned, big]);
of_value(_) -> 1.

highest_value(Values) -> lists:foldl(fun(Value, Highest) -> max(of_value(Value), Highest) end, 0, Values).
