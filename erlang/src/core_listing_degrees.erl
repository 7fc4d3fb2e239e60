%%% How many values the parts of a function are asked for. A body that gives another number than its place asks for has
%%% no listing.
-module(core_listing_degrees).

-export([are_right/1]).

-define(MOST, 255).

%% @doc Whether each expression of the function can give as many values as its place asks for.
-spec are_right(cerl:c_fun()) -> boolean().
are_right(Fun) -> gives(cerl:fun_body(Fun), 1).

%% `any' stands where values are dropped.
gives(_, Asked) when is_integer(Asked), Asked > ?MOST -> false;
gives(Node, Asked) ->
    case cerl:type(Node) of
        values -> is_number_of(length(cerl:values_es(Node)), Asked) andalso all_give_one(cerl:values_es(Node));
        'let' -> gives(cerl:let_arg(Node), length(cerl:let_vars(Node))) andalso gives(cerl:let_body(Node), Asked);
        seq -> gives(cerl:seq_arg(Node), any) andalso gives(cerl:seq_body(Node), Asked);
        letrec ->
            lists:all(fun({_, Fun}) -> are_right(Fun) end, cerl:letrec_defs(Node))
                andalso gives(cerl:letrec_body(Node), Asked);
        'case' -> case_gives(Node, Asked);
        'try' -> try_gives(Node, Asked);
        'receive' ->
            lists:all(fun(Each) -> clause_gives(Each, 1, Asked) end, cerl:receive_clauses(Node))
                andalso gives(cerl:receive_timeout(Node), 1) andalso gives(cerl:receive_action(Node), Asked);
        primop -> all_give_one(cerl:primop_args(Node));
        call ->
            (never_returns(Node) orelse is_number_of(1, Asked)) andalso
                all_give_one([cerl:call_module(Node), cerl:call_name(Node) | cerl:call_args(Node)]);
        'fun' -> is_number_of(1, Asked) andalso are_right(Node);
        bitstr -> all_give_one(lists:append(core_listing_tree:parts(Node)));
        map_pair -> all_give_one([cerl:map_pair_key(Node), cerl:map_pair_val(Node)]);
        Type ->
            lists:member(Type, [var, literal, cons, tuple, map, binary, apply, 'catch'])
                andalso is_number_of(1, Asked) andalso all_give_one(lists:append(core_listing_tree:parts(Node)))
    end.

all_give_one(Nodes) -> lists:all(fun(Node) -> gives(Node, 1) end, Nodes).

is_number_of(_, any) -> true;
is_number_of(Given, Asked) -> Given =:= Asked.

case_gives(Node, Asked) ->
    [First | _] = Clauses = cerl:case_clauses(Node),
    Patterns = length(cerl:clause_pats(First)),
    gives(cerl:case_arg(Node), Patterns)
        andalso lists:all(fun(Each) -> clause_gives(Each, Patterns, Asked) end, Clauses).

clause_gives(Clause, Patterns, Asked) ->
    length(cerl:clause_pats(Clause)) =:= Patterns andalso gives(cerl:clause_guard(Clause), 1)
        andalso gives(cerl:clause_body(Clause), Asked).

try_gives(Node, Asked) ->
    lists:member(length(cerl:try_evars(Node)), [2, 3])
        andalso gives(cerl:try_arg(Node), length(cerl:try_vars(Node)))
        andalso gives(cerl:try_body(Node), Asked) andalso gives(cerl:try_handler(Node), Asked).

never_returns(Node) ->
    {Module, Name} = {cerl:call_module(Node), cerl:call_name(Node)},
    cerl:is_c_atom(Module) andalso cerl:is_c_atom(Name) andalso cerl:atom_val(Module) =:= erlang
        andalso lists:member({cerl:atom_val(Name), cerl:call_arity(Node)},
                             [{error, 1}, {error, 2}, {exit, 1}, {throw, 1}, {halt, 0}, {halt, 1}]).
