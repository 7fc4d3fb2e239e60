%%% Values that a listing has no literal for: integers of 2^127 or more and of -2^127 or less, and process
%%% identifiers, ports, references and local funs, which other languages' compilers may leave in literals.
%%%
%%% In an expression such an integer is `call 'erlang':'bsl'(1,128)', of which the analysis knows that it is an integer,
%%% and another value is a primop, which gives any. In a pattern it is a fresh variable with a test in the guard that
%%% may come out either way; so the clause may be chosen for the value, and the clauses behind it for others.
-module(core_listing_values).

-export([rewrite/1]).

-define(LIMIT, (1 bsl 127)).

-spec rewrite(cerl:c_fun()) -> cerl:c_fun().
rewrite(Fun) ->
    case core_listing_tree:any(fun(Node) -> cerl:is_literal(Node) andalso not has_text(cerl:concrete(Node)) end, Fun) of
        true -> expression(Fun);
        false -> Fun
    end.

has_text(N) when is_integer(N) -> N < ?LIMIT andalso N > -?LIMIT;
has_text([Head | Tail]) -> has_text(Head) andalso has_text(Tail);
has_text(Tuple) when is_tuple(Tuple) -> lists:all(fun has_text/1, tuple_to_list(Tuple));
has_text(Map) when is_map(Map) -> has_text(maps:to_list(Map));
has_text(Function) when is_function(Function) -> erlang:fun_info(Function, type) =:= {type, external};
has_text(Value) -> is_atom(Value) orelse is_float(Value) orelse is_bitstring(Value) orelse Value =:= [].

expression(Node) ->
    case cerl:type(Node) of
        literal -> value(cerl:concrete(Node));
        clause -> clause(Node);
        _ -> core_listing_tree:map_parts(fun expression/1, Node)
    end.

value(Value) ->
    case has_text(Value) of
        true -> cerl:abstract(Value);
        false -> other_value(Value)
    end.

other_value(N) when is_integer(N) -> wide(N);
other_value([Head | Tail]) -> cerl:c_cons(value(Head), value(Tail));
other_value(Tuple) when is_tuple(Tuple) -> cerl:c_tuple([value(Each) || Each <- tuple_to_list(Tuple)]);
other_value(Map) when is_map(Map) ->
    cerl:c_map([cerl:c_map_pair(value(Key), value(Value)) || {Key, Value} <- lists:sort(maps:to_list(Map))]);
other_value(_) -> cerl:c_primop(cerl:c_atom(left_out), []).

wide(N) ->
    One = case N < 0 of true -> -1; false -> 1 end,
    generated_call('bsl', [cerl:c_int(One), cerl:c_int(128)]).

generated_call(Name, Arguments) ->
    cerl:ann_c_call([compiler_generated], cerl:c_atom(erlang), cerl:c_atom(Name), Arguments).

clause(Node) ->
    {Patterns, Tests} = lists:mapfoldl(fun pattern/2, [], cerl:clause_pats(Node)),
    Guard = guard(lists:reverse(Tests), expression(cerl:clause_guard(Node))),
    cerl:update_c_clause(Node, Patterns, Guard, expression(cerl:clause_body(Node))).

guard([], Guard) -> Guard;
guard([Test | Tests], Guard) ->
    cerl:c_case(Test, [cerl:c_clause([cerl:c_atom(true)], guard(Tests, Guard)),
                       cerl:c_clause([cerl:c_var('_')], cerl:c_atom(false))]).

%% Gives the pattern, and adds the tests that the guard must have.
pattern(Node, Tests) ->
    case cerl:type(Node) of
        literal -> literal_pattern(cerl:concrete(Node), Tests);
        bitstr ->
            {Value, Tests1} = pattern(cerl:bitstr_val(Node), Tests),
            {cerl:update_c_bitstr(Node, Value, expression(cerl:bitstr_size(Node)), cerl:bitstr_unit(Node),
                                  cerl:bitstr_type(Node), cerl:bitstr_flags(Node)), Tests1};
        map_pair ->
            {Value, Tests1} = pattern(cerl:map_pair_val(Node), Tests),
            {cerl:update_c_map_pair(Node, cerl:map_pair_op(Node), expression(cerl:map_pair_key(Node)), Value), Tests1};
        map ->
            {Pairs, Tests1} = lists:mapfoldl(fun pattern/2, Tests, cerl:map_es(Node)),
            {cerl:update_c_map(Node, cerl:map_arg(Node), Pairs), Tests1};
        _ ->
            OfGroup = fun(Group, Before) -> lists:mapfoldl(fun pattern/2, Before, Group) end,
            {Groups, Tests1} = lists:mapfoldl(OfGroup, Tests, cerl:subtrees(Node)),
            {core_listing_tree:with_parts(Node, Groups), Tests1}
    end.

literal_pattern(Value, Tests) ->
    case has_text(Value) of
        true -> {cerl:abstract(Value), Tests};
        false -> other_pattern(Value, Tests)
    end.

other_pattern([Head | Tail], Tests) ->
    {Head1, Tests1} = literal_pattern(Head, Tests),
    {Tail1, Tests2} = literal_pattern(Tail, Tests1),
    {cerl:c_cons(Head1, Tail1), Tests2};
other_pattern(Tuple, Tests) when is_tuple(Tuple) ->
    {Elements, Tests1} = lists:mapfoldl(fun literal_pattern/2, Tests, tuple_to_list(Tuple)),
    {cerl:c_tuple(Elements), Tests1};
other_pattern(Value, Tests) ->
    Variable = fresh(length(Tests)),
    {Variable, [test(Variable, Value) | Tests]}.

test(Variable, N) when is_integer(N) -> generated_call('=:=', [Variable, wide(N)]);
test(_, _) -> cerl:c_primop(cerl:c_atom(left_out), []).

%% The compiler's variables have names, or numbers from 0 on.
fresh(Before) -> cerl:c_var(-1 - Before).
