%%% Rewrites what the compiler writes for its own use and a reader of Core Erlang needn't know.
%%%
%%% A `letrec' that is annotated with `letrec_goto' isn't a function but a place to jump to: of a loop that waits for a
%%% message, or of the clauses that follow one which was split. It may give any number of values, which a function
%%% may not. Only a jump to it in tail position is rewritten, so that nothing is evaluated behind it.
-module(core_listing_jumps).

-export([rewrite/1]).

%% @doc Replaces places to jump to by what they lead to, and leaves out last clauses that say that none fits.
-spec rewrite(cerl:c_fun()) -> cerl:c_fun().
rewrite(Fun) -> core_listing_tree:map(fun rewrite_node/1, Fun).

rewrite_node(Node) ->
    case cerl:type(Node) of
        letrec -> rewrite_letrec(Node, lists:member(letrec_goto, cerl:get_ann(Node)), cerl:letrec_defs(Node));
        'case' -> without_failing_clauses(Node);
        _ -> Node
    end.

rewrite_letrec(Node, true, [{Variable, Fun}]) ->
    Place = cerl:var_name(Variable),
    case cerl:fun_vars(Fun) of
        [] -> replace(Node, Place, without_jumps(cerl:fun_body(Fun), Place), cerl:letrec_body(Node));
        _ -> Node
    end;
rewrite_letrec(Node, _, _) -> Node.

%% A loop that waits is entered at once: its body stands for it. A round that goes round gives nothing, and the last one
%% is a run of the rest of the body. What jumps to later clauses, and these clauses, are two ways with the same
%% variables: a case of an unknown value has both.
replace(Node, Place, Loop, Body) ->
    Entered = without_jumps(Body, Place),
    case is_jump(Body, Place) of
        true -> unless_named(Place, [Loop], Loop, Node);
        false -> unless_named(Place, [Loop, Entered], either(Entered, Loop), Node)
    end.

unless_named(Place, Trees, New, Old) ->
    case lists:any(fun(Tree) -> names(Tree, Place) end, Trees) of
        true -> Old;
        false -> New
    end.

either(First, Second) ->
    cerl:c_case(cerl:c_primop(cerl:c_atom(unknown), []),
                [cerl:c_clause([cerl:c_atom(a)], First), cerl:c_clause([cerl:c_atom(b)], Second)]).

names(Tree, Place) -> core_listing_tree:any(fun(Node) -> is_variable(Node, Place) end, Tree).

is_variable(Node, Name) -> cerl:type(Node) =:= var andalso cerl:var_name(Node) =:= Name.

is_jump(Node, Place) -> cerl:type(Node) =:= apply andalso is_variable(cerl:apply_op(Node), Place).

%% Leaves out the clauses in tail position that do nothing but jump. A clause that is left out was chosen by no run that
%% gives a value there, and those behind it may be chosen as before.
without_jumps(Node, Place) ->
    case cerl:type(Node) of
        'let' ->
            cerl:update_c_let(Node, cerl:let_vars(Node), cerl:let_arg(Node), without_jumps(cerl:let_body(Node), Place));
        seq -> cerl:update_c_seq(Node, cerl:seq_arg(Node), without_jumps(cerl:seq_body(Node), Place));
        letrec ->
            cerl:update_c_letrec(Node, cerl:letrec_defs(Node), without_jumps(cerl:letrec_body(Node), Place));
        'case' ->
            Clauses = cerl:case_clauses(Node),
            Kept = [in_clause(Each, Place) || Each <- Clauses, not only_jumps(cerl:clause_body(Each), Place)],
            cerl:update_c_case(Node, cerl:case_arg(Node), some_clause(Kept, Clauses));
        _ -> Node
    end.

in_clause(Clause, Place) ->
    cerl:update_c_clause(Clause, cerl:clause_pats(Clause), cerl:clause_guard(Clause),
                         without_jumps(cerl:clause_body(Clause), Place)).

%% A case has a clause: where all only jump, the first raises.
some_clause([], [First | _]) ->
    Raise = cerl:c_primop(cerl:c_atom(match_fail), [cerl:c_atom(jump)]),
    [cerl:update_c_clause(First, cerl:clause_pats(First), cerl:clause_guard(First), Raise)];
some_clause(Kept, _) -> Kept.

%% The jump itself, behind primops at most; or the wait for a message, which ends by a jump.
only_jumps(Node, Place) ->
    case cerl:type(Node) of
        apply -> is_jump(Node, Place);
        seq -> is_plain_primop(cerl:seq_arg(Node)) andalso only_jumps(cerl:seq_body(Node), Place);
        'let' ->
            is_endless_wait(cerl:let_arg(Node)) orelse
                (is_plain_primop(cerl:let_arg(Node)) andalso only_jumps(cerl:let_body(Node), Place));
        _ -> false
    end.

is_plain_primop(Node) ->
    cerl:type(Node) =:= primop andalso lists:all(fun is_plain/1, cerl:primop_args(Node)).

is_plain(Node) ->
    cerl:is_literal(Node) orelse (cerl:type(Node) =:= var andalso not is_tuple(cerl:var_name(Node))).

is_endless_wait(Node) ->
    cerl:type(Node) =:= primop andalso cerl:atom_val(cerl:primop_name(Node)) =:= recv_wait_timeout
        andalso [cerl:concrete(Each) || Each <- cerl:primop_args(Node), cerl:is_literal(Each)] =:= [infinity].

%% A case of which no clause is chosen raises, so the last clauses of the compiler that only raise say nothing more.
without_failing_clauses(Node) ->
    Clauses = cerl:case_clauses(Node),
    case lists:reverse(lists:dropwhile(fun only_fails/1, lists:reverse(Clauses))) of
        [] -> Node;
        Kept -> cerl:update_c_case(Node, cerl:case_arg(Node), Kept)
    end.

only_fails(Clause) ->
    Body = cerl:clause_body(Clause),
    lists:member(compiler_generated, cerl:get_ann(Clause)) andalso cerl:type(Body) =:= primop
        andalso lists:member(cerl:atom_val(cerl:primop_name(Body)), [match_fail, raise])
        andalso not core_listing_tree:any(fun names_function/1, Body).

names_function(Node) ->
    case cerl:type(Node) of
        var -> is_tuple(cerl:var_name(Node));
        Type -> lists:member(Type, ['fun', apply, call])
    end.
