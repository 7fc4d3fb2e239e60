%%% The text of a function whose notes, values and degrees are settled. Every annotation of the tree is written.
-module(core_listing_text).

-export([module/3, definition/2, left_out/3]).

-type name() :: {atom(), arity()}.

%% @doc A whole listing of definitions that are written.
-spec module(module(), [name()], [iodata()]) -> iodata().
module(Module, Exports, Definitions) ->
    ["module ", core_listing_names:atom(Module), " [", commas(fun core_listing_names:function/1, Exports), "]\n",
     "attributes []\n", Definitions, "end\n"].

-spec definition(name(), cerl:c_fun()) -> iodata().
definition(Name, Fun) ->
    Variables = core_listing_names:variables(Fun),
    [core_listing_names:function(Name), " =\n", with_note(Fun, expression(Fun, Variables)), $\n].

%% @doc A body that gives any value, with the functions that the one left out names.
-spec left_out(name(), pos_integer(), [name()]) -> iodata().
left_out({_, Arity} = Name, Line, Named) ->
    Parameters = ["A" ++ integer_to_list(N) || N <- lists:seq(1, Arity)],
    [core_listing_names:function(Name), " =\n(fun (", lists:join($,, Parameters), ") -> primop 'left_out'(",
     commas(fun core_listing_names:function/1, Named), ") -| [", integer_to_list(Line), ",'compiler_generated'])\n"].

with_note(Node, Text) ->
    case cerl:get_ann(Node) of
        [] -> Text;
        Note -> ["(", Text, " -| [", commas(fun core_listing_constants:constant/1, Note), "])"]
    end.

commas(Write, Parts) -> lists:join($,, [Write(Part) || Part <- Parts]).

part(Node, Variables) -> with_note(Node, expression(Node, Variables)).

parts(Nodes, Variables) -> commas(fun(Node) -> part(Node, Variables) end, Nodes).

variables(Nodes, Variables) -> commas(fun(Node) -> variable(Node, Variables) end, Nodes).

variable(Node, Variables) -> core_listing_names:variable(cerl:var_name(Node), Variables).

expression(Node, Variables) ->
    Part = fun(Each) -> part(Each, Variables) end,
    Parts = fun(Nodes) -> parts(Nodes, Variables) end,
    case cerl:type(Node) of
        var -> variable(Node, Variables);
        literal -> core_listing_constants:expression(cerl:concrete(Node));
        values -> [$<, Parts(cerl:values_es(Node)), $>];
        tuple -> [${, Parts(cerl:tuple_es(Node)), $}];
        cons -> list(Node, Part);
        'let' ->
            ["let <", variables(cerl:let_vars(Node), Variables), "> = ", Part(cerl:let_arg(Node)), " in\n",
             Part(cerl:let_body(Node))];
        seq -> ["do ", Part(cerl:seq_arg(Node)), $\n, Part(cerl:seq_body(Node))];
        'case' ->
            ["case ", Part(cerl:case_arg(Node)), " of\n", clauses(cerl:case_clauses(Node), Variables), "end"];
        letrec ->
            ["letrec\n", [local(Each, Variables) || Each <- cerl:letrec_defs(Node)], "in ",
             Part(cerl:letrec_body(Node))];
        'fun' -> ["fun (", variables(cerl:fun_vars(Node), Variables), ") ->\n", Part(cerl:fun_body(Node))];
        apply -> ["apply ", Part(cerl:apply_op(Node)), $(, Parts(cerl:apply_args(Node)), $)];
        call ->
            ["call ", Part(cerl:call_module(Node)), $:, Part(cerl:call_name(Node)), $(,
             Parts(cerl:call_args(Node)), $)];
        primop ->
            ["primop ", core_listing_names:atom(cerl:atom_val(cerl:primop_name(Node))), $(,
             Parts(cerl:primop_args(Node)), $)];
        'catch' -> ["catch ", Part(cerl:catch_body(Node))];
        'try' ->
            ["try ", Part(cerl:try_arg(Node)), " of <", variables(cerl:try_vars(Node), Variables), "> -> ",
             Part(cerl:try_body(Node)), "\ncatch <", variables(cerl:try_evars(Node), Variables), "> -> ",
             Part(cerl:try_handler(Node))];
        'receive' ->
            ["receive\n", clauses(cerl:receive_clauses(Node), Variables), "after ",
             Part(cerl:receive_timeout(Node)), " -> ", Part(cerl:receive_action(Node))];
        binary -> ["#{", commas(fun(Each) -> segment(Each, Part, Variables) end, cerl:binary_segments(Node)), "}#"];
        map ->
            ["~{", commas(fun(Each) -> pair(Each, Part, Variables) end, cerl:map_es(Node)),
             updated(cerl:map_arg(Node), Variables), "}~"]
    end.

local({Variable, Fun}, Variables) -> [variable(Variable, Variables), " = ", expression(Fun, Variables), $\n].

clauses(Clauses, Variables) -> [[with_note(Each, clause(Each, Variables)), $\n] || Each <- Clauses].

clause(Node, Variables) ->
    Pattern = fun(Each) -> pattern(Each, Variables) end,
    [$<, commas(Pattern, cerl:clause_pats(Node)), "> when ", part(cerl:clause_guard(Node), Variables), " -> ",
     part(cerl:clause_body(Node), Variables)].

%% Elements up to what is no pair, and that behind a bar where it isn't the empty list.
list(Node, Write) -> [$[, elements(Node, Write), $]].

elements(Node, Write) ->
    Head = Write(cerl:cons_hd(Node)),
    Tail = cerl:cons_tl(Node),
    case cerl:type(Tail) of
        cons -> [Head, $, | elements(Tail, Write)];
        literal ->
            case cerl:concrete(Tail) of
                [] -> [Head];
                _ -> [Head, $| | Write(Tail)]
            end;
        _ -> [Head, $| | Write(Tail)]
    end.

segment(Node, Write, Variables) ->
    Arguments = [cerl:bitstr_size(Node), cerl:bitstr_unit(Node), cerl:bitstr_type(Node), cerl:bitstr_flags(Node)],
    ["#<", Write(cerl:bitstr_val(Node)), ">(", parts(Arguments, Variables), $)].

pair(Node, Write, Variables) ->
    Operator = case cerl:concrete(cerl:map_pair_op(Node)) of assoc -> "=>"; exact -> ":=" end,
    [part(cerl:map_pair_key(Node), Variables), Operator, Write(cerl:map_pair_val(Node))].

updated(Map, Variables) ->
    case cerl:is_literal(Map) andalso cerl:concrete(Map) =:= #{} of
        true -> [];
        false -> [$|, part(Map, Variables)]
    end.

pattern(Node, Variables) ->
    Pattern = fun(Each) -> pattern(Each, Variables) end,
    case cerl:type(Node) of
        var -> variable(Node, Variables);
        literal -> core_listing_constants:pattern(cerl:concrete(Node));
        cons -> list(Node, Pattern);
        tuple -> [${, commas(Pattern, cerl:tuple_es(Node)), $}];
        alias -> [variable(cerl:alias_var(Node), Variables), " = ", Pattern(cerl:alias_pat(Node))];
        binary ->
            ["#{", commas(fun(Each) -> segment(Each, Pattern, Variables) end, cerl:binary_segments(Node)), "}#"];
        map -> ["~{", commas(fun(Each) -> pair(Each, Pattern, Variables) end, cerl:map_es(Node)), "}~"]
    end.
