%%% Random modules, for properties. In their source each call, clause and comprehension begins a line of its own. Calls,
%%% clauses and functions say by a macro which they are; with the macro RUN they note in the process dictionary that the
%%% call came back, that the clause was chosen, and that the function was entered and gave a value.
-module(random_modules).

-export([source/2, plain_source/2]).

-define(FUNCTIONS, [{a, 0}, {b, 1}, {c, 2}, {d, 1}, {e, 0}, {f, 1}]).
-define(WIDE, "170141183460469231731687303715884105728").

%% @doc The lines of the module of a seed.
source(Module, Seed) -> source(Module, Seed, false).

%% @doc The same of a module that needs no rewriting: it receives nothing, and has no wide integers and no binaries.
plain_source(Module, Seed) -> source(Module, Seed, true).

source(Module, Seed, Plain) ->
    _ = rand:seed(exsss, {Seed, 7, 11}),
    _ = erase(last_variable),
    _ = put(plain, Plain),
    Text = [["-module(", atom_to_list(Module), ").\n-export([a/0, b/1, c/2]).\n", macros()] |
            [function(Each) || Each <- ?FUNCTIONS]],
    Lines = string:split(unicode:characters_to_list(Text), "\n", all),
    [string:replace(Line, "@@", integer_to_list(N), all) || {N, Line} <- lists:enumerate(Lines)].

macros() ->
    "-ifdef(RUN).\n"
    "-define(CALL(N, F, E), element(2, {0, E, put({call, N, F}, true)})).\n"
    "-define(CLAUSE(N, E), begin put({clause, N}, true), E end).\n"
    "-define(FUNCTION(F, E), begin put({entered, F}, true), element(2, {0, E, put({gave, F}, true)}) end).\n"
    "-else.\n-define(CALL(N, F, E), E).\n-define(CLAUSE(N, E), E).\n-define(FUNCTION(F, E), E).\n-endif.\n".

function({Name, Arity}) ->
    Variables = [[$V, atom_to_list(Name), integer_to_list(N)] || N <- lists:seq(1, Arity)],
    ["\n", atom_to_list(Name), "(", lists:join(", ", Variables), ") -> ?FUNCTION(\"", name(Name, Arity), "\", ",
     expression(4, Variables), ").\n"].

name(Name, Arity) -> io_lib:format("'~s'/~w", [Name, Arity]).

%% A choice; in a plain module those with binaries and wide integers are left out.
one_of(List) ->
    Allowed = [Each || Each <- List, not (get(plain) andalso has_binary_or_wide(Each))],
    lists:nth(rand:uniform(length(Allowed)), Allowed).

has_binary_or_wide(Text) ->
    is_list(Text) andalso lists:any(fun(Part) -> string:find(Text, Part) =/= nomatch end, ["<<", ?WIDE]).

%% A variable that no other place binds.
variable() ->
    Last = case get(last_variable) of undefined -> 0; N -> N end,
    put(last_variable, Last + 1),
    ["X", integer_to_list(Last + 1)].

expression(0, Variables) -> one_of(["0", "7", "a", "ok", "[]", "{a, 1}", "[1, 2]", ?WIDE, "-" ?WIDE, "<<2, 3, 4, 5>>",
                                    "#{k => 1}", "\"text\"", "1.5" | Variables ++ Variables]);
expression(Depth, Variables) ->
    Part = fun() -> expression(rand:uniform(Depth) - 1, Variables) end,
    case rand:uniform(case get(plain) of true -> 15; false -> 16 end) of
        N when N =< 4 -> local_call(Part);
        N when N =< 6 -> built_in(Part);
        N when N =< 9 -> ["(case ", Part(), " of", clauses(Depth, Variables), " end)"];
        10 -> ["{", one_of(["a", "ok"]), ", ", Part(), "}"];
        11 -> ["[", Part(), " | ", Part(), "]"];
        12 ->
            X = variable(),
            ["\n[", expression(Depth - 1, [X | Variables]), " || ", X, " <- ", Part(), ", ", guard(X), "]"];
        13 -> ["(try ", Part(), " catch _:_ -> ", Part(), " end)"];
        16 -> ["(begin self() ! ", Part(), ", receive", clauses(Depth, Variables), " after 0 -> ", Part(), " end end)"];
        14 ->
            X = variable(),
            ["(begin ", X, " = ", Part(), ", ", expression(Depth - 1, [X | Variables]), " end)"];
        15 ->
            X = variable(),
            ["((fun(", X, ") -> ", expression(Depth - 1, [X | Variables]), " end)(", Part(), "))"]
    end.

local_call(Part) ->
    {Name, Arity} = one_of(?FUNCTIONS),
    call(name(Name, Arity), atom_to_list(Name), [Part() || _ <- lists:seq(1, Arity)]).

built_in(Part) ->
    {Name, Arity} = one_of([{"+", 2}, {"-", 2}, {"atom_to_list", 1}, {"length", 1}, {"hd", 1}, {"element", 2},
                            {"is_atom", 1}, {"byte_size", 1}, {"map_size", 1}, {"++", 2}, {"tuple_size", 1}, {"bsl", 2}]),
    Arguments = case Name of
        "bsl" -> [Part(), "3"];
        _ -> [Part() || _ <- lists:seq(1, Arity)]
    end,
    call(io_lib:format("'erlang':'~s'/~w", [Name, Arity]), ["erlang:'", Name, "'"], Arguments).

call(Name, Operator, Arguments) ->
    ["\n?CALL(@@, \"", Name, "\", ", Operator, "(", lists:join(", ", Arguments), "))"].

%% Patterns bind variables of their own, and one may be split.
clauses(Depth, Variables) ->
    Clause = fun(_) ->
        {Pattern, Bound} = pattern(2),
        Guard = case {rand:uniform(3), Bound} of
            {1, [X | _]} -> [" when ", guard(X)];
            _ -> ""
        end,
        ["\n", Pattern, Guard, " -> ?CLAUSE(@@, ", expression(Depth - 1, Bound ++ Variables), ")"]
    end,
    lists:join(";", lists:map(Clause, lists:seq(1, rand:uniform(3)))).

pattern(Depth) ->
    X = variable(),
    Y = variable(),
    case one_of([1, 2, 2, "7", "a", "ok", "true", ?WIDE, "-" ?WIDE, "<<2, _/binary>>", "<<X, Y:X/binary>>", "[]", "1.5"
                | case Depth of 0 -> []; _ -> [9, 10, 11, 12, 13] end]) of
        1 -> {"_", []};
        2 -> {X, [X]};
        "<<X, Y:X/binary>>" -> {["<<", X, ", ", Y, ":", X, "/binary, _/binary>>"], [X, Y]};
        [_ | _] = Literal -> {Literal, []};
        9 ->
            {First, Bound1} = pattern(Depth - 1),
            {Second, Bound2} = pattern(Depth - 1),
            {["[", First, " | ", Second, "]"], Bound1 ++ Bound2};
        N when N =< 11 ->
            {Part, Bound} = pattern(Depth - 1),
            {["{", one_of(["a", "_"]), ", ", Part, "}"], Bound};
        12 ->
            {Part, Bound} = pattern(Depth - 1),
            {["#{", one_of(["k", "3", ?WIDE]), " := ", Part, "}"], Bound};
        13 ->
            {Part, Bound} = pattern(Depth - 1),
            {[X, " = ", Part], [X | Bound]}
    end.

guard(X) ->
    Test = one_of(["is_atom", "is_integer", "is_tuple", "is_binary", "is_list", "not is_atom"]),
    lists:flatten([X, one_of([" > 1", " =:= a", " =:= " ?WIDE]), one_of(["", ", " ++ Test ++ "(" ++ X ++ ")"])]).
