%%% The spelling of names: atoms, functions, and the variables of a definition.
-module(core_listing_names).

-export([atom/1, function/1, variables/1, variable/2]).
-export_type([variables/0]).

-opaque variables() :: #{cerl:var_name() => string()}.

%% @doc An atom in quotes, by the bytes of its text in UTF-8.
-spec atom(atom()) -> iodata().
atom(Atom) -> [$', [byte(Byte) || <<Byte>> <= atom_to_binary(Atom)], $'].

byte($') -> "\\'";
byte($\\) -> "\\\\";
byte(Byte) when Byte < 32; Byte =:= 127 -> io_lib:format("\\~3.8.0B", [Byte]);
byte(Byte) -> Byte.

-spec function({atom(), arity()}) -> iodata().
function({Name, Arity}) -> [atom(Name), $/, integer_to_list(Arity)].

%% @doc Gives each variable of a definition a spelling of its own.
-spec variables(cerl:cerl()) -> variables().
variables(Tree) ->
    Collect = fun(Node, Found) ->
        case cerl:type(Node) of
            var -> Found#{cerl:var_name(Node) => true};
            _ -> Found
        end
    end,
    Names = [Name || Name <- lists:sort(maps:keys(core_listing_tree:fold(Collect, #{}, Tree))), not is_tuple(Name)],
    {Spelled, _} = lists:foldl(fun spell/2, {#{}, #{}}, Names),
    Spelled.

-spec variable(cerl:var_name(), variables()) -> iodata().
variable({_, _} = Function, _) -> function(Function);
variable(Name, Variables) -> map_get(Name, Variables).

spell(Name, {Spelled, Taken}) ->
    Spelling = free(base(Name), 1, Taken),
    {Spelled#{Name => Spelling}, Taken#{Spelling => true}}.

free(Base, Try, Taken) ->
    Spelling = case Try of 1 -> Base; _ -> Base ++ "@@" ++ integer_to_list(Try) end,
    case Taken of
        #{Spelling := true} -> free(Base, Try + 1, Taken);
        _ -> Spelling
    end.

%% Numbers below 0 are those of variables that rewriting made. `_' binds nothing in a listing, and is a variable here.
base(Number) when is_integer(Number), Number < 0 -> "_new" ++ integer_to_list(-Number);
base(Number) when is_integer(Number) -> "_" ++ integer_to_list(Number);
base('_') -> "__";
base(Name) ->
    case lists:flatmap(fun letter/1, atom_to_list(Name)) of
        [First | _] = Spelling when First >= $A, First =< $Z; First =:= $_ -> Spelling;
        Other -> "_X" ++ Other
    end.

letter(C) when C >= $a, C =< $z; C >= $A, C =< $Z; C >= $0, C =< $9; C =:= $_; C =:= $@ -> [C];
letter(C) -> "@" ++ integer_to_list(C, 16).
