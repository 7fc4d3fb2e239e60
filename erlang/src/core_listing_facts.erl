%%% What is known of a module beside its text: what the system calls, which functions it may replace, and which are
%%% named from where.
-module(core_listing_facts).

-export([exports/1, definitions/1, attribute/2, source/1, loaded/1, replaced/2, named/2, reachable/2]).
-export_type([name/0, definition/0]).

-type name() :: {atom(), arity()}.
-type definition() :: {name(), cerl:c_fun()}.

-spec exports(cerl:c_module()) -> [name()].
exports(Core) -> lists:usort([cerl:var_name(Each) || Each <- cerl:module_exports(Core)]).

-spec definitions(cerl:c_module()) -> [definition()].
definitions(Core) -> [{cerl:var_name(Variable), Fun} || {Variable, Fun} <- cerl:module_defs(Core)].

%% @doc The values of all attributes of this name, as one list.
-spec attribute(atom(), cerl:c_module()) -> [term()].
attribute(Name, Core) ->
    Values = [cerl:concrete(Value) || {Key, Value} <- cerl:module_attrs(Core), cerl:concrete(Key) =:= Name],
    lists:append([case is_list(Value) of true -> Value; false -> [Value] end || Value <- Values]).

%% @doc The file in which a place stands that names none.
-spec source(cerl:c_module()) -> string().
source(Core) ->
    case attribute(file, Core) of
        [{File, _} | _] -> File;
        _ -> atom_to_list(cerl:atom_val(cerl:module_name(Core))) ++ ".erl"
    end.

%% @doc The functions of `-on_load', which the system calls when it loads the module.
-spec loaded(cerl:c_module()) -> [name()].
loaded(Core) -> [Name || {_, _} = Name <- lists:flatten(attribute(on_load, Core))].

%% @doc The functions that the system may run something else for: the built-in ones of this module, those of `-nifs',
%% and, in a module without `-nifs' that may load a library, each.
-spec replaced(module(), cerl:c_module()) -> fun((name()) -> boolean()).
replaced(Module, Core) ->
    Definitions = definitions(Core),
    Declared = [Name || {Name, Fun} <- Definitions, core_listing_tree:any(fun is_start_of_native/1, Fun)],
    Loads = fun({_, Fun}) -> core_listing_tree:any(fun names_load_nif/1, Fun) end,
    Each = Declared =:= [] andalso lists:any(Loads, Definitions),
    fun({Function, Arity} = Name) ->
        lists:member(Name, Declared) orelse (Each andalso Function =/= module_info)
            orelse erlang:is_builtin(Module, Function, Arity)
    end.

%% The compiler writes this primop into the functions of `-nifs'.
is_start_of_native(Node) -> cerl:type(Node) =:= primop andalso cerl:atom_val(cerl:primop_name(Node)) =:= nif_start.

%% The name of `erlang:load_nif/2', or the function itself, in whatever place.
names_load_nif(Node) -> cerl:is_literal(Node) andalso has_load_nif(cerl:concrete(Node)).

has_load_nif(load_nif) -> true;
has_load_nif([Head | Tail]) -> has_load_nif(Head) orelse has_load_nif(Tail);
has_load_nif(Tuple) when is_tuple(Tuple) -> has_load_nif(tuple_to_list(Tuple));
has_load_nif(Map) when is_map(Map) -> has_load_nif(maps:to_list(Map));
has_load_nif(Value) -> is_function(Value) andalso erlang:fun_info(Value, name) =:= {name, load_nif}.

%% @doc The functions of the module that a text names, as operators or as values.
-spec named(cerl:cerl(), #{name() => _}) -> [name()].
named(Tree, Known) ->
    Add = fun(Node, Found) ->
        case cerl:type(Node) =:= var andalso is_map_key(cerl:var_name(Node), Known) of
            true -> [cerl:var_name(Node) | Found];
            false -> Found
        end
    end,
    lists:usort(core_listing_tree:fold(Add, [], Tree)).

%% @doc The functions that are named, at any distance, from those given.
-spec reachable([name()], #{name() => [name()]}) -> #{name() => true}.
reachable(From, Named) -> reachable(From, Named, #{}).

reachable([Name | Rest], Named, Seen) when is_map_key(Name, Seen) -> reachable(Rest, Named, Seen);
reachable([Name | Rest], Named, Seen) ->
    reachable(maps:get(Name, Named, []) ++ Rest, Named, Seen#{Name => true});
reachable([], _, Seen) -> Seen.
