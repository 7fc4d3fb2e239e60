%%% What `-dialyzer(..)' attributes and `nowarn_unused_function' switch off, as Dialyzer reads them.
-module(core_listing_silence).

-export([of_module/2, is_whole/2, is_partial/2, may_be_unused/2, kinds/3]).
-export_type([silence/0, kind/0, sort/0]).

-type kind() :: no_return | no_match | no_fail_call | no_unused | no_unknown.
%% What stands at a place: a call by module and name, an application of a value, or something else.
-type sort() :: call | application | other.
-type name() :: {atom(), arity()}.
-record(silence, {
    module :: [atom()],
    functions :: [{name(), atom()}],
    unused :: all | [name()]
}).
-opaque silence() :: #silence{}.

%% @doc Reads the values of the `dialyzer' attributes, and the options with which the module was compiled.
-spec of_module([term()], [term()]) -> silence().
of_module(Attributes, CompileOptions) ->
    Entries = lists:flatten(Attributes),
    #silence{
        module = [Option || Option <- Entries, is_atom(Option)],
        functions = [{Name, Option} || {Options, Names} <- Entries,
                                       Option <- lists:flatten([Options]), Name <- lists:flatten([Names])],
        unused = unused(CompileOptions)
    }.

unused(Options) ->
    case lists:member(nowarn_unused_function, Options) of
        true -> all;
        false -> lists:append([lists:flatten([Names]) || {nowarn_unused_function, Names} <- Options])
    end.

%% @doc Whether nothing at all is to be reported of the function.
-spec is_whole(name(), silence()) -> boolean().
is_whole(Name, #silence{functions = Functions}) -> lists:member({Name, nowarn_function}, Functions).

%% @doc Whether something that may be found in the function isn't to be reported, by an attribute.
-spec is_partial(name(), silence()) -> boolean().
is_partial(Name, Silence) ->
    lists:any(fun(Option) -> lists:any(fun(Sort) -> kinds_of(Option, Sort) =/= [] end, [call, application]) end,
              options(Name, Silence)).

%% @doc Whether the function may stand unused without a word about it.
-spec may_be_unused(name(), silence()) -> boolean().
may_be_unused(_, #silence{unused = all}) -> true;
may_be_unused(Name, #silence{unused = Names}) -> lists:member(Name, Names).

%% @doc The kinds of findings that are switched off at a place of a function.
-spec kinds(name(), sort(), silence()) -> [kind()].
kinds(Name, Sort, Silence) ->
    Unused = [no_unused || may_be_unused(Name, Silence)],
    lists:usort(Unused ++ lists:append([kinds_of(Option, Sort) || Option <- options(Name, Silence)])).

options(Name, #silence{module = Module, functions = Functions}) ->
    Module ++ [Option || {Each, Option} <- Functions, Each =:= Name].

kinds_of(nowarn_function, _) -> [no_return, no_match, no_fail_call, no_unused, no_unknown];
kinds_of(no_missing_calls, call) -> [no_fail_call];
kinds_of(no_fun_app, application) -> [no_fail_call];
kinds_of(Option, _) ->
    [Option || lists:member(Option, [no_return, no_match, no_fail_call, no_unused, no_unknown])].
