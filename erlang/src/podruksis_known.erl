%% Functions that applications export: they aren't unknown, though nothing is
%% known of them.
-module(podruksis_known).

-export([exports/2, is_known/2]).

-export_type([exports/0]).

-opaque exports() :: #{{binary(), binary(), non_neg_integer()} => true}.

%% What the beams of applications export, as far as they are of modules of these names.
-spec exports([string()], [binary()]) -> {ok, exports()} | {error, unicode:chardata()}.
exports(Applications, Names) ->
    case podruksis_listings:inputs([{application, Application} || Application <- Applications]) of
        {ok, Files} -> {ok, maps:from_list(lists:append([exported(File) || File <- Files, is_of(File, Names)]))};
        {error, Reason} -> {error, Reason}
    end.

-spec is_of(file:filename(), [binary()]) -> boolean().
is_of(File, Names) ->
    lists:member(unicode:characters_to_binary(filename:basename(File, ".beam")), Names).

%% A file that can't be read has none: its functions stay unknown.
-spec exported(file:filename()) -> [{{binary(), binary(), arity()}, true}].
exported(File) ->
    case beam_lib:chunks(File, [exports]) of
        {ok, {Module, [{exports, Exports}]}} ->
            Name = atom_to_binary(Module),
            [{{Name, atom_to_binary(Function), Arity}, true} || {Function, Arity} <- Exports];
        {error, beam_lib, _} -> []
    end.

-spec is_known({binary(), binary(), non_neg_integer()}, exports()) -> boolean().
is_known(Function, Exports) -> maps:is_key(Function, Exports).
