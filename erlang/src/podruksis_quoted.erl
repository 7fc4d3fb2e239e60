%% Atoms as `dialyze' writes them: in quotes, a quote and a backslash behind a
%% backslash, bytes below 32 and 127 as a backslash and three octal digits.
-module(podruksis_quoted).

-export([take/1, name/1, remote/1, write/1]).

%% The bytes of the quoted atom that stands at the front, and the rest.
-spec take(binary()) -> {ok, binary(), binary()} | none.
take(<<$', Text/binary>>) -> take(Text, <<>>);
take(_) -> none.

-spec take(binary(), binary()) -> {ok, binary(), binary()} | none.
take(<<$', Rest/binary>>, Bytes) -> {ok, Bytes, Rest};
take(<<$\\, A, B, C, Rest/binary>>, Bytes) when A >= $0, A =< $3, B >= $0, B =< $7, C >= $0, C =< $7 ->
    take(Rest, <<Bytes/binary, ((A - $0) * 64 + (B - $0) * 8 + C - $0)>>);
take(<<$\\, Byte, Rest/binary>>, Bytes) -> take(Rest, <<Bytes/binary, Byte>>);
take(<<Byte, Rest/binary>>, Bytes) when Byte =/= $\\ -> take(Rest, <<Bytes/binary, Byte>>);
take(_, _) -> none.

%% A function's name and number of arguments, `'f'/1', and the rest.
-spec name(binary()) -> {ok, {binary(), non_neg_integer()}, binary()} | none.
name(Text) ->
    case take(Text) of
        {ok, Name, <<$/, Rest/binary>>} ->
            case string:to_integer(Rest) of
                {Arity, After} when is_integer(Arity), Arity >= 0 -> {ok, {Name, Arity}, After};
                _ -> none
            end;
        _ -> none
    end.

%% A function of a module, `'m':'f'/1', and the rest.
-spec remote(binary()) -> {ok, {binary(), binary(), non_neg_integer()}, binary()} | none.
remote(Text) ->
    case take(Text) of
        {ok, Module, <<$:, Rest/binary>>} ->
            case name(Rest) of
                {ok, {Name, Arity}, After} -> {ok, {Module, Name, Arity}, After};
                none -> none
            end;
        _ -> none
    end.

%% The text of an atom.
-spec write(atom()) -> binary().
write(Atom) ->
    Bytes = atom_to_binary(Atom, utf8),
    <<$', (<< <<(escaped(Byte))/binary>> || <<Byte>> <= Bytes >>)/binary, $'>>.

-spec escaped(byte()) -> binary().
escaped(Byte) when Byte =:= $'; Byte =:= $\\ -> <<$\\, Byte>>;
escaped(Byte) when Byte < 32; Byte =:= 127 -> iolist_to_binary(io_lib:format("\\~3.8.0B", [Byte]));
escaped(Byte) -> <<Byte>>.
