%%% The text of literals. Binaries are written in segments of 120 bits, so that their numbers fit.
-module(core_listing_constants).

-export([constant/1, expression/1, pattern/1]).

-define(SEGMENT, 120).

%% @doc An element of a note.
-spec constant(integer() | atom()) -> iodata().
constant(Value) -> literal(Value, "=>").

-spec expression(term()) -> iodata().
expression(Value) -> literal(Value, "=>").

-spec pattern(term()) -> iodata().
pattern(Value) -> literal(Value, ":=").

%% The operator is that of maps.
literal(N, _) when is_integer(N) -> integer_to_list(N);
literal(Float, _) when is_float(Float) -> io_lib:format("~w", [Float]);
literal(Atom, _) when is_atom(Atom) -> core_listing_names:atom(Atom);
literal([], _) -> "[]";
literal([_ | _] = List, Operator) ->
    case is_text(List) of
        true -> [$", [character(C) || C <- List], $"];
        false -> [$[, elements(List, Operator), $]]
    end;
literal(Tuple, Operator) when is_tuple(Tuple) ->
    [${, lists:join($,, [literal(Each, Operator) || Each <- tuple_to_list(Tuple)]), $}];
literal(Map, Operator) when is_map(Map) ->
    Pairs = [[literal(Key, "=>"), Operator, literal(Value, Operator)] || {Key, Value} <- lists:sort(maps:to_list(Map))],
    ["~{", lists:join($,, Pairs), "}~"];
literal(Bits, _) when is_bitstring(Bits) -> ["#{", lists:join($,, segments(Bits)), "}#"];
literal(Function, _) when is_function(Function) ->
    [{_, Module}, {_, Name}, {_, Arity}] = [erlang:fun_info(Function, Item) || Item <- [module, name, arity]],
    ["fun ", core_listing_names:atom(Module), $:, core_listing_names:function({Name, Arity})].

%% The order of pairs is that of the text, so that a listing is the same each time.
elements([Head], Operator) -> literal(Head, Operator);
elements([Head | [_ | _] = Tail], Operator) -> [literal(Head, Operator), $, | elements(Tail, Operator)];
elements([Head | Tail], Operator) -> [literal(Head, Operator), $| | literal(Tail, Operator)].

is_text([C | Rest]) when is_integer(C), C >= 32, C =< 126 -> is_text(Rest);
is_text(Rest) -> Rest =:= [].

character($") -> "\\\"";
character($\\) -> "\\\\";
character(C) -> C.

segments(<<Number:?SEGMENT, Rest/bitstring>>) -> [segment(Number, ?SEGMENT) | segments(Rest)];
segments(<<>>) -> [];
segments(Bits) ->
    Size = bit_size(Bits),
    <<Number:Size>> = Bits,
    [segment(Number, Size)].

segment(Number, Size) ->
    ["#<", integer_to_list(Number), ">(", integer_to_list(Size), ",1,'integer',['unsigned','big'])"].
