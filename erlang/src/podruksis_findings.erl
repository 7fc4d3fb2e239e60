%% The lines of a report, read to findings, and which of them are shown.
%%
%% A line of `dialyze check' is `'m':12: TEXT'. Over listings of core_listing
%% the number is no line but an id of a location: a file, a line, a column, the
%% function that stands there, and the kinds of findings that `-dialyzer(..)'
%% attributes switch off there.
-module(podruksis_findings).

-export([read/1, placed/3, shown/2, merge/1]).

-export_type([line/0, finding/0, filter/0]).

%% One line of a report. Names are bytes, as the report has them.
-type line() :: #{
    module := binary(),
    id := non_neg_integer(),
    kind := podruksis_options:kind(),
    text := binary(),
    %% of an unknown function
    unknown := none | {binary(), binary(), non_neg_integer()}
}.

-type finding() :: #{
    file := string(),
    %% 0 where the listing doesn't say it
    line := non_neg_integer(),
    column := non_neg_integer(),
    kind := podruksis_options:kind(),
    text := string(),
    module := binary(),
    function := none | {atom(), arity()},
    unknown := none | {binary(), binary(), non_neg_integer()},
    %% kinds that attributes switch off at this place
    silent := [podruksis_options:kind()]
}.

%% Which findings are left out, beside those that attributes switch off.
-type filter() :: #{
    silent := [podruksis_options:kind()],
    %% modules that are handed in and not reported on
    context := #{binary() => true},
    %% modules of other parts of the run: not unknown
    elsewhere := #{binary() => true},
    %% whether a function is one that an application on the path exports
    known := fun(({binary(), binary(), non_neg_integer()}) -> boolean())
}.

%% The lines of a report; an output that is no report is answered by its first
%% wrong line, so that nothing which the program says is passed over.
-spec read(binary()) -> {ok, [line()]} | {error, binary()}.
read(<<>>) -> {ok, []};
read(Report) ->
    case binary:last(Report) of
        $\n -> read_lines(binary:split(binary:part(Report, 0, byte_size(Report) - 1), <<"\n">>, [global]), []);
        _ -> {error, lists:last(binary:split(Report, <<"\n">>, [global]))}
    end.

-spec read_lines([binary()], [line()]) -> {ok, [line()]} | {error, binary()}.
read_lines([], Lines) -> {ok, lists:reverse(Lines)};
read_lines([Text | Texts], Lines) ->
    case line(Text) of
        {ok, Line} -> read_lines(Texts, [Line | Lines]);
        none -> {error, Text}
    end.

-spec line(binary()) -> {ok, line()} | none.
line(Text) ->
    case podruksis_quoted:take(Text) of
        {ok, Module, <<$:, Rest/binary>>} ->
            case string:to_integer(Rest) of
                {Id, <<": ", Said/binary>>} when is_integer(Id), Id >= 0 -> said(Module, Id, Said);
                _ -> none
            end;
        _ -> none
    end.

-spec said(binary(), non_neg_integer(), binary()) -> {ok, line()} | none.
said(Module, Id, Said) ->
    case kind(Said) of
        none -> none;
        {Kind, Unknown} -> {ok, #{module => Module, id => Id, kind => Kind, text => Said, unknown => Unknown}}
    end.

%% The kind of a finding, by its whole text.
-spec kind(binary()) ->
          {podruksis_options:kind(), none | {binary(), binary(), non_neg_integer()}} | none.
kind(<<"this clause can never match">>) -> {no_match, none};
kind(<<"function ", Rest/binary>>) ->
    case podruksis_quoted:name(Rest) of
        {ok, _, <<" has no local return">>} -> {no_return, none};
        {ok, _, <<" is never called">>} -> {no_unused, none};
        _ -> none
    end;
kind(<<"unknown function ", Rest/binary>>) ->
    case podruksis_quoted:remote(Rest) of
        {ok, Function, <<>>} -> {no_unknown, Function};
        _ -> none
    end;
kind(<<"the call of a value with ", Rest/binary>>) ->
    case string:to_integer(Rest) of
        {Number, <<" arguments never returns">>} when is_integer(Number) -> {no_fail_call, none};
        _ -> none
    end;
kind(<<"the call ", Rest/binary>>) ->
    case {podruksis_quoted:remote(Rest), podruksis_quoted:name(Rest)} of
        {{ok, _, <<" never returns">>}, _} -> {no_fail_call, none};
        {_, {ok, _, <<" never returns">>}} -> {no_fail_call, none};
        _ -> none
    end;
kind(_) -> none.

%% A line with its place: where its id leads, or the module's file without a
%% line where the listing has no such id. Shown tells how a file is named.
-spec placed(line(), #{pos_integer() => map()}, #{default := string(), shown := fun((string()) -> string())}) ->
          finding().
placed(#{module := Module, id := Id, kind := Kind, text := Text, unknown := Unknown}, Locations, Files) ->
    #{default := Default, shown := Shown} = Files,
    Place = maps:get(Id, Locations, #{file => Default, line => 0, column => 0, function => none, silent => []}),
    #{file := File, line := Line, column := Column, function := Function, silent := Silent} = Place,
    #{file => Shown(File), line => Line, column => Column, kind => Kind, text => characters(Text), module => Module,
      function => Function, unknown => Unknown, silent => Silent}.

%% UTF-8, or bytes where it is none.
-spec characters(binary()) -> string().
characters(Bytes) ->
    case unicode:characters_to_list(Bytes) of
        Text when is_list(Text) -> Text;
        _ -> binary_to_list(Bytes)
    end.

%% Whether a finding is shown, or why it isn't.
-spec shown(finding(), filter()) -> shown | context | attribute | option | elsewhere | known.
shown(#{kind := Kind, module := Module, silent := Attributes, unknown := Unknown}, Filter) ->
    #{silent := Silent, context := Context, elsewhere := Elsewhere, known := Known} = Filter,
    Tests = [{context, fun() -> maps:is_key(Module, Context) end},
             {attribute, fun() -> lists:member(Kind, Attributes) end},
             {option, fun() -> lists:member(Kind, Silent) end},
             {elsewhere, fun() -> Unknown =/= none andalso maps:is_key(element(1, Unknown), Elsewhere) end},
             {known, fun() -> Unknown =/= none andalso Known(Unknown) end}],
    first(Tests).

-spec first([{atom(), fun(() -> boolean())}]) -> atom().
first([]) -> shown;
first([{Why, Test} | Tests]) ->
    case Test() of
        true -> Why;
        false -> first(Tests)
    end.

%% Findings by file, line and column, each once: a clause that the compiler
%% copied is found at one place more than once.
-spec merge([finding()]) -> [finding()].
merge(Findings) ->
    Keyed = [{{File, Line, Column, Kind, Text}, Finding}
             || #{file := File, line := Line, column := Column, kind := Kind, text := Text} = Finding <- Findings],
    [Finding || {_, Finding} <- lists:ukeysort(1, Keyed)].
