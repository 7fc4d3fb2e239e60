-module(podruksis_findings_tests).

-include_lib("eunit/include/eunit.hrl").

line(Id, Kind, Text) -> line(Id, Kind, Text, none).
line(Id, Kind, Text, Unknown) -> #{module => <<"m">>, id => Id, kind => Kind, text => Text, unknown => Unknown}.

%% One line of each form, and names that look like other forms.
lines_test_() ->
    [?_assertEqual({ok, [line(7, Kind, Text, Unknown)]}, podruksis_findings:read(<<"'m':7: ", Text/binary, "\n">>))
     || {Kind, Text, Unknown} <- [
        {no_return, <<"function 'f'/1 has no local return">>, none},
        {no_unused, <<"function 'f'/1 is never called">>, none},
        {no_match, <<"this clause can never match">>, none},
        {no_fail_call, <<"the call 'f'/1 never returns">>, none},
        {no_fail_call, <<"the call 'erlang':'+'/2 never returns">>, none},
        {no_fail_call, <<"the call of a value with 1 arguments never returns">>, none},
        {no_unknown, <<"unknown function 'n':'g'/0">>, {<<"n">>, <<"g">>, 0}},
        {no_unused, <<"function ' has no local return'/1 is never called">>, none},
        {no_fail_call, <<"the call 'this clause can never match'/0 never returns">>, none},
        {no_unknown, <<"unknown function 'it\\'s':'a\\012b'/0">>, {<<"it's">>, <<"a\nb">>, 0}}
    ]].

report_test() ->
    Report = <<"'m':1: this clause can never match\n'm':22: function 'f'/0 is never called\n">>,
    ?assertEqual({ok, [line(1, no_match, <<"this clause can never match">>),
                       line(22, no_unused, <<"function 'f'/0 is never called">>)]}, podruksis_findings:read(Report)),
    ?assertEqual({ok, []}, podruksis_findings:read(<<>>)).

%% What is no line of a report isn't passed over.
no_report_test_() ->
    Good = <<"'m':1: this clause can never match\n">>,
    [?_assertEqual({error, Line}, podruksis_findings:read(<<Good/binary, Rest/binary>>)) || {Rest, Line} <- [
        {<<"'m':2: this clause can never match">>, <<"'m':2: this clause can never match">>},
        {<<"'m':2: this cl">>, <<"'m':2: this cl">>},
        {<<"'m':2: this cl\n">>, <<"'m':2: this cl">>},
        {<<"'m':x: this clause can never match\n">>, <<"'m':x: this clause can never match">>},
        {<<"m:2: this clause can never match\n">>, <<"m:2: this clause can never match">>},
        {<<"'m':2: function 'f'/0 is never called twice\n">>, <<"'m':2: function 'f'/0 is never called twice">>},
        {<<"\n">>, <<>>},
        {<<"thread panicked\n">>, <<"thread panicked">>}
    ]].

placed_test() ->
    Locations = #{7 => #{id => 7, file => "src/m.erl", line => 12, column => 3, function => {f, 1}, silent => [no_match]}},
    Files = #{default => "ebin/m.beam", shown => fun(File) -> "here/" ++ File end},
    Line = line(7, no_match, <<"this clause can never match">>),
    ?assertEqual(#{file => "here/src/m.erl", line => 12, column => 3, kind => no_match, text => "this clause can never match",
                   module => <<"m">>, function => {f, 1}, unknown => none, silent => [no_match]},
                 podruksis_findings:placed(Line, Locations, Files)),
    %% a number that the listing doesn't have leads to the file alone
    ?assertMatch(#{file := "here/ebin/m.beam", line := 0, column := 0, function := none, silent := []},
                 podruksis_findings:placed(Line#{id := 8}, Locations, Files)),
    %% names are UTF-8, or bytes
    Text = fun(Bytes) -> maps:get(text, podruksis_findings:placed(Line#{text := Bytes}, Locations, Files)) end,
    ?assertEqual("the call '\x{e9}'/1", Text(<<"the call '\303\251'/1">>)),
    ?assertEqual("the call '\x{e9}'/1", Text(<<"the call '\351'/1">>)).

finding(Fields) ->
    maps:merge(#{file => "m.erl", line => 1, column => 1, kind => no_match, text => "t", module => <<"m">>, function => none,
                 unknown => none, silent => []}, Fields).

shown_test_() ->
    Filter = #{silent => [no_unused], context => #{<<"c">> => true}, elsewhere => #{<<"e">> => true},
               known => fun(Function) -> Function =:= {<<"k">>, <<"f">>, 0} end},
    Unknown = fun(Module) -> #{kind => no_unknown, unknown => {Module, <<"f">>, 0}} end,
    [?_assertEqual({Fields, Expected}, {Fields, podruksis_findings:shown(finding(Fields), Filter)}) || {Fields, Expected} <- [
        {#{}, shown},
        {#{module => <<"c">>}, context},
        {#{kind => no_unused}, option},
        {#{silent => [no_match, no_return]}, attribute},
        {#{silent => [no_return, no_unused]}, shown},
        {Unknown(<<"u">>), shown},
        {Unknown(<<"e">>), elsewhere},
        {Unknown(<<"k">>), known},
        {#{kind => no_unknown, unknown => {<<"k">>, <<"f">>, 1}}, shown},
        {#{kind => no_fail_call, module => <<"e">>}, shown}
    ]].

%% By file, line and column as numbers; what is found twice at one place is there once.
merge_test() ->
    Finding = fun(File, Line, Column, Text) -> finding(#{file => File, line => Line, column => Column, text => Text}) end,
    Found = [Finding("b.erl", 1, 1, "x"), Finding("a.erl", 10, 1, "x"), Finding("a.erl", 9, 12, "x"), Finding("a.erl", 9, 2, "y"),
             Finding("a.erl", 9, 2, "x"), Finding("a.erl", 10, 1, "x")],
    ?assertEqual([{"a.erl", 9, 2, "x"}, {"a.erl", 9, 2, "y"}, {"a.erl", 9, 12, "x"}, {"a.erl", 10, 1, "x"}, {"b.erl", 1, 1, "x"}],
                 [{File, Line, Column, Text} || #{file := File, line := Line, column := Column, text := Text}
                                                <- podruksis_findings:merge(Found)]).
