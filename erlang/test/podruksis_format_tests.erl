-module(podruksis_format_tests).

-include_lib("eunit/include/eunit.hrl").

print(Format, Findings) -> print(Format, Findings, false).
print(Format, Findings, Colour) ->
    unicode:characters_to_binary(podruksis_format:print(Format, Findings, Colour)).

plain() ->
    #{file => "src/m.erl", line => 12, column => 7, kind => no_fail_call, text => "the call 'f'/1 never returns",
      module => <<"m">>, function => {g, 0}, unknown => none, silent => []}.

%% A path with all that formats treat, a name with quotes and a letter past ASCII, and no column.
odd() ->
    #{file => "my src/a,b:%\n\x{e9}.erl", line => 3, column => 0, kind => no_unknown,
      text => "unknown function 'n\"\\\\':'\x{e9}'/0", module => <<"a">>, function => {'x y', 2},
      unknown => {<<"n\"\\">>, <<"\303\251">>, 0}, silent => []}.

%% A finding whose place the listing doesn't have.
placeless() ->
    #{file => "/lib/m.beam", line => 0, column => 0, kind => no_unused, text => "function 'f'/0 is never called",
      module => <<"m">>, function => none, unknown => none, silent => []}.

text_test_() ->
    [?_assertEqual(<<>>, print(text, [])),
     ?_assertEqual(<<"src/m.erl:12:7: the call 'f'/1 never returns\n"
                     "my src/a,b:%\\x0A\303\251.erl:3: unknown function 'n\"\\\\':'\303\251'/0\n"
                     "/lib/m.beam: function 'f'/0 is never called\n">>, print(text, [plain(), odd(), placeless()])),
     ?_assertEqual(<<"\e[1msrc/m.erl:12:7:\e[0m \e[31mthe call 'f'/1 never returns\e[0m\n">>, print(text, [plain()], true))].

github_test() ->
    ?assertEqual(<<"::warning file=src/m.erl,line=12,col=7,title=no_fail_call::the call 'f'/1 never returns\n"
                   "::warning file=my src/a%2Cb%3A%25%0A\303\251.erl,line=3,title=no_unknown::"
                   "unknown function 'n\"\\\\':'\303\251'/0\n"
                   "::warning file=/lib/m.beam,title=no_unused::function 'f'/0 is never called\n">>,
                 print(github, [plain(), odd(), placeless()])).

json_test_() ->
    [?_assertEqual(<<"[]\n">>, print(json, [])),
     ?_assertEqual(<<"[\n"
                     "  {\"file\":\"src/m.erl\",\"line\":12,\"column\":7,\"kind\":\"no_fail_call\","
                     "\"text\":\"the call 'f'/1 never returns\",\"module\":\"m\",\"function\":\"g/0\"},\n"
                     "  {\"file\":\"my src/a,b:%\\n\303\251.erl\",\"line\":3,\"column\":0,\"kind\":\"no_unknown\","
                     "\"text\":\"unknown function 'n\\\"\\\\\\\\':'\303\251'/0\",\"module\":\"a\",\"function\":\"x y/2\"},\n"
                     "  {\"file\":\"/lib/m.beam\",\"line\":0,\"column\":0,\"kind\":\"no_unused\","
                     "\"text\":\"function 'f'/0 is never called\",\"module\":\"m\"}\n"
                     "]\n">>, print(json, [plain(), odd(), placeless()]))].

head() ->
    <<"{\"version\":\"2.1.0\",\"$schema\":\"https://json.schemastore.org/sarif-2.1.0.json\",\"runs\":[{\"tool\":{\"driver\":"
      "{\"name\":\"podruksis\",\"rules\":["
      "{\"id\":\"no_return\",\"shortDescription\":{\"text\":\"The function never returns a value.\"}},"
      "{\"id\":\"no_match\",\"shortDescription\":{\"text\":\"The clause is never chosen.\"}},"
      "{\"id\":\"no_fail_call\",\"shortDescription\":{\"text\":\"The call never returns.\"}},"
      "{\"id\":\"no_unused\",\"shortDescription\":{\"text\":\"The function is never called.\"}},"
      "{\"id\":\"no_unknown\",\"shortDescription\":{\"text\":\"The function isn't in what was analysed.\"}}"
      "]}},\"columnKind\":\"unicodeCodePoints\",\"results\":[">>.

sarif_test_() ->
    Head = head(),
    [?_assertEqual(<<Head/binary, "]}]}\n">>, print(sarif, [])),
     ?_assertEqual(
        <<Head/binary, "\n"
          "  {\"ruleId\":\"no_fail_call\",\"level\":\"warning\",\"message\":{\"text\":\"the call 'f'/1 never returns\"},"
          "\"locations\":[{\"physicalLocation\":{\"artifactLocation\":{\"uri\":\"src/m.erl\"},"
          "\"region\":{\"startLine\":12,\"startColumn\":7}},"
          "\"logicalLocations\":[{\"fullyQualifiedName\":\"m:g/0\",\"kind\":\"function\"}]}]},\n"
          "  {\"ruleId\":\"no_unknown\",\"level\":\"warning\",\"message\":{\"text\":\"unknown function 'n\\\"\\\\\\\\':'\303\251'/0\"},"
          "\"locations\":[{\"physicalLocation\":{\"artifactLocation\":{\"uri\":\"my%20src/a,b:%25%0A%C3%A9.erl\"},"
          "\"region\":{\"startLine\":3}},"
          "\"logicalLocations\":[{\"fullyQualifiedName\":\"a:x y/2\",\"kind\":\"function\"}]}]},\n"
          "  {\"ruleId\":\"no_unused\",\"level\":\"warning\",\"message\":{\"text\":\"function 'f'/0 is never called\"},"
          "\"locations\":[{\"physicalLocation\":{\"artifactLocation\":{\"uri\":\"file:///lib/m.beam\"}}}]}\n"
          "]}]}\n">>, print(sarif, [plain(), odd(), placeless()]))].

%% A relative path whose first part has a colon would be read as the name of a scheme.
uri_test() ->
    Sarif = print(sarif, [(plain())#{file := "c:d/m.erl"}]),
    ?assertMatch({_, _}, binary:match(Sarif, <<"\"uri\":\"./c:d/m.erl\"">>)).
