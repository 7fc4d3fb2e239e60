-module(podruksis_quoted_tests).

-include_lib("eunit/include/eunit.hrl").

take_test_() ->
    [?_assertEqual(Expected, podruksis_quoted:take(Text)) || {Text, Expected} <- [
        {<<"'m':7">>, {ok, <<"m">>, <<":7">>}},
        {<<"''">>, {ok, <<>>, <<>>}},
        {<<"'it\\'s' x">>, {ok, <<"it's">>, <<" x">>}},
        {<<"'a\\\\'">>, {ok, <<"a\\">>, <<>>}},
        {<<"'a\\012b'">>, {ok, <<"a\nb">>, <<>>}},
        {<<"'\\1771'">>, {ok, <<127, "1">>, <<>>}},
        {<<"'\303\251'">>, {ok, <<"\303\251">>, <<>>}},
        {<<"'open">>, none},
        {<<"'open\\">>, none},
        {<<"m">>, none},
        {<<>>, none}
    ]].

name_test_() ->
    [?_assertEqual(Expected, podruksis_quoted:name(Text)) || {Text, Expected} <- [
        {<<"'f'/12 never">>, {ok, {<<"f">>, 12}, <<" never">>}},
        {<<"'a/1'/0">>, {ok, {<<"a/1">>, 0}, <<>>}},
        {<<"'f'/">>, none},
        {<<"'f'/-1">>, none},
        {<<"'f'">>, none}
    ]].

remote_test_() ->
    [?_assertEqual(Expected, podruksis_quoted:remote(Text)) || {Text, Expected} <- [
        {<<"'m':'f'/1 x">>, {ok, {<<"m">>, <<"f">>, 1}, <<" x">>}},
        {<<"'a:b':'c:d'/0">>, {ok, {<<"a:b">>, <<"c:d">>, 0}, <<>>}},
        {<<"'m'/1">>, none},
        {<<"'m':f/1">>, none}
    ]].

write_test_() ->
    [?_assertEqual(Expected, podruksis_quoted:write(Atom)) || {Atom, Expected} <- [
        {m, <<"'m'">>},
        {'', <<"''">>},
        {'it\'s\\', <<"'it\\'s\\\\'">>},
        {'a\n\d', <<"'a\\012\\177'">>},
        {'é', <<"'\303\251'">>}
    ]].
