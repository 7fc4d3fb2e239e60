-module(rebar3_podruksis_tests).

-include_lib("eunit/include/eunit.hrl").

project() ->
    #{applications => ["/p/a b/ebin", "/p/c/ebin"], dependencies => ["/p/d/ebin"], known => ["kernel", "stdlib"], cache => "/p/cache"}.

words(Config, Given) -> words(project(), Config, Given).
words(Project, Config, Given) ->
    case rebar3_podruksis:words(Project, Config, Given) of
        {ok, Words} -> Words;
        {error, Text} -> {error, unicode:characters_to_list(Text)}
    end.

-define(FRONT, "--cache", "/p/cache").
-define(HANDED, "--context", "/p/d/ebin").
-define(KNOWN, "--known", "kernel", "stdlib").
-define(END, "--", "/p/a b/ebin", "/p/c/ebin").

words_test_() ->
    [?_assertEqual([?FRONT, ?HANDED, ?KNOWN, ?END], words([], [])),
     ?_assertEqual([?FRONT, ?KNOWN, ?END], words([{deps, false}], [])),
     ?_assertEqual([?FRONT, ?END], words((project())#{dependencies := [], known := []}, [], [])),
     ?_assertEqual([?FRONT, ?HANDED, ?KNOWN, "-Wno_unused", "-Wno_match", "--open", "m", "n", "--known", "crypto",
                    "--context", "/x/ebin", "--dialyze", "/d/my dialyze", "--workers", "4", "--quiet", ?END],
                   words([{warnings, [no_unused, no_match]}, {open, [m, n]}, {known, [crypto]}, {context, ["/x/ebin"]},
                          {dialyze, "/d/my dialyze"}, {workers, 4}, quiet, {fresh, false}, {exclude_apps, [z]}], [])),
     %% what the command line says stands last, and counts
     ?_assertEqual([?FRONT, ?HANDED, ?KNOWN, "--format", "json", "--format", "github", "--no-unknown", ?END],
                   words([{format, json}], [{format, "github"}, {no_unknown, true}]))].

%% The words are those of the command.
parsed_test() ->
    {ok, Options} = podruksis_options:parse(words([{format, json}, {warnings, [no_unused]}], [{format, "github"}, {fresh, true}])),
    ?assertMatch(#{words := [{file, "/p/a b/ebin"}, {file, "/p/c/ebin"}], context := [_], known := ["kernel", "stdlib"],
                   format := github, silent := [no_unused], fresh := true, cache := "/p/cache"}, Options).

wrong_test_() ->
    [?_assertEqual({error, Text}, words([Option], [])) || {Option, Text} <- [
        {{formats, json}, "{formats,json} is no option of podruksis"},
        {loud, "{loud,true} is no option of podruksis"},
        {{open, m}, "{open,m} is no option of podruksis"},
        {{workers, 1.5}, "1.5 is no value of an option of podruksis"},
        {"text", "\"text\" is no option of podruksis"}
    ]].

errors_test_() ->
    [?_assertEqual(Expected, unicode:characters_to_list(rebar3_podruksis:format_error(Reason))) || {Reason, Expected} <- [
        {{findings, 1}, "podruksis: 1 finding"},
        {{findings, 12}, "podruksis: 12 findings"},
        {not_done, "podruksis: not everything could be checked"},
        {{wrong, "why"}, "podruksis: why"}
    ]].
