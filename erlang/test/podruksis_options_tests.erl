-module(podruksis_options_tests).

-include_lib("eunit/include/eunit.hrl").

options(Words) ->
    {ok, Options} = podruksis_options:parse(Words),
    Options.

wrong(Words) ->
    {error, Text} = podruksis_options:parse(Words),
    unicode:characters_to_list(Text).

%% Lists last until the next word with a minus; behind `--' all are files.
lists_of_words_test_() ->
    [?_assertEqual(Expected, maps:get(words, options(Words))) || {Words, Expected} <- [
        {["m.beam"], [{file, "m.beam"}]},
        {["ebin", "m.erl"], [{file, "ebin"}, {file, "m.erl"}]},
        {["--apps", "kernel", "stdlib"], [{application, "kernel"}, {application, "stdlib"}]},
        {["-r", "apps", "lib"], [{tree, "apps"}, {tree, "lib"}]},
        {["m.beam", "--apps", "kernel", "-r", "d"], [{file, "m.beam"}, {application, "kernel"}, {tree, "d"}]},
        {["--apps", "kernel", "--quiet", "m.beam"], [{application, "kernel"}, {file, "m.beam"}]},
        {["--apps", "kernel", "--files", "m.beam"], [{application, "kernel"}, {file, "m.beam"}]},
        {["-r", "d", "--", "-x.beam", "--apps"], [{tree, "d"}, {file, "-x.beam"}, {file, "--apps"}]},
        {["a b", "c\nd.beam"], [{file, "a b"}, {file, "c\nd.beam"}]}
    ]].

%% Without options each is as `default' has it.
defaults_test() ->
    Expected = (podruksis_options:default())#{words := [{file, "m.beam"}]},
    ?assertEqual(Expected, options(["m.beam"])).

one_option_test_() ->
    [?_assertEqual({Words, Value}, {Words, maps:get(Key, options(Words ++ ["--", "m.beam"]))}) || {Words, Key, Value} <- [
        {["build"], command, build},
        {["--no-unknown"], silent, [no_unknown]},
        {["-Wno_unknown", "--no-unknown"], silent, [no_unknown]},
        {["-Wno_return", "-Wno_match", "-Wno_fail_call", "-Wno_unused", "-Wno_unknown"], silent,
         [no_fail_call, no_match, no_return, no_unknown, no_unused]},
        {["--context", "no_folder_of_this_name", "-r", "d"], context, [{application, "no_folder_of_this_name"}]},
        {["--context", "/"], context, [{file, "/"}]},
        {["--known", "kernel", "stdlib"], known, ["kernel", "stdlib"]},
        {["--open", "m", "n"], open, [m, n]},
        {["-pa", "a", "b"], paths, ["a", "b"]},
        {["-I", "a", "-Ib"], include, ["a", "b"]},
        {["-D", "A", "-DB=[1,x]"], define, [{'A', true}, {'B', [1, x]}]},
        {["--dialyze", "/d/my dialyze"], dialyze, "/d/my dialyze"},
        {["--cache", "c"], cache, "c"},
        {["--plt", "t"], table, "t"},
        {["-o", "f"], output, "f"},
        {["--output", "f"], output, "f"},
        {["--workers", "64"], workers, 64},
        {["--format", "sarif"], format, sarif},
        {["--format", "sarif", "--format", "json"], format, json},
        {["--colour", "always"], colour, always},
        {["--color", "never"], colour, never},
        {["--fresh"], fresh, true},
        {["--quiet"], quiet, true},
        {["--statistics"], statistics, true}
    ]].

wrong_words_test_() ->
    [?_assertEqual(Text, wrong(Words)) || {Words, Text} <- [
        {[], "no file, folder or application is named"},
        {["--quiet"], "no file, folder or application is named"},
        {[""], "a name is empty"},
        {["--apps", "", "x"], "a name is empty"},
        {["--colours", "x"], "--colours: no such option"},
        {["-x", "m.beam"], "-x: no such option"},
        {["m.beam", "--format"], "--format: its value is missing"},
        {["--dialyze", "", "m.beam"], "--dialyze: its value is missing"},
        {["--format", "xml", "m.beam"], "--format: xml is none of text, json, sarif, github"},
        {["-Wno_improper_lists", "m.beam"],
         "-W: no_improper_lists is none of no_return, no_match, no_fail_call, no_unused, no_unknown"},
        {["--workers", "0", "m.beam"], "--workers: 0 is no number from 1 to 64"},
        {["--workers", "65", "m.beam"], "--workers: 65 is no number from 1 to 64"},
        {["--workers", "2x", "m.beam"], "--workers: 2x is no number from 1 to 64"},
        {["-D", "=1", "m.beam"], "-D: =1 names no macro"},
        {["-D", "A=", "m.beam"], "-D: the value of A= is no Erlang term"},
        {["-D", "A=f(", "m.beam"], "-D: the value of A=f( is no Erlang term"}
    ]].

help_test() -> ?assertEqual(help, podruksis_options:parse(["m.beam", "--help"])).

%% Each option of the usage is one.
usage_test() ->
    Usage = unicode:characters_to_list(podruksis_options:usage()),
    {match, Named} = re:run(Usage, "^  (-[^ ]+)", [global, multiline, {capture, all_but_first, list}]),
    Wrong = [Option || [Option] <- Named,
                       {error, Text} <- [podruksis_options:parse([string:trim(Option, trailing, ","), "1", "m.beam"])],
                       string:find(Text, "no such option") =/= nomatch],
    ?assertEqual([], Wrong),
    ?assert(length(Named) >= 18).
