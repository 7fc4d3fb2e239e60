-module(podruksis_program_tests).

-include_lib("eunit/include/eunit.hrl").

run(Text) -> run(Text, []).
run(Text, Words) ->
    podruksis_folder:with(fun(Folder) ->
        Program = podruksis_folder:program(Folder, "my dialyze", Text),
        flat(podruksis_program:run(Program, Words, fun() -> ok end))
    end).

flat({failed, Text}) -> {failed, unicode:characters_to_list(Text)};
flat(Answer) -> Answer.

%% Each end of the program has its name.
answers_test_() ->
    [{Text, {timeout, 60, ?_assertEqual(Expected, run(Text))}} || {Text, Expected} <- [
        {"exit 0", {report, <<>>}},
        {"echo \"'m':1: x\"; exit 2", {report, <<"'m':1: x\n">>}},
        {"echo 'm.core:7: refused 5 Syntax'; exit 1", {refused, <<"m.core:7: refused 5 Syntax">>}},
        {"echo 't: table fault 20 Torn'; exit 3", {table_fault, <<"t: table fault 20 Torn">>}},
        {"echo 'm.core: device fault read'; exit 4", {failed, "dialyze met a device's fault: m.core: device fault read"}},
        {"exit 5", {failed, "dialyze had too little memory"}},
        {"echo 'usage: dialyze check'; exit 6", {failed, "dialyze doesn't take these words: usage: dialyze check"}},
        {"echo surprise; exit 0", {failed, "dialyze found nothing, and printed: surprise"}},
        {"exit 2", {failed, "dialyze found something, and printed nothing"}},
        {"echo one; echo two; exit 77", {failed, "dialyze crashed: it ended with status 77; its last line: two"}},
        {"exit 127", {failed, "dialyze crashed: it ended with status 127"}},
        {"kill -SEGV $$", {failed, "dialyze crashed: it was ended by signal 11 (segmentation; too little stack is one cause)"}},
        {"kill -KILL $$", {failed, "dialyze crashed: it was ended by signal 9 (kill; too little memory is one cause)"}}
    ]].

%% Words reach the program as they are: no shell reads them.
words_test_() -> {timeout, 60, fun words/0}.

words() ->
    Words = ["check", "a b.core", "a\nb.core", "$HOME", "`id`", "*", "\"'\\;|&", "\x{e9}.core"],
    Expected = unicode:characters_to_binary(lists:join("\n--\n", Words ++ [""])),
    Printing = "for word in \"$@\"; do printf '%s\\n--\\n' \"$word\"; done; exit 2",
    ?assertEqual({report, Expected}, run(Printing, Words)).

%% A long output is gathered whole, whatever its pieces.
long_test_() -> {timeout, 60, fun long/0}.

long() ->
    {report, Report} = run("i=0; while [ $i -lt 20000 ]; do echo \"line $i\"; i=$((i+1)); done; exit 2"),
    ?assertEqual(20001, length(binary:split(Report, <<"\n">>, [global]))).

%% While the program runs, it is told from time to time.
tick_test_() -> {timeout, 60, fun tick/0}.

tick() ->
    podruksis_folder:with(fun(Folder) ->
        Program = podruksis_folder:program(Folder, "slow", "sleep 1.2; exit 0"),
        Self = self(),
        ?assertEqual({report, <<>>}, podruksis_program:run(Program, [], fun() -> Self ! tick end)),
        receive tick -> ok after 0 -> ?assert(false) end
    end).

%% What can't be started is said.
not_started_test_() -> {timeout, 60, fun not_started/0}.

not_started() ->
    podruksis_folder:with(fun(Folder) ->
        Start = fun(File) -> flat(podruksis_program:run(File, ["check"], fun() -> ok end)) end,
        Missing = filename:join(Folder, "missing"),
        ?assertEqual({failed, Missing ++ " can't be started: no such file or directory"}, Start(Missing)),
        Plain = podruksis_folder:write(Folder, "plain", "no program"),
        ?assertEqual({failed, Plain ++ " can't be started: permission denied"}, Start(Plain)),
        ok = file:change_mode(Plain, 8#755),
        ?assertMatch({failed, _}, Start(Plain)),
        ?assertMatch({failed, _}, Start(Folder))
    end).

find_test_() ->
    {setup,
     fun() -> {os:getenv("PODRUKSIS_DIALYZE"), os:getenv("PATH")} end,
     fun({Program, Path}) -> put_variable("PODRUKSIS_DIALYZE", Program), put_variable("PATH", Path) end,
     fun(_) -> {timeout, 60, ?_test(podruksis_folder:with(fun find/1))} end}.

put_variable(Name, false) -> os:unsetenv(Name);
put_variable(Name, Value) -> os:putenv(Name, Value).

%% The option counts more than the environment, and this more than the path.
find(Folder) ->
    One = podruksis_folder:program(Folder, "one", "exit 0"),
    Two = podruksis_folder:program(Folder, "two", "exit 0"),
    Third = podruksis_folder:program(Folder, "bin/dialyze", "exit 0"),
    Find = fun(Option) ->
        case podruksis_program:find(Option) of
            {ok, File} -> {ok, File};
            {error, Text} -> {error, unicode:characters_to_list(Text)}
        end
    end,
    os:unsetenv("PODRUKSIS_DIALYZE"),
    os:putenv("PATH", filename:join(Folder, "empty")),
    ?assertEqual({error, "dialyze isn't on the path; --dialyze PATH or PODRUKSIS_DIALYZE says where it is"}, Find(default)),
    os:putenv("PATH", filename:join(Folder, "bin")),
    ?assertEqual({ok, Third}, Find(default)),
    os:putenv("PODRUKSIS_DIALYZE", Two),
    ?assertEqual({ok, Two}, Find(default)),
    ?assertEqual({ok, One}, Find(One)),
    ?assertEqual({error, "--dialyze: " ++ Folder ++ " is no program"}, Find(Folder)),
    os:putenv("PODRUKSIS_DIALYZE", Folder ++ "/gone"),
    ?assertEqual({error, "PODRUKSIS_DIALYZE: " ++ Folder ++ "/gone is no program"}, Find(default)).
