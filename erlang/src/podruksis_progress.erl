%% What is being done, as one line on the standard error, for long work.
%%
%% On a terminal the line is written again twice a second, and is gone in the
%% end. Elsewhere, as in the log of a build, a line is written every ten seconds.
-module(podruksis_progress).

-export([start/1, say/2, pause/1, stop/1, is_terminal/1]).

-type mode() :: terminal | log | off.

%% How often a line is written, in milliseconds; and how long work may take
%% before the first.
-define(TERMINAL, 500).
-define(LOG, 10000).

-spec start(boolean()) -> pid().
start(Quiet) ->
    Mode = mode(Quiet),
    spawn_link(fun() -> wait(Mode, nothing, erlang:monotonic_time(millisecond), next(Mode)) end).

-spec mode(boolean()) -> mode().
mode(true) -> off;
mode(false) ->
    case is_terminal(error) of
        true -> terminal;
        false -> log
    end.

%% Says what is being done now.
-spec say(pid(), unicode:chardata()) -> ok.
say(Progress, Text) ->
    Progress ! {say, Text},
    ok.

%% Nothing is being done for now: the line is gone when this returns.
-spec pause(pid()) -> ok.
pause(Progress) ->
    Call = make_ref(),
    Progress ! {pause, self(), Call},
    receive Call -> ok end.

%% Ends it; the line is gone when this returns.
-spec stop(pid()) -> ok.
stop(Progress) ->
    unlink(Progress),
    Monitor = monitor(process, Progress),
    Progress ! stop,
    receive {'DOWN', Monitor, process, Progress, _} -> ok end.

%% Whether the standard output or the standard error is a terminal.
-spec is_terminal(output | error) -> boolean().
is_terminal(Stream) ->
    Number = case Stream of output -> "1"; error -> "2" end,
    case file:read_link("/proc/self/fd/" ++ Number) of
        {ok, "/dev/pts/" ++ _} -> true;
        {ok, "/dev/tty" ++ _} -> true;
        {ok, "/dev/console"} -> true;
        {ok, _} -> false;
        {error, _} -> Stream =:= output andalso element(1, io:columns()) =:= ok
    end.

-spec next(mode()) -> integer().
next(terminal) -> erlang:monotonic_time(millisecond) + ?TERMINAL;
next(log) -> erlang:monotonic_time(millisecond) + ?LOG;
next(off) -> 0.

%% What is said is nothing, what isn't written yet, or what stands on the terminal.
-spec wait(mode(), nothing | {new | written, unicode:chardata()}, integer(), integer()) -> ok.
wait(Mode, Said, Began, Next) ->
    Left = case Mode of off -> infinity; _ -> max(0, Next - erlang:monotonic_time(millisecond)) end,
    receive
        {say, Text} -> wait(Mode, say_now(Text, Said), Began, Next);
        {pause, From, Call} ->
            clear(Mode, Said),
            From ! Call,
            wait(Mode, nothing, Began, next(Mode));
        stop -> clear(Mode, Said)
    after Left ->
        wait(Mode, write(Mode, Said, (erlang:monotonic_time(millisecond) - Began) div 1000), Began, next(Mode))
    end.

-spec say_now(unicode:chardata(), nothing | {new | written, unicode:chardata()}) -> {new | written, unicode:chardata()}.
say_now(Text, {written, _}) -> {written, Text};
say_now(Text, _) -> {new, Text}.

-spec write(mode(), nothing | {new | written, unicode:chardata()}, non_neg_integer()) ->
          nothing | {written, unicode:chardata()}.
write(_, nothing, _) -> nothing;
write(Mode, {_, Text}, Seconds) ->
    {Before, After} = case Mode of terminal -> {"\r\e[K", ""}; log -> {"", "\n"} end,
    io:put_chars(standard_error, [Before, "podruksis: ", Text, ", ", integer_to_list(Seconds), " s", After]),
    {written, Text}.

-spec clear(mode(), nothing | {new | written, unicode:chardata()}) -> ok.
clear(terminal, {written, _}) -> io:put_chars(standard_error, "\r\e[K");
clear(_, _) -> ok.
