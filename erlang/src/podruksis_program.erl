%% The program `dialyze': where it is, how it is run, and what its answer means.
%%
%% It is started directly, with its words as a list: no shell reads them. Each
%% way in which it may end is told by name; no answer is taken for another.
-module(podruksis_program).

-export([find/1, run/3, version/1]).

-export_type([answer/0]).

-type answer() ::
    {report, binary()}
    %% a source that it doesn't take, by the line that it prints
    | {refused, binary()}
    %% a table that it doesn't take
    | {table_fault, binary()}
    %% a device's fault, no memory, words that are no command, an end by a
    %% signal, an end with another status, a program that can't be started
    | {failed, unicode:chardata()}.

%% Where the program is: where the option or the environment says, or on the path.
-spec find(default | string()) -> {ok, file:filename()} | {error, unicode:chardata()}.
find(default) ->
    case os:getenv("PODRUKSIS_DIALYZE", "") of
        "" -> found("dialyze", "dialyze isn't on the path; --dialyze PATH or PODRUKSIS_DIALYZE says where it is");
        Path -> found(Path, ["PODRUKSIS_DIALYZE: ", Path, " is no program"])
    end;
find(Path) -> found(Path, ["--dialyze: ", Path, " is no program"]).

-spec found(string(), unicode:chardata()) -> {ok, file:filename()} | {error, unicode:chardata()}.
found(Name, Missing) ->
    case os:find_executable(Name) of
        false -> {error, Missing};
        Path -> {ok, filename:absname(Path)}
    end.

%% Which program it is, as far as what was made by it may be used by it: its digest.
-spec version(file:filename()) -> {ok, binary()} | {error, unicode:chardata()}.
version(Program) ->
    case file:read_file(Program) of
        {ok, Bytes} -> {ok, crypto:hash(sha256, Bytes)};
        {error, Reason} -> {error, [Program, ": ", file:format_error(Reason)]}
    end.

%% Runs the program. Tick is called while it runs, from time to time.
-spec run(file:filename(), [file:filename_all()], fun(() -> term())) -> answer().
run(Program, Words, Tick) ->
    try open_port({spawn_executable, Program}, [{args, Words}, exit_status, binary, use_stdio, hide]) of
        Port -> {Status, Output} = gather(Port, Tick, []), answer(Status, Output)
    catch
        error:Reason -> {failed, io_lib:format("~ts can't be started: ~ts", [Program, why(Reason)])}
    end.

-spec why(term()) -> unicode:chardata().
why(Reason) when is_atom(Reason) -> file:format_error(Reason);
why(Reason) -> io_lib:format("~0tp", [Reason]).

-spec gather(port(), fun(() -> term()), [binary()]) -> {non_neg_integer(), binary()}.
gather(Port, Tick, Parts) ->
    receive
        {Port, {data, Data}} -> gather(Port, Tick, [Data | Parts]);
        {Port, {exit_status, Status}} -> {Status, iolist_to_binary(lists:reverse(Parts))}
    after 500 ->
        Tick(),
        gather(Port, Tick, Parts)
    end.

%% What a status says, with what was printed.
-spec answer(non_neg_integer(), binary()) -> answer().
answer(0, <<>>) -> {report, <<>>};
answer(0, Output) -> {failed, ["dialyze found nothing, and printed: ", first(Output)]};
answer(1, Output) -> {refused, first(Output)};
answer(2, <<>>) -> {failed, "dialyze found something, and printed nothing"};
answer(2, Output) -> {report, Output};
answer(3, Output) -> {table_fault, first(Output)};
answer(4, Output) -> {failed, ["dialyze met a device's fault: ", last(Output)]};
answer(5, _) -> {failed, "dialyze had too little memory"};
answer(6, Output) -> {failed, ["dialyze doesn't take these words: ", first(Output)]};
answer(Status, Output) when Status > 128 ->
    {failed, [io_lib:format("dialyze crashed: it was ended by signal ~ts", [signal(Status - 128)]), said(Output)]};
answer(Status, Output) -> {failed, [io_lib:format("dialyze crashed: it ended with status ~w", [Status]), said(Output)]}.

-spec said(binary()) -> unicode:chardata().
said(<<>>) -> [];
said(Output) -> ["; its last line: ", last(Output)].

-spec signal(pos_integer()) -> string().
signal(4) -> "4 (illegal instruction)";
signal(6) -> "6 (abort)";
signal(7) -> "7 (bus error)";
signal(8) -> "8 (arithmetic)";
signal(9) -> "9 (kill; too little memory is one cause)";
signal(11) -> "11 (segmentation; too little stack is one cause)";
signal(15) -> "15 (terminate)";
signal(Number) -> integer_to_list(Number).

-spec first(binary()) -> binary().
first(Output) -> hd(binary:split(Output, <<"\n">>)).

-spec last(binary()) -> binary().
last(Output) -> lists:last([<<>> | [Line || Line <- binary:split(Output, <<"\n">>, [global]), Line =/= <<>>]]).
