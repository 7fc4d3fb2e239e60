%%% Listings of Core Erlang in the form that the program `dialyze' reads.
%%%
%%% The compiler's text of a module may hold what the program refuses (integers of more than 127 bits, expressions of
%%% several values in a receive loop) and doesn't show what the system may do with a module (native functions, a
%%% function that runs when the module is loaded). A listing is written so that it is always accepted, and so that each
%%% run of the module is a run of its listing: a rewritten listing may hide a discrepancy and never creates one.
-module(core_listing).

-export([file/2, inputs/1, main/1]).
-export_type([options/0, listing/0, location/0, note/0, kind/0, reason/0]).

-type options() :: #{
    %% The numbers of the listing are those of its locations; else they are lines.
    locations => boolean(),
    %% Modules whose functions may be replaced when they run.
    open => [module()],
    %% Further folders of compiled code, for parse transforms and other languages' libraries.
    paths => [file:name_all()],
    %% For sources: folders of included files, and macros.
    include => [file:name_all()],
    define => [{atom() | string(), term()}]
}.
-type listing() :: #{module := atom(), text := iodata(), locations := [location()], notes := [note()]}.
-type location() :: core_listing_places:location().
-type kind() :: core_listing_silence:kind().
-type note() :: iodata().
-type reason() :: iodata().

%% @doc Lists the module of a compiled file or of a source. The work is done in a process of its own, whose memory is
%% given back at its end; a fault of it is an answer.
-spec file(file:name_all(), options()) -> {ok, listing()} | {left_out, reason(), [note()]} | {error, reason()}.
file(Input, Options) ->
    Work = fun() ->
        exit(try {done, list(Input, Options)} catch Class:Reason:Stack -> {Class, Reason, Stack} end)
    end,
    {Pid, Monitor} = spawn_opt(Work, [monitor, {min_heap_size, 1000000}]),
    receive
        {'DOWN', Monitor, process, Pid, {done, Answer}} -> Answer;
        {'DOWN', Monitor, process, Pid, Fault} -> {error, io_lib:format("the listing tool failed: ~0tP", [Fault, 30])}
    end.

%% @doc The files that the words of a command name: files and folders, `--apps' and applications, `-r' and folders.
-spec inputs([string()]) -> {ok, [file:filename()]} | {error, reason()}.
inputs(Words) -> core_listing_inputs:inputs(Words).

%% @doc The command `core_listing'.
-spec main([string()]) -> no_return().
main(Words) -> halt(core_listing_command:run(Words)).

list(Input, Options) ->
    case core_listing_origin:core(Input, Options) of
        {ok, Origin} -> core_listing_module:list(Origin, Options);
        {left_out, Reason} -> {left_out, Reason, []};
        {error, Reason} -> {error, Reason}
    end.
