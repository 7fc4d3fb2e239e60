%% Tables that are kept between runs: that of `build', and one for each list of
%% words of the command.
%%
%% Whether the program keeps tables is tried, once a run, on an empty module: its
%% usage line names the options of tables whether or not it takes them.
%%
%% Beside each table stands a record of which program made it, from which table,
%% and of which modules. A table of other modules than those that are handed in
%% now isn't used: it would speak of modules that are gone.
-module(podruksis_tables).

-export([keeps/2, place/2, of_build/2, begin_from/3, made/4]).

-export_type([place/0]).

%% Where a table stands, with what decides whether it is used.
-type place() :: #{
    table := file:filename(),
    program := binary(),
    %% the digest of the table from which it is begun, if there is one
    base := none | {file:filename(), binary()}
}.

%% Whether the program makes tables.
-spec keeps(file:filename(), file:filename()) -> boolean().
keeps(Program, Folder) ->
    Module = filename:join(Folder, "empty." ++ os:getpid() ++ ".core"),
    Table = filename:join(Folder, "empty." ++ os:getpid() ++ ".table"),
    _ = filelib:ensure_dir(Module),
    _ = file:write_file(Module, "module 'empty' [] attributes []\nend\n"),
    Answer = podruksis_program:run(Program, ["check", "--out", Table, Module], fun() -> ok end),
    Made = filelib:is_regular(Table),
    _ = file:delete(Module),
    _ = file:delete(Table),
    Made andalso Answer =:= {report, <<>>}.

%% Where the table of these words stands, in a folder.
-spec place(file:filename(), term()) -> file:filename().
place(Folder, Words) ->
    Name = lists:flatten([io_lib:format("~2.16.0b", [Byte]) || <<Byte>> <= erlang:md5(term_to_binary(Words))]),
    filename:join([filename:absname(Folder), "tables", Name]).

%% The table that `build' makes: where the option says, or in the folder.
-spec of_build(default | string(), file:filename()) -> file:filename().
of_build(default, Folder) -> filename:join([filename:absname(Folder), "tables", "build"]);
of_build(File, _) -> filename:absname(File).

%% The table from which a run of some modules begins: that of the last run of
%% these words, else that of `build', else none.
-spec begin_from(place(), [module()], boolean()) -> {ok, [file:filename()]} | {error, unicode:chardata()}.
begin_from(#{table := Table, program := Program, base := Base}, Modules, Fresh) ->
    case Fresh of
        false ->
            case usable(read(Table), Table, Program, digest(Base), Modules) of
                true -> {ok, [Table]};
                false -> begin_from_base(Base, Program)
            end;
        true -> begin_from_base(Base, Program)
    end.

-spec begin_from_base(none | {file:filename(), binary()}, binary()) -> {ok, [file:filename()]} | {error, unicode:chardata()}.
begin_from_base(none, _) -> {ok, []};
begin_from_base({Table, _}, Program) ->
    case read(Table) of
        {ok, #{program := Other}} when Other =/= Program ->
            {error, ["the table ", Table, " was made by another dialyze: podruksis build makes it again"]};
        _ -> {ok, [Table]}
    end.

%% Whether a table may be used by its record.
-spec usable({ok, map()} | none, file:filename(), binary(), none | binary(), [module()]) -> boolean().
usable({ok, #{program := Program, base := Base, modules := Before}}, Table, Program, Base, Modules) ->
    Before -- Modules =:= [] andalso filelib:is_regular(Table);
usable(_, _, _, _, _) -> false.

-spec digest(none | {file:filename(), binary()}) -> none | binary().
digest(none) -> none;
digest({_, Digest}) -> Digest.

%% Puts the new table in its place, with its record.
-spec made(file:filename(), place(), [module()], map()) -> ok | {error, unicode:chardata()}.
made(New, #{table := Table, program := Program, base := Base}, Modules, More) ->
    Record = More#{program => Program, base => digest(Base), modules => lists:sort(Modules)},
    %% the old record goes first: no table stands beside another's record
    _ = file:delete(Table ++ ".record"),
    case file:rename(New, Table) of
        ok ->
            case file:write_file(Table ++ ".record", term_to_binary(Record)) of
                ok -> ok;
                {error, Reason} -> {error, [Table, ".record: ", file:format_error(Reason)]}
            end;
        {error, Reason} -> {error, [Table, ": ", file:format_error(Reason)]}
    end.

-spec read(file:filename()) -> {ok, map()} | none.
read(Table) ->
    case file:read_file(Table ++ ".record") of
        {ok, Bytes} -> try {ok, binary_to_term(Bytes)} catch error:badarg -> none end;
        {error, _} -> none
    end.
