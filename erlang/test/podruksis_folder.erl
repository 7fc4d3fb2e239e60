%% A folder of its own for a test, and files in it.
-module(podruksis_folder).

-export([with/1, write/3, program/3]).

%% Calls a function with a new folder, which is gone afterwards.
-spec with(fun((file:filename()) -> Answer)) -> Answer.
with(Test) ->
    Name = io_lib:format("~ts_~w", [os:getpid(), erlang:unique_integer([positive])]),
    Folder = filename:join(filename:basedir(user_cache, "podruksis_tests"), lists:flatten(Name)),
    ok = filelib:ensure_path(Folder),
    try Test(Folder) after file:del_dir_r(Folder) end.

-spec write(file:filename(), file:filename(), iodata()) -> file:filename().
write(Folder, Name, Text) ->
    File = filename:join(Folder, Name),
    ok = filelib:ensure_dir(File),
    ok = file:write_file(File, Text),
    File.

%% A program by a text of the shell, in the place of `dialyze'.
-spec program(file:filename(), file:filename(), iodata()) -> file:filename().
program(Folder, Name, Text) ->
    File = write(Folder, Name, ["#!/bin/sh\n", Text]),
    ok = file:change_mode(File, 8#755),
    File.
