%% How a file is named in a finding: from the folder in which the command runs,
%% where it lies below it.
%%
%% A beam names its source as the compiler was told it: by a path from the root,
%% or from a folder that nobody knows any more. rebar3 compiles an application
%% below `_build', where its folder is a link to the one that people edit.
-module(podruksis_places).

-export([shown/3, real/1, absolute/1]).

%% A file that a listing of Input names, as it is shown in the folder Here.
-spec shown(string(), file:filename(), file:filename()) -> string().
shown(File, Input, Here) ->
    case [Path || Path <- tried(File, Input, Here), filelib:is_regular(Path)] of
        [Path | _] -> below(real(Path), real(Here));
        [] -> File
    end.

%% Where a file may lie: where it says, in the folder of the application of the
%% input, or in the sources of this application.
-spec tried(string(), file:filename(), file:filename()) -> [file:filename()].
tried(File, Input, Here) ->
    Application = podruksis_parts:application(Input),
    Name = filename:basename(File),
    [filename:join(Here, File), filename:join(Application, File), filename:join(filename:dirname(Input), File),
     filename:join([Application, "src", Name])].

%% A path from the root, as it is written; the folder in which the command runs
%% is asked for only where it matters.
-spec absolute(file:filename()) -> file:filename().
absolute(Path) ->
    case filename:pathtype(Path) of
        absolute -> Path;
        _ -> filename:absname(Path)
    end.

%% The path without the folder's, where it is below.
-spec below(file:filename(), file:filename()) -> file:filename().
below(Path, Here) ->
    case lists:prefix(filename:split(Here), filename:split(Path)) of
        true when Path =/= Here -> filename:join(lists:nthtail(length(filename:split(Here)), filename:split(Path)));
        _ -> Path
    end.

%% A path from the root without links, `.' and `..', as far as it exists.
-spec real(file:filename()) -> file:filename().
real(Path) -> real(filename:split(absolute(Path)), [], 64).

-spec real([string()], [string()], non_neg_integer()) -> file:filename().
real([], Passed, _) -> filename:join(lists:reverse(Passed));
real(["." | Rest], Passed, Links) -> real(Rest, Passed, Links);
real([".." | Rest], [_, _ | _] = Passed, Links) -> real(Rest, tl(Passed), Links);
real([".." | Rest], Passed, Links) -> real(Rest, Passed, Links);
real([Name | Rest], Passed, 0) -> filename:join(lists:reverse(Passed, [Name | Rest]));
real([Name | Rest], Passed, Links) ->
    Path = filename:join(lists:reverse(Passed, [Name])),
    case file:read_link(Path) of
        {ok, Target} when hd(Target) =:= $/ -> real(filename:split(Target) ++ Rest, [], Links - 1);
        {ok, Target} -> real(filename:split(Target) ++ Rest, Passed, Links - 1);
        {error, _} -> real(Rest, [Name | Passed], Links)
    end.
