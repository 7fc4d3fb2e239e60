%% What a listing of a source rests on, beside the source: headers that it
%% includes, the project's rebar.config, and parse transforms.
%%
%% Headers are found by the text alone, whatever macros decide, and in each
%% folder that has one of the name; so they are those that a compiler reads, and
%% perhaps more. A header whose name is a macro isn't seen: `--fresh' lists anew.
-module(podruksis_sources).

-export([rests_on/2]).

-type folders() :: #{include := [string()], paths := [string()], _ => _}.

%% The files on which the listing of a source rests, itself first; each once.
-spec rests_on(file:filename(), folders()) -> [file:filename()].
rests_on(Source, Folders) ->
    Config = config(filename:dirname(podruksis_places:absolute(Source)), 5),
    Include = maps:get(include, Folders) ++ project(Config),
    Seen = headers([Source], Include, []),
    Seen ++ Config ++ transforms(Seen ++ Config, Folders).

%% The rebar.config of the folder or of one above it, the nearest.
-spec config(file:filename(), non_neg_integer()) -> [file:filename()].
config(_, 0) -> [];
config(Folder, Up) ->
    File = filename:join(Folder, "rebar.config"),
    case filelib:is_regular(File) of
        true -> [File];
        false -> config(filename:dirname(Folder), Up - 1)
    end.

%% Where a project has the headers of its applications.
-spec project([file:filename()]) -> [file:filename()].
project([]) -> [];
project([Config]) ->
    Top = filename:dirname(Config),
    [filename:join(Top, "include"), filename:join([Top, "_build", "default", "lib"]), filename:join(Top, "apps")].

%% Files, and the headers that they name, and so on.
-spec headers([file:filename()], [string()], [file:filename()]) -> [file:filename()].
headers([], _, Seen) -> lists:reverse(Seen);
headers([File | Files], Include, Seen) ->
    case lists:member(File, Seen) of
        true -> headers(Files, Include, Seen);
        false -> headers(named(File, Include) ++ Files, Include, [File | Seen])
    end.

%% The headers that one file names.
-spec named(file:filename(), [string()]) -> [file:filename()].
named(File, Include) ->
    Here = filename:dirname(File),
    Folders = [Here, filename:join(Here, "../include"), filename:join(Here, "../src") | Include],
    lists:append([places(Kind, Name, Folders) || [Kind, Name] <- found(File, "-\\s*include(_lib)?\\s*\\(\\s*\"([^\"]*)\"")]).

-spec places(string(), string(), [file:filename()]) -> [file:filename()].
places(Kind, Name, Folders) ->
    Below = [filename:join(Folder, Name) || Folder <- Folders],
    Library = case Kind of "_lib" -> library(filename:split(Name)); _ -> [] end,
    [File || File <- Below ++ Library, filelib:is_regular(File)].

%% A header of an application on the path.
-spec library([string()]) -> [file:filename()].
library([Application | Rest]) when Rest =/= [] ->
    case code:lib_dir(list_to_atom(Application)) of
        {error, _} -> [];
        Folder -> [filename:join([Folder | Rest])]
    end;
library(_) -> [].

%% The beams of the parse transforms that files name.
-spec transforms([file:filename()], folders()) -> [file:filename()].
transforms(Files, #{paths := Paths}) ->
    Names = lists:usort([Name || File <- Files, [Name] <- found(File, "parse_transform\\s*,\\s*'?([a-z][A-Za-z0-9_@]*)")]),
    lists:append([beam(Name, Paths) || Name <- Names]).

-spec beam(string(), [string()]) -> [file:filename()].
beam(Name, Paths) ->
    Below = [filename:join(Path, Name ++ ".beam") || Path <- Paths],
    Loaded = [File || File <- [code:which(list_to_atom(Name))], is_list(File)],
    [File || File <- Below ++ Loaded, filelib:is_regular(File)].

%% The parts of each match of an expression in a file's text.
-spec found(file:filename(), string()) -> [[string()]].
found(File, Expression) ->
    case file:read_file(File) of
        {ok, Text} ->
            case re:run(Text, Expression, [global, {capture, all_but_first, list}]) of
                {match, Matches} -> Matches;
                nomatch -> []
            end;
        {error, _} -> []
    end.
