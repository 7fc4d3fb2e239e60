%%% From the words of a command to files: compiled files and sources, folders, and applications.
-module(core_listing_inputs).

-export([inputs/1]).

-include_lib("kernel/include/file.hrl").

%% @doc The files that the words name, each once, in the order of the words and of names in a folder.
-spec inputs([string()]) -> {ok, [file:filename()]} | {error, iodata()}.
inputs(Words) ->
    try words(Words, files, []) of
        Files -> {ok, unique(Files)}
    catch
        throw:{input, Reason} -> {error, Reason}
    end.

words(["--files" | Words], _, Found) -> words(Words, files, Found);
words(["--apps" | Words], _, Found) -> words(Words, applications, Found);
words(["-r" | Words], _, Found) -> words(Words, below, Found);
words([[$- | _] = Word | _], _, _) -> throw({input, ["unknown option ", Word]});
words([Word | Words], Mode, Found) -> words(Words, Mode, [named(Mode, Word) | Found]);
words([], _, Found) -> lists:append(lists:reverse(Found)).

named(files, Name) ->
    case {filelib:is_dir(Name), filelib:is_regular(Name)} of
        {true, _} -> of_folder(Name);
        {false, true} -> [Name];
        {false, false} -> throw({input, [Name, ": no such file or folder"]})
    end;
named(below, Name) ->
    filelib:is_dir(Name) orelse throw({input, [Name, ": no such folder"]}),
    compiled_or_sources(all_below(Name), Name);
named(applications, Name) ->
    case filelib:is_dir(Name) of
        true -> of_folder(Name);
        false -> of_application(Name)
    end.

of_application(Name) ->
    case code:lib_dir(list_to_atom(Name)) of
        {error, bad_name} -> throw({input, [Name, ": no such application"]});
        Folder -> of_folder(filename:join(Folder, "ebin"))
    end.

%% The compiled files of a folder or of `ebin' in it, or else its sources.
of_folder(Folder) ->
    case compiled(in(Folder)) of
        [] -> compiled_or_sources(in(filename:join(Folder, "ebin")) ++ in(Folder), Folder);
        Compiled -> Compiled
    end.

compiled_or_sources(Files, Folder) ->
    case {compiled(Files), [File || File <- Files, filename:extension(File) =:= ".erl"]} of
        {[], []} -> throw({input, [Folder, ": no compiled file and no source"]});
        {[], Sources} -> Sources;
        {Compiled, _} -> Compiled
    end.

compiled(Files) -> [File || File <- Files, filename:extension(File) =:= ".beam"].

in(Folder) ->
    case file:list_dir(Folder) of
        {ok, Names} -> [filename:join(Folder, Name) || Name <- lists:sort(Names)];
        {error, _} -> []
    end.

%% All that is below a folder; a folder that links lead to again is visited once.
all_below(Folder) ->
    {Files, _} = below(Folder, #{}),
    Files.

below(Path, Visited) ->
    case file:read_file_info(Path) of
        {ok, #file_info{type = directory, major_device = Device, inode = Inode}} ->
            case Visited of
                #{{Device, Inode} := true} -> {[], Visited};
                _ ->
                    {Files, Visited1} = lists:mapfoldl(fun below/2, Visited#{{Device, Inode} => true}, in(Path)),
                    {lists:append(Files), Visited1}
            end;
        {ok, _} -> {[Path], Visited};
        {error, _} -> {[], Visited}
    end.

unique(Files) ->
    {Unique, _} = lists:foldl(
        fun(File, {Kept, Seen}) when is_map_key(File, Seen) -> {Kept, Seen};
           (File, {Kept, Seen}) -> {[File | Kept], Seen#{File => true}}
        end, {[], #{}}, Files),
    lists:reverse(Unique).
