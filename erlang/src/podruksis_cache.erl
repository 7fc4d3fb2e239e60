%% Listings that are kept between runs, so that only what changed is listed.
%%
%% A folder has three files for each input under one set of options: the listing
%% (.core), its locations (.places), and the entry (.entry) with the digests of
%% what it was listed from and of both. What isn't as the entry says, for
%% whatever reason, is listed again: a damaged folder costs time and no finding.
-module(podruksis_cache).

-export([open/3, find/2, keep/2, locations/1, digest_of_file/1]).

-export_type([cache/0, entry/0, made/0, outcome/0, place/0]).

-opaque cache() :: #{folder := file:filename(), options := binary(), listing := map(), fresh := boolean()}.

%% A listing that stands in the folder.
-type entry() :: #{
    module := module(),
    listing := file:filename(),
    places := file:filename(),
    places_digest := binary(),
    bytes := non_neg_integer(),
    %% modules that it calls by a literal name
    calls := [binary()],
    notes := [unicode:chardata()]
}.

%% What listing one input gives.
-type made() ::
    {ok, #{module := module(), text := iodata(), locations := [map()], notes := [unicode:chardata()]}}
    | {left_out, term(), [unicode:chardata()]}
    | {error, term()}.

%% Where the listing of an input goes: the name of its files without their
%% endings, and the digest of what it is listed from.
-opaque place() :: {file:filename(), binary()}.

-type outcome() ::
    {kept | listed, entry()}
    | {left_out, term(), [unicode:chardata()]}
    | {error, term()}.

%% What the form of the files is; another one is another cache.
-define(FORM, 1).

%% The cache in a folder, for options of a listing. Fresh is a cache in which
%% nothing is found.
-spec open(file:filename(), map(), boolean()) -> {ok, cache()} | {error, unicode:chardata()}.
open(Folder, Listing, Fresh) ->
    Listings = filename:join(podruksis_places:absolute(Folder), "listings"),
    case filelib:ensure_dir(filename:join(Listings, "x")) of
        ok ->
            Options = hash({?FORM, Listing, tool(), otp()}),
            {ok, #{folder => Listings, options => Options, listing => Listing, fresh => Fresh}};
        {error, Reason} ->
            {error, ["the folder for listings, ", Listings, ", can't be made: ", file:format_error(Reason)]}
    end.

%% Which tool lists: the digest of each of its modules.
-spec tool() -> binary().
tool() ->
    case code:which(core_listing) of
        File when is_list(File) -> hash(modules_beside(filename:dirname(File)));
        _ -> hash(core_listing:module_info(md5))
    end.

%% The files of a folder, which may lie in an archive.
-spec modules_beside(file:filename()) -> [{string(), binary() | missing}].
modules_beside(Folder) ->
    case erl_prim_loader:list_dir(Folder) of
        {ok, Names} -> [{Name, loaded(filename:join(Folder, Name))} || "core_" ++ _ = Name <- lists:sort(Names)];
        error -> []
    end.

-spec loaded(file:filename()) -> binary() | missing.
loaded(File) ->
    case erl_prim_loader:get_file(File) of
        {ok, Bytes, _} -> erlang:md5(Bytes);
        error -> missing
    end.

%% Which Erlang lists.
-spec otp() -> term().
otp() -> {erlang:system_info(otp_release), code:lib_dir(compiler)}.

%% The listing of an input that is kept, where it is of the same text; else
%% where the one goes that is made now.
-spec find(cache(), file:filename()) -> {kept, entry()} | {missing, place()} | {error, unicode:chardata()}.
find(#{fresh := Fresh} = Cache, Input) ->
    Path = podruksis_places:absolute(Input),
    Base = base(Cache, Path),
    case digest(Cache, Path) of
        {ok, Digest} when Fresh -> {missing, {Base, Digest}};
        {ok, Digest} ->
            case kept(Base, Digest) of
                {ok, Entry} -> {kept, Entry};
                none -> {missing, {Base, Digest}}
            end;
        {error, Reason} -> {error, file:format_error(Reason)}
    end.

%% The name of the files of an input, without their endings.
-spec base(cache(), file:filename()) -> file:filename().
base(#{folder := Folder, options := Options}, Path) ->
    filename:join(Folder, hex(binary:part(hash({Options, Path}), 0, 20))).

%% The digest of all that the listing rests on.
-spec digest(cache(), file:filename()) -> {ok, binary()} | {error, file:posix()}.
digest(#{listing := Listing}, Path) ->
    Files = case filename:extension(Path) of
                ".erl" -> podruksis_sources:rests_on(Path, Listing);
                _ -> [Path]
            end,
    case [digest_of_file(File) || File <- Files] of
        [{error, Reason} | _] -> {error, Reason};
        [{ok, Digest}] -> {ok, Digest};
        Digests -> {ok, hash(lists:zip(Files, Digests))}
    end.

-spec digest_of_file(file:filename()) -> {ok, binary()} | {error, file:posix()}.
digest_of_file(File) ->
    case bytes(File) of
        {ok, Bytes} -> {ok, hash_of_bytes(Bytes)};
        {error, Reason} -> {error, Reason}
    end.

%% The bytes of a file, read by the process itself: many are read at once, and
%% the server of files would take them one after another.
-spec bytes(file:filename()) -> {ok, binary()} | {error, file:posix()}.
bytes(File) ->
    case file:open(File, [read, raw, binary]) of
        {ok, Device} ->
            Bytes = bytes(Device, []),
            _ = file:close(Device),
            Bytes;
        {error, Reason} -> {error, Reason}
    end.

-spec bytes(file:fd(), [binary()]) -> {ok, binary()} | {error, file:posix()}.
bytes(Device, Parts) ->
    case file:read(Device, 1 bsl 22) of
        {ok, Part} -> bytes(Device, [Part | Parts]);
        eof -> {ok, iolist_to_binary(lists:reverse(Parts))};
        {error, Reason} -> {error, Reason}
    end.

%% What is kept of an input of this digest.
-spec kept(file:filename(), binary()) -> {ok, entry()} | none.
kept(Base, Digest) ->
    case read(Base ++ ".entry") of
        {ok, {Digest, Listed, Entry}} ->
            #{places_digest := Placed} = Entry,
            case {digest_of_file(Base ++ ".core"), digest_of_file(Base ++ ".places")} of
                {{ok, Listed}, {ok, Placed}} -> {ok, with_names(Base, Entry)};
                _ -> none
            end;
        _ -> none
    end.

%% Files are named by the folder in which the entry stands now.
-spec with_names(file:filename(), map()) -> entry().
with_names(Base, Entry) -> Entry#{listing => Base ++ ".core", places => Base ++ ".places"}.

-spec read(file:filename()) -> {ok, term()} | none.
read(File) ->
    case bytes(File) of
        {ok, Bytes} ->
            try {ok, binary_to_term(Bytes)} catch error:badarg -> none end;
        {error, _} -> none
    end.

%% Keeps a listing; what was left out isn't kept, since what it lacked may be there next time, as a language's library.
%% Where the folder can't be written the input has an error.
-spec keep(place(), made()) -> outcome().
keep({Base, Digest}, {ok, #{module := Module, text := Text, locations := Locations, notes := Notes}}) ->
    Listing = iolist_to_binary(Text),
    Places = term_to_binary(Locations, [{compressed, 1}]),
    Entry = #{module => Module, places_digest => hash_of_bytes(Places), bytes => byte_size(Listing),
              calls => calls(Listing), notes => [unicode:characters_to_binary(Note) || Note <- Notes]},
    Written = [{".core", Listing}, {".places", Places},
               {".entry", term_to_binary({Digest, hash_of_bytes(Listing), Entry})}],
    case write(Base, Written) of
        ok -> {listed, with_names(Base, Entry)};
        {error, Reason} -> {error, Reason}
    end;
keep(_, {left_out, Reason, Notes}) -> {left_out, Reason, Notes};
keep(_, {error, Reason}) -> {error, Reason}.

%% Each file is written beside its place and then put there, so that a run that
%% is ended leaves none that is half written.
-spec write(file:filename(), [{string(), binary()}]) -> ok | {error, unicode:chardata()}.
write(_, []) -> ok;
write(Base, [{Ending, Bytes} | Rest]) ->
    File = Base ++ Ending,
    Beside = lists:flatten(io_lib:format("~ts.~ts.~w", [File, os:getpid(), erlang:unique_integer([positive])])),
    case first_error([fun() -> file:write_file(Beside, Bytes) end, fun() -> file:rename(Beside, File) end]) of
        ok -> write(Base, Rest);
        {error, Reason} ->
            _ = file:delete(Beside),
            {error, [File, " can't be written: ", file:format_error(Reason)]}
    end.

-spec first_error([fun(() -> ok | {error, file:posix()})]) -> ok | {error, file:posix()}.
first_error([]) -> ok;
first_error([Step | Steps]) ->
    case Step() of
        ok -> first_error(Steps);
        {error, Reason} -> {error, Reason}
    end.

%% Where the numbers of a listing lead, by number.
-spec locations(entry()) -> {ok, #{pos_integer() => map()}} | {error, unicode:chardata()}.
locations(#{places := File, places_digest := Digest}) ->
    case file:read_file(File) of
        {ok, Bytes} ->
            case hash_of_bytes(Bytes) of
                Digest -> {ok, maps:from_list([{Id, Place} || #{id := Id} = Place <- binary_to_term(Bytes)])};
                _ -> {error, [File, " isn't what was kept; another run may have listed the module anew"]}
            end;
        {error, Reason} -> {error, [File, ": ", file:format_error(Reason)]}
    end.

%% The modules that a listing calls by a literal name without escapes. What
%% stands in quotes may look so too: the list only orders applications.
-spec calls(binary()) -> [binary()].
calls(Listing) ->
    case re:run(Listing, "call '([^'\\\\]*)':", [global, {capture, all_but_first, binary}]) of
        {match, Found} -> lists:usort([Name || [Name] <- Found]);
        nomatch -> []
    end.

-spec hash(term()) -> binary().
hash(Term) -> hash_of_bytes(term_to_binary(Term)).

-spec hash_of_bytes(binary()) -> binary().
hash_of_bytes(Bytes) -> crypto:hash(sha256, Bytes).

-spec hex(binary()) -> string().
hex(Bytes) -> lists:flatten([io_lib:format("~2.16.0b", [Byte]) || <<Byte>> <= Bytes]).
