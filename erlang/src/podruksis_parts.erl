%% The parts of a run that is more than `dialyze' takes at once.
%%
%% Modules of one application stay together, and so do applications that call
%% one another, as far as they fit. Parts stand in the order of calls, the called
%% first: with a table, each part is checked against those before it.
-module(podruksis_parts).

-export([split/2, application/1]).

-export_type([limits/0, piece/0]).

-type limits() :: #{files := pos_integer(), bytes := pos_integer()}.

%% A module, as far as it matters here.
-type piece() :: #{module := module(), input := file:filename(), bytes := non_neg_integer(), calls := [binary()], _ => _}.

%% The parts, and what there is to be noted.
-spec split([piece()], limits()) -> {[[piece()]], [unicode:chardata()]}.
split(Pieces, Limits) ->
    case fits(Pieces, Limits) of
        true -> {[Pieces], []};
        false ->
            Applications = by_application(Pieces),
            {Groups, Notes} = lists:unzip([group(Names, Applications, Limits) || Names <- order(Applications)]),
            {fill(lists:append(Groups), Limits), lists:append(Notes)}
    end.

-spec fits([piece()], limits()) -> boolean().
fits(Pieces, #{files := Files, bytes := Bytes}) ->
    length(Pieces) =< Files andalso lists:sum([Size || #{bytes := Size} <- Pieces]) =< Bytes.

%% The application of a beam or a source: the folder that has its ebin or its
%% src, and else the folder where it lies.
-spec application(file:filename()) -> file:filename().
application(Input) ->
    Folder = filename:dirname(podruksis_places:absolute(Input)),
    case {filename:extension(Input), above("ebin", Folder), above("src", Folder)} of
        {".erl", _, {ok, Application}} -> Application;
        {".erl", _, none} -> Folder;
        {_, {ok, Application}, _} -> Application;
        _ -> Folder
    end.

-spec above(string(), file:filename()) -> {ok, file:filename()} | none.
above(Name, Folder) ->
    case {filename:basename(Folder), filename:dirname(Folder)} of
        {Name, Above} -> {ok, Above};
        {_, Folder} -> none;
        {_, Above} when Name =:= "src" -> above(Name, Above);
        _ -> none
    end.

-spec by_application([piece()]) -> #{file:filename() => [piece()]}.
by_application(Pieces) ->
    lists:foldr(fun(#{input := Input} = Piece, Map) ->
                        maps:update_with(application(Input), fun(Others) -> [Piece | Others] end, [Piece], Map)
                end, #{}, Pieces).

%% Lists of applications that call one another, the called lists first.
-spec order(#{file:filename() => [piece()]}) -> [[file:filename()]].
order(Applications) ->
    Homes = maps:from_list([{atom_to_binary(Module), Application}
                            || {Application, Pieces} <- maps:to_list(Applications), #{module := Module} <- Pieces]),
    Calls = maps:map(fun(_, Pieces) ->
                             Called = lists:usort(lists:append([Names || #{calls := Names} <- Pieces])),
                             lists:usort([Home || Name <- Called, {ok, Home} <- [maps:find(Name, Homes)]])
                     end, Applications),
    podruksis_order:components(Calls).

%% The pieces of a list of applications, as lists that are to stay together.
-spec group([file:filename()], #{file:filename() => [piece()]}, limits()) -> {[[piece()]], [unicode:chardata()]}.
group(Names, Applications, Limits) ->
    All = lists:append([maps:get(Name, Applications) || Name <- Names]),
    case {fits(All, Limits), Names} of
        {true, _} -> {[All], []};
        {false, [Name]} -> {[[Piece] || Piece <- All], [["the application ", Name, " doesn't fit into one run: " | parted()]]};
        {false, _} ->
            {Groups, Notes} = lists:unzip([group([Name], Applications, Limits) || Name <- Names]),
            Said = ["the applications ", lists:join(", ", Names), " call one another and don't fit into one run: " | parted()],
            {lists:append(Groups), [Said | lists:append(Notes)]}
    end.

-spec parted() -> unicode:chardata().
parted() -> "calls between the parts are taken as calls of functions of which nothing is known".

%% Lists one after another into parts, each as full as it may be.
-spec fill([[piece()]], limits()) -> [[piece()]].
fill([], _) -> [];
fill([First | Lists], Limits) -> fill(First, Lists, Limits).

-spec fill([piece()], [[piece()]], limits()) -> [[piece()]].
fill(Part, [], _) -> [Part];
fill(Part, [List | Lists], Limits) ->
    case fits(Part ++ List, Limits) of
        true -> fill(Part ++ List, Lists, Limits);
        false -> [Part | fill(List, Lists, Limits)]
    end.
