%% From words to listings: what files they mean, and a listing of each.
-module(podruksis_listings).

-export([inputs/1, list/4, options/1]).

-export_type([listed/0, said/0]).

%% A module whose listing is handed in.
-type listed() :: #{
    module := module(),
    input := file:filename(),
    entry := podruksis_cache:entry(),
    %% whether it was listed in this run
    new := boolean(),
    %% whether it is reported on
    context := boolean()
}.

%% What is said of an input: a note, or an error.
-type said() :: {file:filename(), unicode:chardata()}.

%% The files that words mean. Files stand first, so that no list of applications
%% or trees takes them in.
-spec inputs([podruksis_options:word()]) -> {ok, [file:filename()]} | {error, unicode:chardata()}.
inputs([]) -> {ok, []};
inputs(Words) ->
    Files = [filename:absname(File) || {file, File} <- Words],
    Trees = [filename:absname(Tree) || {tree, Tree} <- Words],
    Applications = [Application || {application, Application} <- Words],
    case core_listing:inputs(Files ++ after_option("-r", Trees) ++ after_option("--apps", Applications)) of
        {ok, Paths} -> {ok, Paths};
        {error, Reason} -> {error, text(Reason)}
    end.

-spec after_option(string(), [string()]) -> [string()].
after_option(_, []) -> [];
after_option(Option, Words) -> [Option | Words].

%% The options of core_listing.
-spec options(podruksis_options:options()) -> map().
options(#{paths := Paths, include := Include, define := Define, open := Open}) ->
    #{locations => true, open => lists:usort(Open), paths => [filename:absname(Path) || Path <- Paths],
      include => [filename:absname(Folder) || Folder <- Include], define => Define}.

%% How many inputs are looked up in the cache at once.
-define(LOOKED_UP, 32).

%% A listing of each input, from the cache where it has one. The first of two
%% inputs with modules of one name counts. Say is told how many are done, of how
%% many that aren't in the cache.
-spec list([{report | context, file:filename()}], map(), podruksis_cache:cache(),
           fun((non_neg_integer(), non_neg_integer()) -> term())) ->
          #{modules := [listed()], notes := [said()], errors := [said()]}.
list(Inputs, Options, Cache, Say) ->
    Found = podruksis_pool:map(fun({_, Input}) -> podruksis_cache:find(Cache, Input) end, Inputs, ?LOOKED_UP,
                               fun(_) -> ok end),
    Missing = [{Input, Place} || {{_, Input}, {ok, {missing, Place}}} <- lists:zip(Inputs, Found)],
    Total = length(Missing),
    Made = podruksis_pool:map(fun({Input, Place}) -> podruksis_cache:keep(Place, core_listing:file(Input, Options)) end,
                              Missing, erlang:system_info(schedulers_online), fun(Count) -> Say(Count, Total) end),
    gather(lists:zip(Inputs, filled(Found, Made)), #{}, #{modules => [], notes => [], errors => []}).

%% What was found, with what was made in the places of what is missing.
-spec filled([{ok, term()} | {crashed, term()}], [{ok, podruksis_cache:outcome()} | {crashed, term()}]) ->
          [{ok, podruksis_cache:outcome()} | {crashed, term()}].
filled([{ok, {missing, _}} | Found], [Made | Rest]) -> [Made | filled(Found, Rest)];
filled([Answer | Found], Made) -> [Answer | filled(Found, Made)];
filled([], []) -> [].

%% The answers in the order of the inputs; Seen has the input of each module so far.
-spec gather([{{report | context, file:filename()}, {ok, podruksis_cache:outcome()} | {crashed, term()}}],
             #{module() => file:filename()}, Given) -> Given
              when Given :: #{modules := [listed()], notes := [said()], errors := [said()]}.
gather([], _, #{modules := Modules, notes := Notes, errors := Errors}) ->
    #{modules => lists:reverse(Modules), notes => lists:reverse(Notes), errors => lists:reverse(Errors)};
gather([{{Use, Input}, {ok, {New, #{module := Module, notes := Notes} = Entry}}} | Rest], Seen, Given)
  when New =:= kept; New =:= listed ->
    case Seen of
        #{Module := First} ->
            Note = io_lib:format("left out: module ~tp is listed from ~ts", [Module, First]),
            gather(Rest, Seen, add(notes, [{Input, Note}], Given));
        #{} ->
            Listed = #{module => Module, input => Input, entry => Entry, new => New =:= listed, context => Use =:= context},
            Said = add(notes, [{Input, Note} || Note <- Notes], Given),
            gather(Rest, Seen#{Module => Input}, add(modules, [Listed], Said))
    end;
gather([{{_, Input}, {ok, {left_out, Reason, Notes}}} | Rest], Seen, Given) ->
    Said = [{Input, ["left out: ", text(Reason)]} | [{Input, Note} || Note <- Notes]],
    gather(Rest, Seen, add(notes, Said, Given));
gather([{{_, Input}, {ok, {error, Reason}}} | Rest], Seen, Given) ->
    gather(Rest, Seen, add(errors, [{Input, text(Reason)}], Given));
gather([{{_, Input}, {crashed, Reason}} | Rest], Seen, Given) ->
    Text = io_lib:format("the listing tool crashed: ~0tP", [Reason, 30]),
    gather(Rest, Seen, add(errors, [{Input, Text}], Given)).

-spec add(atom(), [term()], map()) -> map().
add(Key, New, Given) -> maps:update_with(Key, fun(Old) -> lists:reverse(New, Old) end, Given).

%% A reason as text: text, or a term.
-spec text(term()) -> unicode:chardata().
text(Reason) ->
    try unicode:characters_to_list(Reason) of
        Text when is_list(Text) -> Text;
        _ -> io_lib:format("~0tP", [Reason, 30])
    catch
        error:badarg -> io_lib:format("~0tP", [Reason, 30])
    end.
