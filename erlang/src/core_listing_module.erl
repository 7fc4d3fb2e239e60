%%% The listing of a module: each definition is rewritten, and written, or its body is left out.
-module(core_listing_module).

-export([list/2]).

-define(MOST_BYTES, 16 * 1024 * 1024).

-record(module, {
    name :: module(),
    functions :: #{core_listing_facts:name() => cerl:c_fun()},
    is_hidden :: fun((core_listing_facts:name()) -> boolean()),
    is_replaced :: fun((core_listing_facts:name()) -> boolean())
}).

-spec list(core_listing_origin:origin(), core_listing:options()) ->
    {ok, core_listing:listing()} | {left_out, iodata(), [iodata()]}.
list(#{core := Core} = Origin, Options) ->
    Exports = core_listing_facts:exports(Core),
    case lists:member({'$handle_undefined_function', 2}, Exports) of
        true -> {left_out, "it exports '$handle_undefined_function'/2, so each call to it may be answered", []};
        false -> {ok, listing(Origin, Exports, Options)}
    end.

listing(#{module := Name, core := Core, compile := Compile}, Exported, Options) ->
    Numbered = maps:get(locations, Options, false),
    Definitions = core_listing_facts:definitions(Core),
    Functions = maps:from_list(Definitions),
    Loaded = [Each || Each <- core_listing_facts:loaded(Core), is_map_key(Each, Functions)],
    Exports = lists:usort(Exported ++ Loaded),
    Silence = core_listing_silence:of_module(core_listing_facts:attribute(dialyzer, Core), Compile),
    Module = #module{
        name = Name,
        functions = Functions,
        is_hidden = hidden(Numbered, Silence, Exports, Functions),
        is_replaced = replaced(Name, Core, lists:member(Name, maps:get(open, Options, [])))
    },
    Table0 = core_listing_places:new(Numbered, core_listing_facts:source(Core), Silence),
    {Texts, {Table, Notes}} = lists:mapfoldl(
        fun(Definition, State) -> definition(Definition, Module, State) end, {Table0, []}, Definitions),
    {Kept, LongNotes} = shorten(Texts, iolist_size(core_listing_text:module(Name, Exports, [])), Module),
    #{
        module => Name,
        text => core_listing_text:module(Name, Exports, [Text || {_, Text} <- Kept]),
        locations => case Numbered of true -> core_listing_places:locations(Table); false -> [] end,
        notes => [loaded_note(Each) || Each <- Loaded -- Exported] ++ lists:reverse(Notes) ++ LongNotes
    }.

%% Nothing is reported of a function that is hidden. Without locations an attribute that switches off some kinds for a
%% function hides it, since a line can't say which kinds.
hidden(Numbered, Silence, Exports, Functions) ->
    Named = maps:map(fun(_, Fun) -> core_listing_facts:named(Fun, Functions) end, Functions),
    Reachable = core_listing_facts:reachable(Exports, Named),
    fun(Name) ->
        core_listing_silence:is_whole(Name, Silence) orelse
            (not Numbered andalso
                (core_listing_silence:is_partial(Name, Silence) orelse
                    (core_listing_silence:may_be_unused(Name, Silence) andalso not is_map_key(Name, Reachable))))
    end.

replaced(_, _, true) -> fun(_) -> true end;
replaced(Name, Core, false) -> core_listing_facts:replaced(Name, Core).

%% The text of a definition, with the locations and the notes of those before it.
definition({Name, Fun}, Module, {Table, Notes}) ->
    case rewritten(Fun, (Module#module.is_replaced)(Name)) of
        {ok, Rewritten} ->
            {Noted, Table1} =
                core_listing_places:of_definition(Name, Rewritten, (Module#module.is_hidden)(Name), Table),
            {{Name, iolist_to_binary(core_listing_text:definition(Name, Noted))}, {Table1, Notes}};
        {left_out, Reason} ->
            {{Name, left_out(Name, Module)}, {Table, [left_out_note(Name, Reason) | Notes]}}
    end.

rewritten(Fun, IsReplaced) ->
    Plain = core_listing_jumps:rewrite(Fun),
    case core_listing_degrees:are_right(Plain) of
        false -> {left_out, "a part of it gives another number of values than its place asks for"};
        true -> deep_enough(may_be_replaced(core_listing_values:rewrite(Plain), IsReplaced))
    end.

deep_enough(Fun) ->
    case core_listing_depth:fits(Fun) of
        true -> {ok, Fun};
        false -> {left_out, "it is deeper than 400 expressions in one another"}
    end.

%% A function that the system may replace gives any value, or what its body gives.
may_be_replaced(Fun, false) -> Fun;
may_be_replaced(Fun, true) ->
    Unknown = cerl:c_primop(cerl:c_atom(replaced), []),
    True = cerl:c_atom(true),
    Other = cerl:ann_c_clause([compiler_generated], [cerl:c_atom(true)], True, Unknown),
    Own = cerl:c_clause([cerl:c_var(-1)], True, cerl:fun_body(Fun)),
    cerl:update_c_fun(Fun, cerl:fun_vars(Fun), cerl:c_case(Unknown, [Other, Own])).

left_out(Name, #module{functions = Functions}) ->
    Fun = map_get(Name, Functions),
    iolist_to_binary(core_listing_text:left_out(
        Name, core_listing_places:first_line(Fun), core_listing_facts:named(Fun, Functions))).

%% Leaves out the longest bodies until the listing isn't longer than what is read.
shorten(Texts, Rest, Module) ->
    Total = Rest + lists:sum([byte_size(Text) || {_, Text} <- Texts]),
    Longest = lists:reverse(lists:sort([{byte_size(Text), Name} || {Name, Text} <- Texts])),
    shorten(Total, Longest, Texts, Module, []).

shorten(Total, [{Size, Name} | Longest], Texts, Module, Notes) when Total > ?MOST_BYTES ->
    Short = left_out(Name, Module),
    Note = left_out_note(Name, "the listing is longer than 16 MiB"),
    shorten(Total - Size + byte_size(Short), Longest, lists:keyreplace(Name, 1, Texts, {Name, Short}), Module,
            [Note | Notes]);
shorten(_, _, Texts, _, Notes) -> {Texts, lists:reverse(Notes)}.

left_out_note(Name, Reason) -> [core_listing_names:function(Name), ": body left out: ", Reason].

loaded_note(Name) ->
    [core_listing_names:function(Name), " is called by the system when the module is loaded, and counts as exported"].
