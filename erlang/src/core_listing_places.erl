%%% Notes: which nodes of a function have a number in the listing, and where it leads.
%%%
%%% Only a definition, a call, an application and a clause can have a finding, and only they have notes. A number is
%%% written where it isn't the one that stands around already. What the compiler made, and a call that it gave no line,
%%% has the note 'compiler_generated', which hides what is found there.
-module(core_listing_places).

-export([new/3, of_definition/4, locations/1, first_line/1]).
-export_type([location/0, table/0]).

-type location() :: #{
    id := pos_integer(),
    file := string(),
    line := integer(),
    column := integer(),
    function := {atom(), arity()},
    %% The kinds of findings that attributes of the module switch off here.
    silent := [core_listing_silence:kind()]
}.
-type place() :: {File :: string(), Line :: pos_integer(), Column :: non_neg_integer()}.

%% The locations of a module, the last one first, and those of the function at hand by what they say.
-record(table, {
    numbered :: boolean(),
    file :: string(),
    silence :: core_listing_silence:silence(),
    function = {module, 0} :: {atom(), arity()},
    last = 0 :: non_neg_integer(),
    known = #{} :: #{{place(), [core_listing_silence:kind()]} => pos_integer()},
    locations = [] :: [location()]
}).
-opaque table() :: #table{}.

%% What stands around a node: the last place that the compiler gave, and the number that was written.
-record(around, {place :: place() | none, number = none :: pos_integer() | none, generated = false :: boolean()}).

%% @doc Without locations the numbers are lines. The file is that of places that name none.
-spec new(boolean(), string(), core_listing_silence:silence()) -> table().
new(Numbered, File, Silence) -> #table{numbered = Numbered, file = File, silence = Silence}.

-spec locations(table()) -> [location()].
locations(#table{locations = Locations}) -> lists:reverse(Locations).

%% @doc Puts the notes of a function's nodes in place of their annotations. A hidden function is generated as a whole,
%% and so is one of which the compiler gave no line.
-spec of_definition({atom(), arity()}, cerl:c_fun(), boolean(), table()) -> {cerl:c_fun(), table()}.
of_definition(Name, Fun, Hidden, Table0) ->
    Table = Table0#table{function = Name, known = #{}},
    Own = place(Fun, Table),
    Place = case Own of none -> first_place(Fun, Table); _ -> Own end,
    {Number, Around, Table1} = number(other, #around{place = Place}, Table),
    Generated = Hidden orelse Place =:= none,
    {Body, Table2} = node(cerl:fun_body(Fun), Around#around{generated = Generated}, Table1),
    Noted = cerl:update_c_fun(Fun, cerl:fun_vars(Fun), Body),
    {cerl:set_ann(Noted, Number ++ [compiler_generated || Generated]), Table2}.

node(Node, Around0, Table) ->
    Around = at(place(Node, Table), Around0),
    case cerl:type(Node) of
        clause -> clause(Node, Around, Table);
        call -> noted(Node, is_hidden_call(Node, Table), call_sort(Node), Around, Table);
        apply -> noted(Node, is_hidden_call(Node, Table), apply_sort(Node), Around, Table);
        literal -> {cerl:set_ann(Node, []), Table};
        _ -> parts(cerl:set_ann(Node, []), Around, Table)
    end.

at(none, Around) -> Around;
at(Place, Around) -> Around#around{place = Place}.

%% In patterns and guards nothing is found.
clause(Node, Around, Table) ->
    {Note, Around1, Table1} = note(has(compiler_generated, Node), other, Around, Table),
    {Body, Table2} = node(cerl:clause_body(Node), Around1, Table1),
    [Guard | Patterns] = [plain(Each) || Each <- [cerl:clause_guard(Node) | cerl:clause_pats(Node)]],
    {cerl:ann_c_clause(Note, Patterns, Guard, Body), Table2}.

plain(Tree) -> core_listing_tree:map(fun(Node) -> cerl:set_ann(Node, []) end, Tree).

noted(Node, Hidden, Sort, Around, Table) ->
    {Note, Around1, Table1} = note(Hidden, Sort, Around, Table),
    parts(cerl:set_ann(Node, Note), Around1, Table1).

parts(Node, Around, Table) ->
    OfGroup = fun(Group, Before) ->
        lists:mapfoldl(fun(Each, Last) -> node(Each, Around, Last) end, Before, Group)
    end,
    {Groups, Table1} = lists:mapfoldl(OfGroup, Table, core_listing_tree:parts(Node)),
    {core_listing_tree:with_parts(Node, Groups), Table1}.

%% The note of a node, and what stands around its parts.
note(_, _, #around{generated = true} = Around, Table) -> {[], Around, Table};
note(true, _, Around, Table) -> {[compiler_generated], Around#around{generated = true}, Table};
note(false, Sort, Around, Table) -> number(Sort, Around, Table).

number(_, #around{place = none} = Around, Table) -> {[], Around, Table};
number(Sort, #around{place = Place, number = Last} = Around, Table) ->
    {Number, Table1} = number_of(Place, Sort, Table),
    {[Number || Number =/= Last], Around#around{number = Number}, Table1}.

number_of({_, Line, _}, _, #table{numbered = false} = Table) -> {Line, Table};
number_of({File, Line, Column} = Place, Sort, #table{known = Known, last = Last, function = Function} = Table) ->
    Silent = core_listing_silence:kinds(Function, Sort, Table#table.silence),
    case Known of
        #{{Place, Silent} := Number} -> {Number, Table};
        _ ->
            Location = #{id => Last + 1, file => File, line => Line, column => Column,
                         function => Function, silent => Silent},
            {Last + 1, Table#table{known = Known#{{Place, Silent} => Last + 1}, last = Last + 1,
                                   locations = [Location | Table#table.locations]}}
    end.

is_hidden_call(Node, Table) ->
    has(compiler_generated, Node) orelse has(dialyzer_ignore, Node) orelse place(Node, Table) =:= none.

has(Annotation, Node) -> lists:member(Annotation, cerl:get_ann(Node)).

call_sort(Node) ->
    case cerl:is_c_atom(cerl:call_module(Node)) andalso cerl:is_c_atom(cerl:call_name(Node)) of
        true -> call;
        false -> other
    end.

apply_sort(Node) ->
    Operator = cerl:apply_op(Node),
    case cerl:type(Operator) =:= var andalso is_tuple(cerl:var_name(Operator)) of
        true -> other;
        false -> application
    end.

%% The place that the compiler gave a node. Line 0 is none.
place(Node, #table{file = File}) ->
    Annotations = cerl:get_ann(Node),
    case lists:search(fun is_position/1, Annotations) of
        {value, {Line, Column}} -> {file_of(Annotations, File), Line, Column};
        {value, Line} -> {file_of(Annotations, File), Line, 0};
        false -> none
    end.

is_position({Line, Column}) -> is_integer(Column) andalso is_position(Line);
is_position(Line) -> is_integer(Line) andalso Line >= 1 andalso Line < 1 bsl 31.

file_of(Annotations, Otherwise) -> proplists:get_value(file, Annotations, Otherwise).

%% The earliest line of a function of which the compiler gave none.
first_place(Fun, Table) ->
    Places = core_listing_tree:fold(fun(Node, Found) -> [place(Node, Table) | Found] end, [], Fun),
    case lists:sort([{Line, Column, File} || {File, Line, Column} <- Places]) of
        [] -> none;
        [{Line, Column, File} | _] -> {File, Line, Column}
    end.

%% @doc The line of a function, or 1.
-spec first_line(cerl:c_fun()) -> pos_integer().
first_line(Fun) ->
    Table = new(false, "", core_listing_silence:of_module([], [])),
    case place(Fun, Table) of
        none -> 1;
        {_, Line, _} -> Line
    end.
