-module(podruksis_cache_tests).

-include_lib("eunit/include/eunit.hrl").

listing(Module, Text) ->
    {ok, #{module => Module, text => Text, notes => ["a note"],
           locations => [#{id => 1, file => "m.erl", line => 2, column => 3, function => {f, 0}, silent => []}]}}.

options() -> #{locations => true, open => [], paths => [], include => [], define => []}.

open(Folder) -> open(Folder, options(), false).
open(Folder, Options, Fresh) ->
    {ok, Cache} = podruksis_cache:open(filename:join(Folder, "cache"), Options, Fresh),
    Cache.

%% The listing of an input, and whether it was made.
asked(Cache, Input, Made) ->
    case podruksis_cache:find(Cache, Input) of
        {missing, Place} -> {asked, podruksis_cache:keep(Place, Made)};
        Found -> {not_asked, Found}
    end.

in_folder(Test) -> {timeout, 60, fun() -> podruksis_folder:with(Test) end}.

%% What didn't change isn't listed again; what changed is, and only that.
kept_test_() -> in_folder(fun(Folder) ->
    M = podruksis_folder:write(Folder, "m.beam", "one"),
    N = podruksis_folder:write(Folder, "n.beam", "two"),
    {asked, {listed, First}} = asked(open(Folder), M, listing(m, ["text ", "of m"])),
    {asked, {listed, _}} = asked(open(Folder), N, listing(n, "text of n")),
    ?assertMatch(#{module := m, bytes := 9, notes := [<<"a note">>]}, First),
    ?assertEqual({ok, <<"text of m">>}, file:read_file(maps:get(listing, First))),
    ?assertEqual({not_asked, {kept, First}}, asked(open(Folder), M, listing(m, "other"))),
    podruksis_folder:write(Folder, "m.beam", "one, edited"),
    {asked, {listed, Second}} = asked(open(Folder), M, listing(m, "other")),
    ?assertEqual({ok, <<"other">>}, file:read_file(maps:get(listing, Second))),
    ?assertMatch({not_asked, {kept, #{module := n}}}, asked(open(Folder), N, listing(n, "other"))),
    ?assertEqual({not_asked, {kept, Second}}, asked(open(Folder), M, listing(m, "third")))
end).

%% A file that is written again with the same bytes is the same.
written_again_test_() -> in_folder(fun(Folder) ->
    M = podruksis_folder:write(Folder, "m.beam", "one"),
    {asked, _} = asked(open(Folder), M, listing(m, "text")),
    ok = file:delete(M),
    podruksis_folder:write(Folder, "m.beam", "one"),
    ?assertMatch({not_asked, _}, asked(open(Folder), M, listing(m, "text")))
end).

%% Other options, and the option `--fresh', list again.
options_test_() -> in_folder(fun(Folder) ->
    M = podruksis_folder:write(Folder, "m.beam", "one"),
    Open = (options())#{open := [m]},
    {asked, _} = asked(open(Folder), M, listing(m, "closed")),
    {asked, {listed, #{listing := File}}} = asked(open(Folder, Open, false), M, listing(m, "open")),
    ?assertEqual({ok, <<"open">>}, file:read_file(File)),
    {not_asked, {kept, #{listing := Other}}} = asked(open(Folder), M, listing(m, "closed")),
    ?assertEqual({ok, <<"closed">>}, file:read_file(Other)),
    ?assertMatch({asked, _}, asked(open(Folder, options(), true), M, listing(m, "fresh")))
end).

%% A damaged or lost file of the cache is made again.
damaged_test_() -> in_folder(fun(Folder) ->
    M = podruksis_folder:write(Folder, "m.beam", "one"),
    {asked, {listed, #{listing := Listing, places := Places}}} = asked(open(Folder), M, listing(m, "text")),
    Entry = filename:rootname(Listing) ++ ".entry",
    [begin
         Damage(),
         ?assertMatch({asked, {listed, _}}, asked(open(Folder), M, listing(m, "text"))),
         ?assertEqual({ok, <<"text">>}, file:read_file(Listing)),
         ?assertMatch({not_asked, {kept, _}}, asked(open(Folder), M, listing(m, "text")))
     end || Damage <- [fun() -> ok = file:write_file(Listing, "tex") end, fun() -> ok = file:delete(Listing) end,
                       fun() -> ok = file:write_file(Places, "") end, fun() -> ok = file:delete(Places) end,
                       fun() -> ok = file:write_file(Entry, "no term") end, fun() -> ok = file:write_file(Entry, term_to_binary(x)) end, fun() -> ok = file:write_file(Entry, "") end,
                       fun() -> ok = file:delete(Entry) end]]
end).

%% Neither what was left out nor an error is kept: what the input lacked may be there next time.
not_kept_test_() -> in_folder(fun(Folder) ->
    M = podruksis_folder:write(Folder, "m.beam", "one"),
    [?assertEqual({asked, Made}, asked(open(Folder), M, Made)) || Made <- [{left_out, "why", ["note"]}, {error, "why"}]],
    ?assertMatch({asked, {listed, _}}, asked(open(Folder), M, listing(m, "text"))),
    ?assertEqual({not_asked, {error, "no such file or directory"}}, asked(open(Folder), filename:join(Folder, "no"), listing(no, "")))
end).

locations_test_() -> in_folder(fun(Folder) ->
    M = podruksis_folder:write(Folder, "m.beam", "one"),
    {asked, {listed, #{places := Places} = Entry}} = asked(open(Folder), M, listing(m, "text")),
    ?assertEqual({ok, #{1 => #{id => 1, file => "m.erl", line => 2, column => 3, function => {f, 0}, silent => []}}},
                 podruksis_cache:locations(Entry)),
    ok = file:write_file(Places, "other"),
    ?assertMatch({error, _}, podruksis_cache:locations(Entry))
end).

%% The modules that a listing calls by name, each once.
calls_test_() -> in_folder(fun(Folder) ->
    M = podruksis_folder:write(Folder, "m.beam", "one"),
    Text = "call 'lists':'map'(F,L)\ncall 'n':'f'(call 'lists':'seq'(1,2))\napply 'x'/1(Y) call M:F() call 'a b':F()",
    {asked, {listed, #{calls := Calls}}} = asked(open(Folder), M, listing(m, Text)),
    ?assertEqual([<<"a b">>, <<"lists">>, <<"n">>], Calls)
end).

%% Names with blanks, ends of lines and letters past ASCII.
names_test_() -> in_folder(fun(Folder) ->
    [begin
         Input = podruksis_folder:write(Folder, Name, Name),
         {asked, {listed, Entry}} = asked(open(Folder), Input, listing(m, "text")),
         ?assertEqual({not_asked, {kept, Entry}}, asked(open(Folder), Input, listing(m, "text")))
     end || Name <- ["a b.beam", "a\nb.beam", "-x.beam", "'q\".beam"]]
end).

%% A folder that can't be made is an error.
no_folder_test_() -> in_folder(fun(Folder) ->
    File = podruksis_folder:write(Folder, "file", ""),
    ?assertMatch({error, _}, podruksis_cache:open(filename:join(File, "cache"), options(), false))
end).

%% A source is listed again when a header changes that it includes, also by another header.
headers_test_() -> in_folder(fun(Folder) ->
    Source = podruksis_folder:write(Folder, "app/src/m.erl", "-module(m).\n-include(\"a.hrl\").\n"),
    podruksis_folder:write(Folder, "app/include/a.hrl", "-include(\"b.hrl\").\n"),
    B = podruksis_folder:write(Folder, "app/src/b.hrl", "-define(X, 1).\n"),
    {asked, _} = asked(open(Folder), Source, listing(m, "text")),
    ?assertMatch({not_asked, _}, asked(open(Folder), Source, listing(m, "text"))),
    ok = file:write_file(B, "-define(X, 2).\n"),
    ?assertMatch({asked, _}, asked(open(Folder), Source, listing(m, "text"))),
    podruksis_folder:write(Folder, "app/src/c.hrl", "-define(X, 2).\n"),
    ?assertMatch({not_asked, _}, asked(open(Folder), Source, listing(m, "text")))
end).
