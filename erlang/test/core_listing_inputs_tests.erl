-module(core_listing_inputs_tests).

-include_lib("eunit/include/eunit.hrl").

files_and_folders_test() ->
    listing_cases:in_folder(fun(Folder) ->
        In = fun(Name) -> filename:join(Folder, Name) end,
        [begin ok = filelib:ensure_dir(In(Name)), ok = file:write_file(In(Name), "") end
         || Name <- ["one/b.beam", "one/a.beam", "one/c.erl", "two/ebin/d.beam", "two/src/e.erl", "three/g.erl",
                     "three/f.erl", "a [b]*\n/x y.beam", "four/none.txt"]],
        ?assertEqual({ok, [In("one/a.beam"), In("one/b.beam")]}, core_listing:inputs([In("one")])),
        ?assertEqual({ok, [In("two/ebin/d.beam")]}, core_listing:inputs([In("two")])),
        ?assertEqual({ok, [In("three/f.erl"), In("three/g.erl")]}, core_listing:inputs([In("three")])),
        ?assertEqual({ok, [In("a [b]*\n/x y.beam")]}, core_listing:inputs([In("a [b]*\n")])),
        ?assertEqual({ok, [In("one/c.erl"), In("one/a.beam"), In("one/b.beam")]},
                     core_listing:inputs([In("one/c.erl"), In("one"), In("one/b.beam")])),
        ?assertEqual({ok, [In("a [b]*\n/x y.beam"), In("one/a.beam"), In("one/b.beam"), In("two/ebin/d.beam")]},
                     core_listing:inputs(["-r", Folder])),
        ?assertEqual({ok, [In("three/f.erl"), In("three/g.erl"), In("one/c.erl")]},
                     core_listing:inputs(["-r", In("three"), "--files", In("one/c.erl")])),
        ok = file:make_symlink(In("one"), In("one/again")),
        ?assertEqual({ok, [In("one/a.beam"), In("one/b.beam")]}, core_listing:inputs(["-r", In("one")])),
        [?assertMatch({error, _}, core_listing:inputs(Words))
         || Words <- [[In("four")], ["-r", In("four")], [In("none")], ["-r", In("one/a.beam")], ["--what"]]]
    end).

applications_test() ->
    {ok, Files} = core_listing:inputs(["--apps", "stdlib", "kernel"]),
    ?assert(lists:member(code:which(lists), Files)),
    ?assert(lists:member(code:which(file), Files)),
    {error, Reason} = core_listing:inputs(["--apps", "no_such_application"]),
    ?assertEqual("no_such_application: no such application", lists:flatten(Reason)).
