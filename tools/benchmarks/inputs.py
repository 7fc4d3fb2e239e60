#!/usr/bin/env python3
"""inputs.py KIND NUMBER OUT: writes a generated listing of this kind and size as the file OUT (`modules`: into the folder OUT).

inputs.py alone lists the kinds. docs/BENCHMARKS.md has what the program takes for them, and `tools/benchmark` measures it again."""
import os
import sys


def module(functions, exports=("'f0'/1",)):
    return "module 'm' [%s] attributes []\n%s\nend\n" % (",".join(exports), "\n".join(functions))


def one_case(clause):
    """One function whose `case` has these clauses."""
    return lambda n: module(["'f0'/1 = fun (X) -> case X of"] + [clause(i) for i in range(n)] + ["end"])


def functions(body, exported=False):
    """Functions of one argument, each with its number's body; the body is told how many there are."""
    def text(n):
        names = ["'f%d'/1" % i for i in range(n if exported else 1)]
        return module(["'f%d'/1 = fun (X) -> %s" % (i, body(i, n)) for i in range(n)], names)
    return text


def levels(level, innermost="V0"):
    """One function in which a level stands in the level above; the text of a level has its number and the levels below it."""
    def text(n):
        nest = innermost
        for k in range(1, n + 1):
            nest = level(k, nest)
        return module(["'f0'/1 = fun (V%d) -> %s" % (n, nest)])
    return text


def lets(n):
    steps = ["let <X%d> = {X%d,'a'} in" % (i + 1, i) if i % 7 == 0 else "let <X%d> = call 'erlang':'+'(%d,%d) in" % (i + 1, i, i + 1)
             for i in range(n)]
    return module(["'f0'/1 = fun (X0) ->"] + steps + ["X%d" % n])


def variables(n):
    steps = ["let <X%d> = X%d in" % (i + 1, i) for i in range(n)]
    return module(["'f0'/1 = fun (X0) ->"] + steps + ["call 'erlang':'+'(X%d,1)" % n])


def small(i, n):
    return "case X of <{'ok',Y}> when 'true' -> Y <'no'> when 'true' -> 'a%d' end" % i


def chain(i, n):
    return "apply 'f%d'/1(X)" % (i + 1) if i + 1 < n else "call 'erlang':'+'(X,1)"


def ring_of(first):
    """A ring of functions, each of which ends on the first clause and calls the next on the second."""
    return functions(lambda i, n: "case X of %s 'f%d'/1(Y) end" % (first % i if "%d" in first else first, (i + 1) % n))


def slow(i, n):
    if i + 1 < n:
        return "apply 'f%d'/1(X)" % (i + 1)
    return "case X of <0> when 'true' -> 'z' <Y> when 'true' -> apply 'f0'/1(Y) end"


def onebase(n):
    own = ["'f%d'/1 = fun (X) -> %s" % (i, slow(i, n)) for i in range(n)]
    return module(["'f'/1 = fun (X) -> apply 'f0'/1(X)"] + own, ["'f'/1"])


def pair_of(k):
    return "case V%d of <'p'> when 'true' -> 'x' <'q'> when 'true' -> 'y' end" % k


def dblrec(k, nest):
    return ("let <A%d> = receive <{'ok',V%d}> when 'true' -> %s after V%d -> V%d in let <B%d> = %s in A%d"
            % (k, k - 1, nest, k, k, k, pair_of(k), k))


def dbl(k, nest):
    return ("let <A%d> = case call 'n':'g'(V%d) of <{'ok',V%d}> when 'true' -> %s <_> when 'true' -> V%d end in let <B%d> = %s in A%d"
            % (k, k, k - 1, nest, k, k, pair_of(k), k))


def dblarg(k, nest):
    return ("{case call 'n':'g'(V%d) of <{'ok',V%d}> when 'true' -> %s <_> when 'true' -> V%d end,%s}"
            % (k, k - 1, nest, k, pair_of(k)))


def dbltry(k, nest):
    return ("let <A%d> = try call 'n':'g'(V%d) of <V%d> -> %s catch <C,D> -> V%d in let <B%d> = %s in A%d"
            % (k, k, k - 1, nest, k, k, pair_of(k), k))


def real(k, nest):
    return ("case call 'n':'g'(V%d) of <{'ok',V%d}> when 'true' -> let <A%d> = %s in do %s A%d <_> when 'true' -> V%d end"
            % (k, k - 1, k, nest, pair_of(k - 1), k, k))


def multi(width):
    def level(k, nest):
        names = ["W%d_%d" % (k, i) for i in range(width)]
        made = " ".join("let <%s> = call 'n':'g'() in" % name for name in names)
        later = " ".join("do case %s of <'p'> when 'true' -> 'x' <'q'> when 'true' -> 'y' end" % name for name in names)
        return ("%s let <A%d> = case call 'n':'g'(V%d) of <{'ok',V%d}> when 'true' -> {%s,%s} <_> when 'true' -> 'n' end in %s A%d"
                % (made, k, k, k - 1, nest, ",".join(names), later, k))
    return levels(level)


def callcase(n):
    return module(["'f0'/1 = fun (X) -> %sX%s" % ("call 'erlang':'hd'(case X of <Y> when 'true' -> " * n, " end)" * n)])


def guardnest(n):
    guard = "'true'"
    for k in range(1, n + 1):
        guard = "case V of <V%d> when %s -> 'true' <_> when 'true' -> 'false' end" % (k, guard)
    return module(["'f0'/1 = fun (V) -> case V of <X> when %s -> X end" % guard])


def seqcalls(n):
    steps = " ".join("do apply 's%d'/0()" % i for i in range(n))
    return module(["'f0'/1 = fun (X) -> %s X" % steps] + ["'s%d'/0 = fun () -> 'a%d'" % (i, i) for i in range(n)])


def seqlets(n):
    steps = " ".join("let <X%d> = apply 's%d'/1(X%d) in" % (i + 1, i, i) for i in range(n))
    return module(["'f0'/1 = fun (X0) -> %s X%d" % (steps, n)] + ["'s%d'/1 = fun (X) -> {'a%d',X}" % (i, i) for i in range(n)])


def seqletrec(n):
    steps = " ".join("do letrec 's%d'/0 = fun () -> 'a%d' in apply 's%d'/0()" % (i, i, i) for i in range(n))
    return module(["'f0'/1 = fun (X) -> %s X" % steps])


def wide(n):
    """Three levels of thirteen tuples of n elements, each of which holds the level below in all but its first."""
    steps, below = [], "1"
    for level in range(3):
        clauses = " ".join("<%d> when 'true' -> {%s}" % (i, ",".join(["'t%d_%d'" % (level, i)] + [below] * (n - 1))) for i in range(13))
        steps.append("let <A%d> = case X of %s end in" % (level, clauses))
        below = "A%d" % level
    return module(["'f0'/1 = fun (X) -> %s %s" % (" ".join(steps), below)])


def string(n):
    return module(["'f0'/1 = fun (X) -> \"%s\"" % ("a" * n)])


def integers(n):
    return module(["'f0'/1 = fun (X) -> {%s}" % ",".join(["1"] * n)])


def tiny(n):
    return "module 'm'[]attributes[]%send" % "".join("'%x'/0=fun()->1 " % i for i in range(n))


def fanout(n):
    """One function that applies n others."""
    names = ["'g%d'/0" % i for i in range(n)]
    first = "'f'/0 = fun () -> {%s}" % ",".join("apply %s()" % name for name in names)
    return module([first] + ["%s = fun () -> 1" % name for name in names], ["'f'/0"] + names)


def applied(size):
    """Functions that apply one another, of so many bytes."""
    lines, names, total = [], [], 0
    while total < size:
        n = len(lines)
        names.append("'f%d'/1" % n)
        lines.append("%s = fun (X) -> {X,%d,'a',%s}" % (names[n], n, "apply 'f%d'/1(X)" % (n // 2) if n else "X"))
        total += len(lines[n]) + len(names[n]) + 2
    return module(lines, names)


LISTED = """'handle_%d'/3 =
    ( fun (_2,_1,_0) ->
      case <_2,_1,_0> of
        <'get',{'key',K},[{_3,V}|Rest]> when call 'erlang':'=:='(K,_3) ->
          {'reply',V,[_0|Rest]}
        <{'add',N},_4,State> when 'true' ->
          let <_5> = ( call 'erlang':'+'(N,%d) -| [%d,{'file',"server.erl"}] )
          in {'ok',_5,"added to the state"}
        ( <_8,_7,_6> when 'true' ->
            primop 'match_fail'({'function_clause',_8,_7,_6})
          -| ['compiler_generated'] )
      end -| [{'function',{'handle_%d',3}}] )
"""


def listing(size):
    """An ordinary listing, with annotations, of so many bytes."""
    text = ["module 'l' [] attributes ['file' = [{\"server.erl\",1}]]\n"]
    length = len(text[0]) + 4
    while length < size:
        n = len(text) - 1
        text.append(LISTED % (n, n, n + 1, n))
        length += len(text[-1])
    return "".join(text) + "end\n"


def one_of_modules(i, n):
    """The i-th of n modules, of three or four functions; one of each stands in a ring through all modules."""
    third = i % 3 == 0
    return ("module 'g%d' ['f'/1,'w'/1%s] attributes []\n"
            "'f'/1 = fun (X) -> case X of\n<0> when 'true' -> 'z%d'\n<{'ok',Y}> when 'true' -> call 'g%d':'f'(Y) end\n"
            "'h'/1 = fun (X) -> call 'erlang':'+'(X,1)\n'w'/1 = fun (X) -> apply 'h'/1(X)\n%send\n"
            % (i, ",'b'/0" if third else "", i, (i + 1) % n, "'b'/0 = fun () -> apply 'h'/1('no')\n" if third else ""))


KINDS = {
    "clauses": one_case(lambda i: "<{'a%d',Y}> when 'true' -> {'b%d',Y}" % (i, i)),
    "nested": one_case(lambda i: "<{'a%d',Y}> when 'true' -> case Y of <{'c%d',Z}> when 'true' -> {'b%d',Z} <'no'> when 'true' -> 'd%d' end"
                       % (i, i, i, i)),
    "lets": lets,
    "variables": variables,
    "small": functions(small),
    "exported": functions(small, exported=True),
    "chain": functions(chain),
    "endless": functions(lambda i, n: "apply 'f%d'/1(X)" % ((i + 1) % n)),
    "ring": ring_of("<0> when 'true' -> 'z' <Y> when 'true' -> apply"),
    "atoms": ring_of("<0> when 'true' -> 'z%d' <Y> when 'true' -> apply"),
    "pairs": ring_of("<0> when 'true' -> 'z%d' <{'ok',Y}> when 'true' -> apply"),
    "lists": functions(lambda i, n: "case X of <[]> when 'true' -> [] <[H|T]> when 'true' -> [{'v%d',H}|apply 'f%d'/1(T)] end"
                       % (i, (i + 1) % n)),
    "slow": functions(slow),
    "onebase": onebase,
    "dblrec": levels(dblrec),
    "dbl": levels(dbl),
    "dblarg": levels(dblarg),
    "dbltry": levels(dbltry),
    "real": levels(real),
    "multi8": multi(8),
    "multi60": multi(60),
    "callcase": callcase,
    "guardnest": guardnest,
    "seqcalls": seqcalls,
    "seqlets": seqlets,
    "seqletrec": seqletrec,
    "wide": wide,
    "string": string,
    "integers": integers,
    "tiny": tiny,
    "fanout": fanout,
    "applied": applied,
    "listing": listing,
}


def write(kind, number, out):
    """Writes the input, and gives the paths of its files."""
    if kind == "modules":
        os.makedirs(out, exist_ok=True)
        paths = [os.path.join(out, "g%d.core" % i) for i in range(number)]
        for i, path in enumerate(paths):
            with open(path, "w") as file:
                file.write(one_of_modules(i, number))
        return paths
    with open(out, "w") as file:
        file.write(KINDS[kind](number))
    return [out]


if __name__ == "__main__":
    if len(sys.argv) != 4:
        print("usage: inputs.py KIND NUMBER OUT\nkinds: %s modules" % " ".join(KINDS))
        sys.exit(2)
    write(sys.argv[1], int(sys.argv[2]), sys.argv[3])
