#!/usr/bin/env python3
"""Writes a text of the intermediate language, of some shape and size, on which the machine is measured (docs/BENCHMARKS.md, "Running").

    scripts/il_texts.py SHAPE N > x.ssa
    time harec exec --units 1000000000000 x.ssa

Modules of a size, which run for a few units:

    functions N         N functions of three lines, each of which calls the one before, and `$main`
    data N              N data items, each with the address of the one before
    lines N             one function of N lines, each with a temporary of its own
    blocks N            one function of N blocks, each with a phi

Programs that do something N times:

    sum N               s = s * 31 + i, for each i below N
    fib N               the number of Fibonacci N, by recursion
    local N             the same, with a local in a frame that is stored and loaded in each call
    longs N             a sum over 10^5 longs in memory, N times
    search N            a search for a byte, found as the last of 10^6, N times
    depth N             N calls that are live at once
    heap-forward N      N blocks of the heap are made, and freed in that order
    heap-backward N     N blocks of the heap are made, and the last of them is freed first

Each text is the printed text of a valid module. A run ends in Exit, with the low eight bits of what was computed, or else with 0.
"""
import sys

LONGS = 10**5
BYTES = 10**6


def main_function(lines):
    """Returns the function `$main` with these lines; a line that is a label begins a block."""
    return function("export function w $main()", lines)


def function(head, lines):
    """Returns a function with this head and these lines."""
    body = "".join(it + "\n" if it.startswith("@") else f"\t{it}\n" for it in lines)
    return f"{head} {{\n@start\n{body}}}\n"


def functions(count):
    yield function("function w $f0(w %a)", ["%b =w add %a, 1", "ret %b"])
    for i in range(1, count):
        yield function(f"function w $f{i}(w %a)", [f"%b =w add %a, {i}", f"%c =w call $f{i - 1}(w %b)", "ret %c"])
    yield main_function(["%r =w call $f0(w 0)", "ret 0"])


def data(count):
    yield "data $d0 = align 8 { l 0 }\n"
    for i in range(1, count):
        yield f"data $d{i} = align 8 {{ l $d{i - 1} }}\n"
    yield main_function(["ret 0"])


def lines(count):
    yield main_function(["%t0 =l copy 1"] + [f"%t{i} =l add %t{i - 1}, {i}" for i in range(1, count)] + ["ret 0"])


def blocks(count):
    def block(i):
        before = f"@b{i - 1} %j{i - 1}" if i else "@start 0"
        return [f"@b{i}", f"%i{i} =l phi {before}", f"%j{i} =l add %i{i}, {i}"]

    yield main_function([line for i in range(count) for line in block(i)] + ["ret 0"])


def sum_of(turns):
    yield main_function([
        "@loop",
        "%i =l phi @start 0, @loop %j",
        "%s =l phi @start 0, @loop %t",
        "%m =l mul %s, 31",
        "%t =l add %m, %i",
        "%j =l add %i, 1",
        f"%c =w cultl %j, {turns}",
        "jnz %c, @loop, @done",
        "@done",
        "ret %t",
    ])


def fib(number, kept="%n", keep=()):
    """Recursion, in which the argument is read again as `kept` behind the lines `keep`."""
    yield function("function w $fib(w %n)", [
        *keep,
        f"%c =w csltw {kept}, 2",
        "jnz %c, @small, @more",
        "@small",
        f"ret {kept}",
        "@more",
        f"%a =w sub {kept}, 1",
        f"%b =w sub {kept}, 2",
        "%x =w call $fib(w %a)",
        "%y =w call $fib(w %b)",
        "%z =w add %x, %y",
        "ret %z",
    ])
    yield main_function([f"%r =w call $fib(w {number})", "ret %r"])


def local(number):
    return fib(number, "%k", ["%p =l alloc4 4", "storew %n, %p", "%k =w loadsw %p"])


def repeated(turns, inner):
    """`$main`, which does the lines of a loop `@inner` again and again; these go on to `@after`, and leave their result in `%t`."""
    return main_function([
        "%base =l add $a, 0",
        "@outer",
        "%k =l phi @start 0, @after %l",
        *inner,
        "@after",
        "%l =l add %k, 1",
        f"%d =w cultl %l, {turns}",
        "jnz %d, @outer, @done",
        "@done",
        "ret %t",
    ])


def longs(turns):
    yield f"data $a = align 8 {{ z {8 * LONGS - 8}, l 1 }}\n"
    yield repeated(turns, [
        "%s =l phi @start 0, @after %t",
        "@inner",
        "%i =l phi @outer 0, @inner %j",
        "%u =l phi @outer %s, @inner %t",
        "%o =l mul %i, 8",
        "%p =l add %base, %o",
        "%v =l loadl %p",
        "%t =l add %u, %v",
        "%j =l add %i, 1",
        f"%c =w cultl %j, {LONGS}",
        "jnz %c, @inner, @after",
    ])


def search(turns):
    yield f"data $a = align 1 {{ z {BYTES - 1}, b 7 }}\n"
    yield repeated(turns, [
        "@inner",
        "%p =l phi @outer %base, @inner %q",
        "%t =w loadub %p",
        "%q =l add %p, 1",
        "%c =w cnew %t, 7",
        "jnz %c, @inner, @after",
    ])


def depth(calls):
    yield function("function w $down(w %n)", [
        "jnz %n, @more, @done",
        "@done",
        "ret 0",
        "@more",
        "%m =w sub %n, 1",
        "%r =w call $down(w %m)",
        "%s =w add %r, 1",
        "ret %s",
    ])
    yield main_function([f"%r =w call $down(w {calls - 1})", "ret %r"])


def heap(count, place):
    """The blocks are made in order, and `place` is the line that says which is the one to be freed at turn `%k`."""
    yield f"data $a = align 8 {{ z {8 * count} }}\n"
    yield main_function([
        "@make",
        "%i =l phi @start 0, @make %j",
        "%p =l call $rt.malloc(l 16)",
        "%o =l mul %i, 8",
        "%q =l add $a, %o",
        "storel %p, %q",
        "%j =l add %i, 1",
        f"%c =w cultl %j, {count}",
        "jnz %c, @make, @made",
        "@made",
        "@free",
        "%k =l phi @made 0, @free %l",
        place,
        "%u =l mul %n, 8",
        "%v =l add $a, %u",
        "%x =l loadl %v",
        "call $rt.free(l %x)",
        "%l =l add %k, 1",
        f"%d =w cultl %l, {count}",
        "jnz %d, @free, @done",
        "@done",
        "ret 0",
    ])


SHAPES = {
    "functions": functions,
    "data": data,
    "lines": lines,
    "blocks": blocks,
    "sum": sum_of,
    "fib": fib,
    "local": local,
    "longs": longs,
    "search": search,
    "depth": depth,
    "heap-forward": lambda count: heap(count, "%n =l copy %k"),
    "heap-backward": lambda count: heap(count, f"%n =l sub {count - 1}, %k"),
}


def main():
    if len(sys.argv) != 3 or sys.argv[1] not in SHAPES or not sys.argv[2].isdecimal() or int(sys.argv[2]) < 1:
        sys.exit(__doc__.strip())
    for piece in SHAPES[sys.argv[1]](int(sys.argv[2])):
        sys.stdout.write(piece)


if __name__ == "__main__":
    main()
