"""Small programs of special shapes: for each the words, what they are asked about, the reply, and why it must be so."""
import collections
import pathlib
import sys

sys.dont_write_bytecode = True
sys.path.insert(0, str(pathlib.Path(__file__).resolve().parent.parent / "fits"))
from programs import handshake  # noqa: E402

# `said` is what standard error must have among its text, if anything.
Shape = collections.namedtuple("Shape", "name text words reply why said", defaults=[""])
SKIP = "t() begin skip; end thread t;"
# Rounds for a program that settles.
SETTLES = (1, 2, 3, 4294967295, "all")


def turns_at(name, text, least, why):
    """A program that is unsafe from so many rounds on: safe for fewer, and unsafe however many more are asked for."""
    if least > 1:
        yield Shape(name, text, f"--rounds {least - 1}", "safe", why)
    for rounds in (least, least + 1, 4294967295, "all"):
        yield Shape(name, text, f"--rounds {rounds}", "unsafe", why)


def safe(name, text, why, rounds=(1, 2, 3)):
    """A program that is safe."""
    for it in rounds:
        yield Shape(name, text, f"--rounds {it}", "safe", why)



def values():
    """Calls and their values."""
    text = "decl x, y; get() begin return y; end a() begin x := get(); assert(!x | y); end b() begin y := 1; y := 0; end thread b; thread a;"
    yield from turns_at("a value that waits", text, 2, "y is read in round 1, and written to x after y := 0 of round 2")
    text = "decl x, went; one() begin went := 1; return 1; end a() begin x := one(); end b() begin assume(went); assert(x); end"
    yield from turns_at("a frame that waits", f"{text} thread a; thread b;", 1, "b runs between the end of one() and the write")
    text = "decl x; f() begin x := 1; return 0; end t() begin f(); assert({}); end thread t;"
    yield from safe("a dropped value", text.format("x"), "the value 0 is written nowhere", SETTLES)
    yield from turns_at("a global of a call", text.format("!x"), 1, "f() leaves x = 1")
    text = "decl x; f() begin {} end t() begin x := 1; x := f(); assert(!x); end thread t;"
    yield from safe("no value", text.format("skip;"), "a call that ends without a value gives 0", SETTLES)
    yield from safe("a bare return", text.format("return;"), "a call that returns no value gives 0", SETTLES)
    yield from safe("a value over a write", text.format("x := 1; return 0;"), "the result is written after all that f() wrote", SETTLES)
    yield from turns_at("a value of 1", text.format("x := 0; return 1;"), 1, "the result is written after all that f() wrote")
    text = "decl x; f(a) begin x := !x; return a; end t() begin x := f(x); assert(!x); x := 1; x := f(x); assert(x); end thread t;"
    yield from safe("the argument first", text, "the argument is worked out before the call turns x over", SETTLES)
    text = "decl x; f(x) begin x := !x; return x; end t() begin decl v; v := f(0); assert(v & !x); end thread t;"
    yield from safe("a formal that hides", text, "f() writes its formal, and the global stays 0", SETTLES)
    text = "decl x; t() begin decl x; x := 1; u(); end u() begin assert(!x); x := 1; assert(x); end thread t;"
    yield from safe("a local that hides", text, "t() writes its local, u() the global", SETTLES)
    text = "f(a) begin decl v; assert(!v); v := 1; return a; end t() begin decl v; v := f(1); assert(v); v := f(0); assert(!v); end thread t;"
    yield from safe("fresh locals", text, "the locals of each call begin at 0", SETTLES)
    text = "decl x, y; p() begin return 1; end t() begin x, y := y, 1; assert(!x & y); x, y := y, x; assert(x & !y); end thread t;"
    yield from safe("two at once", text, "all right sides are worked out before a write", SETTLES)
    text = "decl x, y; f() begin return 1; end t() begin x, y := f(); end thread t;"
    reply = f"refused: 3 syntax at {text.index('f();') + 1}"
    yield Shape("a value for two", text, "--rounds 1", reply, "a call has one target: the parenthesis cannot follow")
    yield from turns_at("assert of any value", "t() begin assert(?); end thread t;", 1, "? can be 0")
    yield from turns_at("assert of what was drawn", "decl x; t() begin x := ?; assume(x); x := ?; assert(x); end thread t;", 1, "x can be 0")
    yield from safe("assume of any value", "decl x; t() begin assume(?); assert(!x); end thread t;", "x is never written", SETTLES)
    yield from safe("assume of 0", "t() begin assume(0); assert(0); end thread t;", "the thread is stuck", SETTLES)


def control():
    """Loops, labels, recursion and stacks."""
    text = "decl x; t() begin goto L; while (0) do {} od end thread t;"
    yield from turns_at("goto into a loop", text.format("x := 1; L: assert(x);"), 1, "x := 1 is passed over")
    yield from safe("goto into a loop, once", text.format("assert(0); L: skip;"), "after L the test of the loop ends it", SETTLES)
    text = "decl x; t() begin if (x) then assert(0); L: x := 1; else goto L; fi assert({}); end thread t;"
    yield from safe("goto into a branch", text.format("x"), "after L comes what is behind the branch", SETTLES)
    yield from turns_at("goto into a branch, then a fault", text.format("!x"), 1, "x is 1 behind the branch")
    text = "decl x; f() begin x := !x; if (?) then g(); else skip; fi {} end g() begin x := !x; if (?) then f(); else skip; fi x := !x; end"
    main = " t() begin f(); assert(!x); end thread t;"
    yield from safe("mutual recursion", text.format("x := !x;") + main, "each call turns x over twice", SETTLES)
    yield from turns_at("mutual recursion, odd", text.format("skip;") + main, 1, "f() alone turns x over once")
    text = "decl x; f() begin skip; end t() begin if (?) then x := 1; f(); assert(x); else f(); assert(!x); fi end thread t;"
    yield from safe("each call to its own caller", text, "f() goes back to the branch that called it", SETTLES)
    text = "decl go; f(a) begin assume(go); return a; end t() begin decl v; v := f(0); assert(!v); v := f(1); assert(v); end"
    text += " u() begin go := 1; go := 0; end thread t; thread u;"
    yield from safe("a stack that cannot be", text, "f() waits, and goes back with the value of its own call", (1, 2, 3, 4, 5))
    text = "f(a) begin if (a) then assert({}); else f(1); fi end t() begin f(0); end thread t;"
    yield from turns_at("an assert one call down", text.format("!a"), 1, "f(0) calls f(1)")
    yield from safe("an assert one call down, true", text.format("a"), "it stands where a is 1", SETTLES)
    for name, last, reply in (("met", "assert(0);", "unsafe"), ("not met", "skip;", "safe")):
        text = levels(9, last)
        for rounds in (1, 2, "all"):
            yield Shape(f"512 frames, {name}", text, f"--rounds {rounds}", reply, "the assert stands in the 512th frame alone")
    for bits in (1, 2, 3):
        text = f"decl go; {counted(bits, '', 'assume(go); go := 0;')} m() begin f({', '.join('1' * bits)}); assert(0); end"
        text += " u() begin while (?) do assume(!go); go := 1; od end thread m; thread u;"
        why = "each of the frames waits for a write of u(), and u() for one of theirs, so each wait needs a round of its own"
        yield from turns_at(f"{2 ** bits} frames that wait", text, 2**bits + 1, why)
    for bits in (1, 2, 3, 4):
        text = counted(bits, "", "return !v;", "decl v; ", "v := ")
        text += f" m() begin decl v; v := f({', '.join('1' * bits)}); assert({{}}); end thread m;"
        yield from safe(f"{2 ** bits} values turned over", text.format("!v"), "an even number of calls each turn the value over", SETTLES)
        yield from turns_at(f"{2 ** bits} values turned over, odd", text.format("v"), 1, "the number is even, and the first value is 0")
    push = "decl x, y; f() begin if (?) then assume(x); x := 0; f(); assume(!y); y := 1; else skip; fi end u() begin "
    push += "x := 1; assume(!x); " * 3
    ends = " assert(0); end t() begin f(); end thread t; thread u;"
    why = "three calls take x in rounds 2 to 4, and three ends give y in rounds 4 to 6"
    yield from turns_at("as many ends as calls", push + "assume(y); y := 0; " * 3 + ends, 6, why)
    yield from safe("more ends than calls", push + "assume(y); y := 0; " * 4 + ends, "there is no fourth end", range(1, 9))
    text = "decl go; f(l) begin if (?) then f(0); else skip; fi assume(go); go := 0; if (l) then assert(0); else skip; fi end"
    text += " m() begin f(1); end u() begin assume(!go); go := 1; assume(!go); go := 1; end thread m; thread u;"
    yield from turns_at("any number of frames that wait", text, 2, "f(1) need not call itself, and u() writes once in round 1")


def counted(bits, last, back, own="", target=""):
    """A procedure f that calls itself once for each number of a counter, does `last` at 0, and `back` at each end; it may have locals of
    its own, and a target for the value of the call."""
    names = [f"c{n}" for n in range(bits)]
    less = ["!c0", *[f"c{n} = ({' | '.join(names[:n])})" for n in range(1, bits)]]
    call = f"{target}f({', '.join(less)});"
    return f"f({', '.join(names)}) begin {own}if ({' | '.join(names)}) then {call} else skip; {last} fi {back} end"


def levels(bits, last):
    return f"{counted(bits, last, 'skip;')} m() begin f({', '.join('1' * bits)}); end thread m;"


def threads():
    """Threads and rounds."""
    text = "decl x; a() begin skip; end b() begin assume(x); assert(0); end c() begin x := 1; end thread a; thread b; thread c;"
    yield from turns_at("a thread that has ended", text, 2, "b is before c, and a needs no turn")
    text = "decl x, y; a() begin x := 1; end b() begin assume(x); y := 1; assume(!x); assert(0); end thread a; thread b;"
    yield from safe("none left to write", text, "a has ended, and x stays 1", SETTLES)
    text = "decl x; t() begin x := !x; assert(x); end thread t; thread t;"
    yield from turns_at("two of one procedure", text, 1, "the second turns x back before the assert of the first, or its own")
    text = "t() begin decl v; assert(!v); v := 1; assert(v); end thread t; thread t;"
    yield from safe("two of one procedure, locals", text, "each thread has locals of its own", SETTLES)
    for waits in (0, 1, 2, 3, 5, 9, 30):
        why = "each wait needs a round of its own, and the last one more"
        yield from turns_at(f"handshake, {waits} waits", handshake(waits), waits + 2, why)
    names = [f"x{n}" for n in range(8)]
    bodies = [f"t{n}() begin assume(x{n + 1}); {'assert(0);' if n == 0 else f'x{n} := 1;'} end" for n in range(7)]
    text = f"decl {', '.join(names)}; {' '.join(bodies)} t7() begin x7 := 1; end "
    lines = [f"thread t{n};" for n in range(8)]
    yield from turns_at("8 threads", text + " ".join(lines), 8, "t7 writes in round 1, and each thread one round after the next one")
    yield from turns_at("8 threads, the other way", text + " ".join(reversed(lines)), 1, "each thread comes after the one it waits for")
    text = f"{SKIP} thread t; thread t; thread t; thread t; thread t; thread t; thread t; thread t;"
    yield Shape("9 threads", text, "--rounds 1", f"refused: 12 too many at {text.rindex('thread')}", "8 is the limit")


def limits():
    """Limits of a text and of the program's own."""
    for count in (31, 32):
        calls = [f"p{n}() begin p{n + 1}(); end" for n in range(count - 1)]
        text = f"{' '.join(calls)} p{count - 1}() begin assert(0); end thread p0;"
        reply = "unsafe" if count == 31 else f"refused: 12 too many at {text.index('p31() begin assert')}"
        yield Shape(f"{count} procedures", text, "--rounds 2", reply, "the limit is 31; the last one has the assert")
    for shared, own in ((0, 128), (100, 28), (127, 1), (0, 129), (100, 29), (128, 1)):
        names = [f"x{n}" for n in range(shared)], [f"v{n}" for n in range(own)]
        text = f"decl {', '.join(names[0])};" if shared else ""
        text += f" t() begin decl {', '.join(names[1])}; v{own - 1} := 1; assert(!v{own - 1}); end thread t;"
        reply = "unsafe" if shared + own == 128 else "refused: 14 too wide"
        yield Shape(f"{shared} globals and {own} locals", text, "--rounds 2", reply, "a procedure has at most 128 places")
    for count in (1000, 1001):
        text = f"t() begin {'skip; ' * (count - 1)}assert(0); end thread t;"
        reply = "unsafe" if count == 1000 else f"refused: 12 too many at {text.index('assert')}"
        yield Shape(f"{count} statements", text, "--rounds 2", reply, "the limit is 1,000; the last one is the assert")
    for size, reply in ((65_536, "safe"), (65_537, "refused: 1 too long")):
        yield Shape(f"{size} bytes", SKIP.ljust(size), "--rounds 1", reply, "the limit is 65,536")
    yield Shape("no rounds", SKIP, "--rounds 0", "refused: line", "K is at least 1")
    yield Shape("too many rounds", SKIP, "--rounds 4294967296", "refused: line", "K is at most 4294967295")
    yield Shape("no limit", SKIP, "--limit 0", "refused: line", "N is at least 1")
    yield Shape("undeclared", "t() begin x := 1; end thread t;", "", "refused: 6 undeclared at 10", "x has no declaration")
    text = "decl x; t() begin x := 1; x := 0; end thread t;"
    yield Shape("a limit of 1", text, "--limit 1", "no verdict: limit", "more than one is found in round 1", "no run of 0 rounds fails")
