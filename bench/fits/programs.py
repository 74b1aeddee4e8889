"""Programs as people write them, made for numbers of threads, places and units: each has a name and a text."""


def program(shared, procedures, threads):
    """A text of these globals, procedures and thread lines; threads with one body and a number each get a procedure each."""
    lines = [f"decl {', '.join(shared)};"] if shared else []
    return "\n".join([*lines, *procedures, *(f"thread {it};" for it in threads)]) + "\n"


def one_of(names, name):
    """That all others of these are 0."""
    return " & ".join(f"!{it}" for it in names if it != name)


TAKE = "take() begin decl was; was, lock := lock, 1; assume(!was); end"


def spin_lock(count):
    """Threads that take a lock by test-and-set, each with a flag for being inside."""
    flags = [f"in{n}" for n in range(count)]
    bodies = [
        f"t{n}() begin while (?) do take(); {it} := 1; assert({one_of(flags, it)}); {it} := 0; lock := 0; od end"
        for n, it in enumerate(flags)
    ]
    return program(["lock", *flags], [TAKE, *bodies], [f"t{n}" for n in range(count)])


def counter_under_lock(count):
    """Threads that raise a counter of two bits under a lock once each, and one that looks when all are done."""
    done = [f"done{n}" for n in range(count)]
    raises = "decl l, h; take(); l, h := low, high; low, high := !l, h ^ l; lock := 0;"
    bodies = [f"t{n}() begin {raises} {it} := 1; end" for n, it in enumerate(done)]
    wanted = {1: "low & !high", 2: "!low & high", 3: "low & high"}[count]
    bodies.append(f"judge() begin assume({' & '.join(done)}); assert({wanted}); end")
    return program(["lock", "low", "high", *done], [TAKE, *bodies], [*(f"t{n}" for n in range(count)), "judge"])


def ticket_lock():
    """Two threads with tickets of one bit."""
    body = "{0}() begin decl mine; while (?) do mine, next := next, !next; assume(serving = mine); assert(!inside);"
    body += " inside := 1; inside := 0; serving := !serving; od end"
    return program(["next", "serving", "inside"], [body.format("a"), body.format("b")], ["a", "b"])


def ring(count):
    """Threads in a ring: each turns its bit over when it differs from the one before it, the first when it is the same."""
    bits = [f"b{n}" for n in range(count)]
    bodies = [f"t0() begin while (?) do assume(b0 = b{count - 1}); b0 := !b0; od end"]
    bodies += [f"t{n}() begin while (?) do assume(b{n} != b{n - 1}); b{n} := !b{n}; od end" for n in range(1, count)]
    bodies.append(f"look() begin assert(!({' & '.join(f'(b{n} != b{(n + 1) % count})' for n in range(count))})); end")
    return program(bits, bodies, [*(f"t{n}" for n in range(count)), "look"])


def token(count):
    """Threads that hand a token on by its number in as many bits as needed."""
    bits = (count - 1).bit_length()
    names = [f"n{it}" for it in range(bits)]

    def number(value):
        return [str(value >> it & 1) for it in range(bits)]

    def at(value):
        return " & ".join(it if digit == "1" else f"!{it}" for it, digit in zip(names, number(value)))

    bodies = [
        f"t{n}() begin while (?) do assume({at(n)}); assert(!inside); inside := 1; inside := 0; "
        f"{', '.join(names)} := {', '.join(number((n + 1) % count))}; od end"
        for n in range(count)
    ]
    return program([*names, "inside"], bodies, [f"t{n}" for n in range(count)])


def buffer(places):
    """A producer and a consumer with so many places, each with a flag."""
    shared = [f"full{n}" for n in range(places)] + [f"item{n}" for n in range(places)]
    puts = " ".join(f"assume(!full{n}); item{n} := next; full{n} := 1; next := !next;" for n in range(places))
    gets = " ".join(f"assume(full{n}); assert(item{n} = next); full{n} := 0; next := !next;" for n in range(places))
    return program(
        shared,
        [f"put() begin decl next; while (?) do {puts} od end", f"get() begin decl next; while (?) do {gets} od end"],
        ["put", "get"],
    )


def readers_and_writer(readers):
    """A flag for each reader and one for the writer under a lock, and two halves of what is written."""
    flags = [f"r{n}" for n in range(readers)]
    bodies = [
        f"reader{n}() begin while (?) do take(); if (w) then lock := 0; else {it} := 1; lock := 0; assert(x = y); "
        f"{it} := 0; fi od end"
        for n, it in enumerate(flags)
    ]
    free = " & ".join(f"!{it}" for it in flags)
    bodies.append(
        f"writer() begin while (?) do take(); if ({free}) then w := 1; lock := 0; x := !x; y := x; w := 0; else lock := 0; fi od end"
    )
    return program(["lock", *flags, "w", "x", "y"], [TAKE, *bodies], [*(f"reader{n}" for n in range(readers)), "writer"])


def philosophers(count):
    """Forks that are taken left first; the last philosopher takes the right one first. None eats beside a neighbour."""
    forks, eats = [f"f{n}" for n in range(count)], [f"e{n}" for n in range(count)]
    bodies = []
    for n in range(count):
        first, second = sorted((n, (n + 1) % count))
        beside = sorted({(n + 1) % count, (n - 1) % count} - {n})
        bodies.append(
            f"p{n}() begin decl was; while (?) do was, f{first} := f{first}, 1; assume(!was); was, f{second} := f{second}, 1; "
            f"assume(!was); e{n} := 1; assert({' & '.join(f'!e{it}' for it in beside)}); e{n} := 0; f{first} := 0; f{second} := 0; od end"
        )
    return program([*forks, *eats], bodies, [f"p{n}" for n in range(count)])


def philosophers_stuck(count):
    """Forks that are taken left first by all; each says that it waits, and the last one that waits fails."""
    forks, waits = [f"f{n}" for n in range(count)], [f"w{n}" for n in range(count)]
    bodies = [
        f"p{n}() begin decl was; was, f{n} := f{n}, 1; assume(!was); w{n} := 1; assert(!({' & '.join(waits)})); "
        f"was, f{(n + 1) % count}, w{n} := f{(n + 1) % count}, 1, f{(n + 1) % count}; assume(!was); f{n}, f{(n + 1) % count} := 0, 0; end"
        for n in range(count)
    ]
    return program([*forks, *waits], bodies, [f"p{n}" for n in range(count)])


def barrier(count):
    """Threads that meet once; each writes before and reads what the others wrote after."""
    here, data = [f"h{n}" for n in range(count)], [f"x{n}" for n in range(count)]
    bodies = [f"t{n}() begin x{n} := 1; h{n} := 1; assume({' & '.join(here)}); assert({' & '.join(data)}); end" for n in range(count)]
    return program([*here, *data], bodies, [f"t{n}" for n in range(count)])


def semaphore(count):
    """Two units, which are counted by two bits; no more than two threads are inside."""
    flags = [f"in{n}" for n in range(count)]
    bodies = [
        f"t{n}() begin decl went; while (?) do went, one, two := !two, 1, one; assume(went); {it} := 1; "
        f"assert(!({' & '.join(flags)})); {it} := 0; one, two := two, 0; od end"
        for n, it in enumerate(flags)
    ]
    return program(["one", "two", *flags], bodies, [f"t{n}" for n in range(count)])


def swap_counter(count):
    """Threads that each turn a bit over by compare-and-swap, any number of times, and keep their own parity."""
    own = [f"p{n}" for n in range(count)]
    bodies = [
        f"t{n}() begin decl old, same; while (?) do old := x; same, x, {it} := x = old, (x = old & !old) | (x != old & x), "
        f"{it} ^ (x = old); assert(x = ({' ^ '.join(own)})); od end"
        for n, it in enumerate(own)
    ]
    return program(["x", *own], bodies, [f"t{n}" for n in range(count)])


def interrupts(masks):
    """A driver and a handler that runs to its end before any of its statements, with or without a mask."""
    call = "any := ?; if (any & !masked) then hit(); else skip; fi " if masks else "if (?) then hit(); else skip; fi "
    shared = ["masked", "pending", "came"] if masks else ["pending", "came"]
    steps = ["got := pending;", "pending := 0;", "came := came & !got;"]
    if masks:
        steps = ["masked := 1;", *steps, "masked := 0;"]
    body = "".join(call + it + " " for it in steps)
    return program(
        shared,
        ["hit() begin pending, came := 1, 1; end", f"m() begin decl any, got; while (?) do {body}assert(came => pending); od end"],
        ["m"],
    )


def interrupted_thread():
    """A thread and a handler in a thread of its own that runs to its end under a flag."""
    return program(
        ["masked", "pending", "came"],
        [
            "irq() begin decl went; while (?) do went, pending, came := !masked, pending | !masked, came | !masked; assume(went); od end",
            "m() begin decl got; while (?) do masked := 1; got := pending; pending := 0; came := came & !got; masked := 0;"
            " assert(came => pending | !masked); od end",
        ],
        ["irq", "m"],
    )


def sequence_lock():
    """A writer that turns a sequence bit over before and after it writes two halves, and a reader that looks at it twice."""
    return program(
        ["odd", "turned", "x", "y"],
        [
            "writer() begin while (?) do odd := 1; x := !x; y := x; odd, turned := 0, !turned; od end",
            "reader() begin decl before, a, b; while (?) do before := turned; assume(!odd); a := x; b := y;"
            " if (odd | (turned != before)) then skip; else assert(a = b); fi od end",
        ],
        ["writer", "reader"],
    )


def peterson(nested):
    """Peterson's algorithm, with the critical section in a procedure that calls itself where `nested`."""
    inner = "if (?) then work(); else skip; fi" if nested else "skip;"
    body = "{0}() begin while (?) do {1} := 1; turn := {3}; assume(!{2} | (turn != {3})); work(); {1} := 0; od end"
    return program(
        ["f", "g", "turn", "inside"],
        [
            f"work() begin assert(!inside); inside := 1; inside := 0; {inner} end",
            body.format("a", "f", "g", "1"),
            body.format("b", "g", "f", "0"),
        ],
        ["a", "b"],
    )


def stopped_driver(count):
    """A driver of so many threads that serve requests, each with a flag, and one thread that stops it."""
    flags = [f"busy{n}" for n in range(count)]
    bodies = [
        f"serve{n}() begin {it} := 1; if (stopping) then skip; else assert(!released); fi {it} := 0; "
        f"if (?) then serve{n}(); else skip; fi end"
        for n, it in enumerate(flags)
    ]
    waits = " ".join(f"assume(!{it});" for it in flags)
    bodies.append(f"stopper() begin stopping := 1; {waits} released := 1; end")
    return program([*flags, "stopping", "released"], bodies, [*(f"serve{n}" for n in range(count)), "stopper"])


def handshake(waits):
    """Two threads that wait for each other's write of one bit, so often."""
    there = "assume(x); x := 0; " * waits
    back = "assume(!x); x := 1; " * waits
    return program(["x"], [f"a() begin {there}assume(x); assert(0); end", f"b() begin x := 1; {back}end"], ["a", "b"])


def flag(count):
    """Readers of one flag, and a writer after them."""
    bodies = [f"r{n}() begin assert(!x); end" for n in range(count)]
    return program(["x"], ["w() begin x := 1; end", *bodies], [*(f"r{n}" for n in range(count)), "w"])


def all_programs():
    """Each by its name."""
    return {
        "one flag, 1 reader": flag(1),
        "one flag, 4 readers": flag(4),
        "handshake, 2 waits": handshake(2),
        "handshake, 5 waits": handshake(5),
        "interrupts, no mask": interrupts(False),
        "interrupts, mask": interrupts(True),
        "interrupt in a thread": interrupted_thread(),
        "token, 2 threads": token(2),
        "token, 3 threads": token(3),
        "token, 4 threads": token(4),
        "ring of 3": ring(3),
        "ring of 4": ring(4),
        "spin lock, 2 threads": spin_lock(2),
        "spin lock, 3 threads": spin_lock(3),
        "spin lock, 4 threads": spin_lock(4),
        "ticket lock": ticket_lock(),
        "Peterson": peterson(False),
        "Peterson, recursive": peterson(True),
        "sequence lock": sequence_lock(),
        "swap, 2 threads": swap_counter(2),
        "swap, 3 threads": swap_counter(3),
        "buffer of 1": buffer(1),
        "buffer of 2": buffer(2),
        "buffer of 3": buffer(3),
        "1 reader, writer": readers_and_writer(1),
        "2 readers, writer": readers_and_writer(2),
        "barrier of 2": barrier(2),
        "barrier of 3": barrier(3),
        "semaphore, 3 threads": semaphore(3),
        "counter, 2 threads": counter_under_lock(2),
        "2 philosophers": philosophers(2),
        "3 philosophers": philosophers(3),
        "2 philosophers, stuck": philosophers_stuck(2),
        "3 philosophers, stuck": philosophers_stuck(3),
        "driver, 1 server": stopped_driver(1),
        "driver, 2 servers": stopped_driver(2),
    }
