"""Larger programs, each with the rounds that it is asked about and the reply: those that show where the search of bebopk-explore grows."""
import collections
import pathlib
import random
import sys

sys.dont_write_bytecode = True
sys.path.insert(0, str(pathlib.Path(__file__).resolve().parent.parent / "fits"))
from programs import TAKE, one_of, program  # noqa: E402

Large = collections.namedtuple("Large", "name text rounds reply")


def philosophers(count):
    """Philosophers who take their forks in order, lower number first, and eat alone among their neighbours."""
    forks, eats = [f"fork{n}" for n in range(count)], [f"eats{n}" for n in range(count)]
    takes = [f"take{n}() begin decl was; was, {it} := {it}, 1; assume(!was); end" for n, it in enumerate(forks)]
    bodies = []
    for n in range(count):
        one, other = sorted((n, (n + 1) % count))
        body = f"take{one}(); take{other}(); eats{n} := 1; assert(!eats{(n + 1) % count} & !eats{(n - 1) % count}); eats{n} := 0;"
        bodies.append(f"t{n}() begin while (?) do {body} {forks[other]} := 0; {forks[one]} := 0; od end")
    return program([*forks, *eats], [*takes, *bodies], [f"t{n}" for n in range(count)])


def counter(bits, threads):
    """Threads that raise a counter of some bits under a lock."""
    names = [f"c{n}" for n in range(bits)]
    raised = [f"c{n} ^ ({' & '.join(names[:n])})" if n else "!c0" for n in range(bits)]
    step = f"{', '.join(names)} := {', '.join(raised)};"
    bodies = [f"t{n}() begin while (?) do take(); assert(lock); {step} lock := 0; od end" for n in range(threads)]
    return program(["lock", *names], [TAKE, *bodies], [f"t{n}" for n in range(threads)])


def registers(count, bits):
    """Threads that each raise a counter of their own."""
    bodies, names = [], []
    for n in range(count):
        own = [f"c{n}x{bit}" for bit in range(bits)]
        raised = [f"{it} ^ ({' & '.join(own[:bit])})" if bit else f"!{it}" for bit, it in enumerate(own)]
        bodies.append(f"t{n}() begin while (?) do {', '.join(own)} := {', '.join(raised)}; od end")
        names += own
    return program(names, bodies, [f"t{n}" for n in range(count)])


def free_writes(count):
    """Two threads that write any values to all globals."""
    names = [f"x{n}" for n in range(count)]
    body = " ".join(f"{it} := ?;" for it in names)
    return program(names, [f"t() begin while (?) do {body} od end"], ["t", "t"])


def told_stacks(threads):
    """Recursive threads that keep bits on their stacks, and give them back to the others."""
    calls = "keep(b) begin decl own; own := b; if (?) then keep(x); else skip; fi x := own; end"
    return program(["x", "y"], [calls, "t() begin while (?) do x := ?; keep(y); y := x; od end"], ["t"] * threads)


def statements(count, threads, seed=7):
    """Threads of many statements over a few globals."""
    pick = random.Random(seed)
    names = [f"x{n}" for n in range(10)]
    bodies = []
    for n in range(threads):
        lines = []
        while len(lines) < count // threads - 1:
            one, other, third = (pick.choice(names) for _ in range(3))
            lines.append(pick.choice([f"{one} := {other} & !{third};", f"{one} := {other} | {third};", f"{one} := !{other};"]))
        bodies.append(f"t{n}() begin {' '.join(lines)} end")
    return program(names, bodies, [f"t{n}" for n in range(threads)])


def all_large():
    """The programs by name, each of which takes some seconds at most."""
    yield Large("8 philosophers", philosophers(8), "all", "safe")
    yield Large("a locked counter of 6 bits, 8 threads", counter(6, 8), "all", "safe")
    yield Large("5 counters of 3 bits", registers(5, 3), "all", "safe")
    yield Large("4 counters of 4 bits", registers(4, 4), "all", "safe")
    yield Large("2 threads write 8 globals", free_writes(8), "all", "safe")
    for threads, rounds in ((3, 4), (4, 3), (6, 2)):
        yield Large(f"{threads} recursive threads that tell their stacks", told_stacks(threads), rounds, "safe")
    yield Large("200 statements in 2 threads", statements(200, 2), 2, "safe")
