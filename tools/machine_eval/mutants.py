#!/usr/bin/env python3
"""Changes of one line of the machine's definitions: which of them does a worked row tell?

    mutants.py COUNT SEED [--most TICKS]
    mutants.py all [--most TICKS]

The first form draws COUNT changes by SEED, the second makes every one. Each change is made by itself, in memory. A row
tells it if its run is no longer its trace, if the changed definition cannot be read, or if the run does not end in two
minutes. Rows with a greater bound than TICKS (600) are run up to it. What every row lets through is printed; the last
line counts. Changed are the modules of `profile_machine` that say what the machine does (FILES), and not those that
say how lists of the code stand.
"""
import argparse
import os
import random
import re
import signal
import sys

sys.dont_write_bytecode = True
import mach    # which finds the other folders of tools
import antt
import compare

FILES = ("Act CallEnds Calls Controlled Cost Declarations Dispatching EntryCalls Frames Handlers Inheritance Instant Masters "
         "Operators Priorities Protected Rendezvous Run Scopes Sending Serving Statements Steps Subprograms Tasking Tasks "
         "Unwinding Values Appointments").split()
SWAPS = [("Tail", "Head"), ("Head", "Tail"), ("true", "false"), ("false", "true"), ("ltb", "leb"), ("leb", "ltb"),
         ("int_lt", "int_le"), ("int_le", "int_lt"), ("&&", "||"), ("||", "&&"), (" + 1", " + 2"), (" - 1", " - 0"),
         ("exception.Program", "exception.Tasking"), ("exception.Constraint", "exception.Program"),
         ("exception.Storage", "exception.Program"), ("to_tail", "to_head"), ("to_head", "to_tail"), ("t.base", "active p t")]
SECONDS = 120


def module(name):
    return f"profile_machine.specs.{name}"


def lines_of(name):
    with open(antt.path_of(module(name)), encoding="utf-8") as f:
        return f.read().split("\n")


def candidates():
    """All changes, as (file, line, place in it, what stands there, what it becomes)."""
    out = []
    for name in FILES:
        for n, line in enumerate(lines_of(name)):
            if line.startswith(("use ", "--", "abbrev", "unfoldable", "unfolding", "infix", "pub ")) or line.lstrip().startswith("--"):
                continue
            for a, b in SWAPS:
                for m in re.finditer(r"(?<![\w.])" + re.escape(a) + r"(?!\w)", line):
                    out.append((name, n, m.start(), a, b))
            for m in re.finditer(r"(?<== )([^▷=]+?) ▷ ", line):
                out.append((name, n, m.start(), m.group(0), ""))
            for m in re.finditer(r" ▷ ([^▷]+?)$", line.rstrip()):
                if line.count("(") == line.count(")"):
                    out.append((name, n, m.start(), m.group(0), ""))
    return out


def drawn(count, seed):
    """The changes that the words ask for; None where they ask for none."""
    every = candidates()
    if count == "all" and seed is None:
        return every
    if not count.isdecimal() or seed is None or not seed.isdecimal() or int(count) > len(every):
        return None
    return random.Random(int(seed)).sample(every, int(count))


def is_told(name, text, cases):
    """Whether a row tells the change: asked in a process of its own."""
    child = os.fork()
    if child == 0:
        signal.alarm(SECONDS)
        try:
            antt.reload(module(name), text)
            let_through = all(mach.difference(wanted, mach.run(program, items, bound)) is None
                              for program, items, bound, wanted in cases)
        except BaseException:
            let_through = False
        os._exit(0 if let_through else 1)
    return os.waitpid(child, 0)[1] != 0


def case_of(row, most):
    """A row's image, bound and trace; one that is longer is cut, and ends by its bound."""
    program, items = mach.image_of(row.source, row.script)
    if row.bound <= most:
        return program, items, row.bound, row.trace
    return program, items, most, list(mach.run(program, items, most))


def main():
    words = argparse.ArgumentParser(description=__doc__, formatter_class=argparse.RawDescriptionHelpFormatter)
    words.add_argument("--most", type=int, default=600)
    words.add_argument("count")
    words.add_argument("seed", nargs="?")
    a = words.parse_args()
    changes = drawn(a.count, a.seed)
    if changes is None:
        print(f"mutants.py: give all, or COUNT and SEED; there are {len(candidates())} changes", file=sys.stderr)
        return 2
    mach.start()
    cases = [case_of(compare.Row(name), a.most) for name in compare.row_names()]
    cases.sort(key=lambda case: len(case[3]))
    assert all(mach.difference(wanted, mach.run(*case)) is None for *case, wanted in cases), "a row is not its trace"
    told = 0
    for name, n, at, before, after in changes:
        lines = lines_of(name)
        line = lines[n]
        lines[n] = line[:at] + after + line[at + len(before):]
        if is_told(name, "\n".join(lines), cases):
            told += 1
        else:
            print(f"let through: {name}:{n + 1} {before.strip()!r} -> {after!r} in: {line.strip()}", flush=True)
    print(f"{told} of {len(changes)} told", flush=True)
    return 0


if __name__ == "__main__":
    sys.exit(mach.in_large_stack(main))
