#!/usr/bin/env python3
"""Compares runs of the machine's definitions with traces.

    compare.py rows [--check] [NAME..]
        the rows of tools/rows, or some of them, with their traces
    compare.py laws [NAME..]
        the laws of specs/Rows as they stand: the lines, the worlds and the releases of each row
    compare.py --front-end FOLDER seeds FIRST LAST [--size N] [--ticks N] [--check]
        generated programs with the interpreter's, LAST excluded
    compare.py --front-end FOLDER files [--ticks N] [--check] FILE..
        sources with the interpreter's; of NAME.adb, NAME.script is the script if it is there

With --check each world that a run reaches is asked whether it is well formed. The last line counts; the status is 1
where a run differs. Images are those of the definitions. FOLDER is that of ../image_by_front_end.py, which has the
interpreter, and for seeds with the module `gen` (programs by seed) as well.
"""
import argparse
import os
import sys
import time

sys.dont_write_bytecode = True
import mach    # which finds the other folders of tools
import antt
import program_data


def content(path, missing=None):
    if not os.path.exists(path):
        return missing
    with open(path, "rb") as f:
        return f.read()


class Row:
    """A worked row: its program and script, its bound, and its trace."""

    def __init__(self, name):
        folder = os.path.join(antt.ROOT, "tools", "rows", name)
        self.name = name
        self.source = content(os.path.join(folder, "source"))
        self.script = content(os.path.join(folder, "script"), b"")
        self.trace = content(os.path.join(folder, "trace")).decode("latin-1").split("\n")[:-1]
        ticks = content(os.path.join(folder, "ticks"))
        self.bound = int(ticks) if ticks is not None else int(self.trace[-1].split(" ")[0]) + 1


def row_names():
    return sorted(os.listdir(os.path.join(antt.ROOT, "tools", "rows")))


def rows(a):
    for row in map(Row, a.names or row_names()):
        yield row.name, row.source, row.script, row.bound, lambda row=row: row.trace


def law_fails(row):
    """Which of the laws of a row's module do not hold."""
    m = antt.load(f"machine_rows.specs.Rows.{program_data.module_of(row)}")
    name = program_data.name_of(row)

    def value(part):
        return antt.definition(m.name, f"{name}_{part}")

    found = [] if repr(value("lines")) == repr(value("trace")) else ["runs"]
    return found + [law for law, part in (("keeps", "worlds"), ("releases", "handlers"))
                    if f"{name}_{part}" in m.defs and value(part) is not True]


def laws(names):
    failing = {row: law_fails(row) for row in names or row_names()}
    for row, found in failing.items():
        if found:
            print(f"{row}: {', '.join(found)} fails")
    print(f"{sum(not found for found in failing.values())} of {len(failing)} hold")
    return any(failing.values())


def by_interpreter(name, source, script, bound):
    return name, source, script, bound, lambda: mach.interpreted(source, script, bound)


def seeds(a):
    import gen
    for seed in range(int(a.names[0]), int(a.names[1])):
        source, script, _ = gen.generate(seed, a.size, 17)
        yield by_interpreter(f"seed {seed} of size {a.size}", source.encode("latin-1"), (script or "").encode("latin-1"), a.ticks)


def files(a):
    for name in a.names:
        script = content(os.path.splitext(name)[0] + ".script", b"")
        yield by_interpreter(name, content(name), script, a.ticks)


def each(cases, check):
    good, bad, start = 0, 0, time.time()
    for name, source, script, bound, wanted in cases:
        try:
            program, items = mach.image_of(source, script)
            differs = mach.difference(wanted(), mach.run(program, items, bound, check))
        except Exception as e:
            differs = f"fails: {e!r:.300}"
        if differs is None:
            good += 1
        else:
            bad += 1
            print(f"{name}: {differs}", flush=True)
    print(f"{good} the same, {bad} not, in {time.time() - start:.0f} s")
    return bad


def main():
    words = argparse.ArgumentParser(description=__doc__, formatter_class=argparse.RawDescriptionHelpFormatter)
    words.add_argument("--front-end")
    words.add_argument("kind", choices=("rows", "laws", "seeds", "files"))
    words.add_argument("--size", type=int, default=3)
    words.add_argument("--ticks", type=int, default=300)
    words.add_argument("--check", action="store_true")
    words.add_argument("names", nargs="*")
    a = words.parse_intermixed_args()
    if a.front_end is None and a.kind in ("seeds", "files"):
        words.error("the interpreter is in the folder of --front-end")
    mach.start(a.front_end)
    if a.kind == "laws":
        return int(laws(a.names))
    return int(each({"rows": rows, "seeds": seeds, "files": files}[a.kind](a), a.check) > 0)


if __name__ == "__main__":
    sys.exit(mach.in_large_stack(main))
