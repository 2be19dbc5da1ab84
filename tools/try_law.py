#!/usr/bin/env python3
"""Computes a test of lists of lines on stored traces, and prints those of which it is false.

    tools/try_law.py MODULE NAME            on all traces of examples and check/traces
    tools/try_law.py MODULE NAME TRACE ..   on these

MODULE and NAME are those of a definition that takes the lines of a trace and answers a Bool, as
`line_laws.specs.TickLaws follows_switches`. A trace that is not formed is refused. The last line counts; the status is 1 if the
test is false of a trace."""
import pathlib
import sys

TOP = pathlib.Path(__file__).resolve().parent.parent
sys.path.insert(0, str(TOP / "tools" / "definitions"))
from interpreter import content, definition, in_large_stack    # noqa: E402


def stored_traces():
    return sorted([*TOP.glob("examples/*.trace"), *TOP.glob("check/traces/*.trace")])


def main():
    module, name, *paths = sys.argv[1:]
    holds = definition(module, name)
    lines_of = definition("trace_files.specs.Reported", "formed_lines")
    kept = broken = 0
    for path in paths or stored_traces():
        lines = lines_of(tuple(content(path)))
        if lines.n != "Ok":
            print(f"{path}: refused at line {lines.a[0]}")
            broken += 1
        elif not holds(lines.a[0]):
            print(f"{path}: {name} is false")
            broken += 1
        else:
            kept += 1
    print(f"{kept} keep it, {broken} do not")
    return 1 if broken else 0


if __name__ == "__main__":
    if len(sys.argv) < 3:
        print(__doc__.split("\n\n")[1], file=sys.stderr)
        sys.exit(2)
    sys.exit(in_large_stack(main))
