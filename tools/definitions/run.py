#!/usr/bin/env python3
"""Runs a source by the definitions, as the program runs it.

    tools/definitions/run.py [--whole] SOURCE [SCRIPT] [--ticks N]

Writes the lines of the run, or the note with which the source or the script is refused, and ends with the status of the
program. The run is that of steps from world to world as a kernel shows them; with --whole it is the text that the contract of
the program names, computed as it stands, for runs of up to some ten thousand ticks.
"""
import sys

sys.dont_write_bytecode = True
import interpreter


def main():
    words = sys.argv[1:]
    whole = words[:1] == ["--whole"]
    out, notes, status = interpreter.performed(["run", *words[whole:]], interpreter.content, by_steps=not whole)
    sys.stdout.buffer.write(out)
    sys.stderr.buffer.write(notes)
    sys.stdout.flush()
    return status


if __name__ == "__main__":
    if len(sys.argv) < 2:
        sys.exit(__doc__)
    sys.exit(interpreter.in_large_stack(main))
