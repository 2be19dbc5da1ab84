#!/usr/bin/env python3
"""Judges sources by the definitions: whether each is accepted, or why not.

    tools/definitions/judge.py SOURCE..

Prints `accepted`, or the note of the program; behind the name of the source where there are several. The status is 1 where
one is refused.
"""
import sys

sys.dont_write_bytecode = True
import interpreter


def main():
    paths = sys.argv[1:]
    refused = False
    for path in paths:
        source = interpreter.content(path)
        if source is None:
            sys.exit(f"there is no {path}")
        image, refusal = interpreter.judged(source)
        refused = refused or image is None
        note = "accepted\n" if image is not None else interpreter.refusal_text(refusal).decode()
        print((f"{path}: " if len(paths) > 1 else "") + note, end="", flush=True)
    return int(refused)


if __name__ == "__main__":
    if len(sys.argv) < 2:
        sys.exit(__doc__)
    sys.exit(interpreter.in_large_stack(main))
