#!/usr/bin/env python3
"""Compares what the definitions say of the bytes of a source, whether it is accepted or where and why it is refused, with what
a front end in Python answers.

    tools/definitions/compare_judged.py --front-end FOLDER SOURCE..
    tools/definitions/compare_judged.py --front-end FOLDER --seeds FIRST LAST --size N    the same of generated sources
    .. --changed N SEED    of each source, N changed ones too: a byte is dropped, doubled or another one, or a token is

FOLDER is that of ../image_by_front_end.py, which also has a generator. Of sources that are accepted, nothing more than that is
compared here: see compare_images.py.
"""
import argparse
import random
import sys

sys.dont_write_bytecode = True
import interpreter
from compare_faults import ALL_FORMS, changed

BYTES = b'_"\'#.;:=()|&<>/*+-,0 9aE\n\t\x0b\x7f\xe4!'


def with_other_byte(source, draw):
    """The source with a byte dropped, doubled, or put in the place of another."""
    at = draw.randrange(len(source))
    kind = draw.random()
    if kind < 0.25:
        return source[:at] + source[at + 1:]
    if kind < 0.5:
        return source[:at] + source[at:at + 1] + source[at:]
    return source[:at] + bytes([draw.choice(BYTES)]) + source[at + (kind < 0.75):]


def cases(a, reserved):
    draw = random.Random(a.changed[1])
    for title, source in given(a):
        yield title, source
        for i in range(a.changed[0]):
            other = with_other_byte(source, draw) if draw.random() < 0.5 \
                else changed(source.decode("latin-1"), draw, reserved).encode("latin-1")
            yield f"{title}, changed {i}", other


def given(a):
    if a.seeds:
        import gen
        for seed in range(*a.seeds):
            yield f"seed {seed}", gen.generate(seed, a.size, ALL_FORMS)[0].encode("latin-1")
    for path in a.sources:
        yield path, interpreter.content(path)


def main():
    words = argparse.ArgumentParser(description=__doc__, formatter_class=argparse.RawDescriptionHelpFormatter)
    words.add_argument("--front-end", required=True)
    words.add_argument("--seeds", nargs=2, type=int)
    words.add_argument("--size", type=int, default=3)
    words.add_argument("--changed", nargs=2, type=int, default=[0, 1])
    words.add_argument("sources", nargs="*")
    a = words.parse_args()
    sys.path.append(a.front_end)
    import front
    import lex
    same, other, told = 0, 0, {}
    for title, source in cases(a, lex.RESERVED):
        image, refusal = interpreter.judged(source)
        found = "accepted" if refusal is None else interpreter.refusal_text(refusal).decode().strip()
        try:
            front.accept(source)
            wanted = "accepted"
        except front.Refused as refused:
            wanted = refused.note
        code = wanted.split(" ")[-1]
        told[code] = told.get(code, 0) + 1
        if found == wanted:
            same += 1
        else:
            other += 1
            print(f"{title}: {found}, and not {wanted}\n    " + source.decode("latin-1").strip().replace("\n", "\n    "), flush=True)
    print(f"{same} the same, {other} not; " + ", ".join(f"{code} {n}" for code, n in sorted(told.items())))
    return int(other > 0)


if __name__ == "__main__":
    sys.exit(interpreter.in_large_stack(main))
