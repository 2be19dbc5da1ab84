#!/usr/bin/env python3
"""Compares the image of a source by the definitions of `ada_image` with that of ../image_by_front_end.py.

    tools/definitions/compare_images.py --front-end FOLDER SOURCE..
    tools/definitions/compare_images.py --front-end FOLDER --seeds FIRST LAST --size N --built K

FOLDER is that of ../image_by_front_end.py.
"""
import argparse
import os
import sys
import threading

sys.dont_write_bytecode = True
HERE = os.path.dirname(os.path.abspath(__file__))
sys.path[:0] = [HERE, os.path.dirname(HERE)]
import image_by_front_end
import program_data
from antt import Con, Rec, definition, forget, load
from tree_value import Converter


COUNT = [0]


def image_of_data(modules, source):
    """The image as ../image_by_front_end.py has it."""
    program = image_by_front_end.Program(modules, source)
    text = program_data.HEAD + "\n" + program_data.law("run", program, [], 1, [], None)
    text = text[:text.index("-- the lines of its run")]
    COUNT[0] += 1
    m = load(f"nowhere.specs.Data{COUNT[0]}", text)
    image = definition(m.name, "run_program")
    forget(m.name)
    return image


def difference(a, b, path="image"):
    """The first place where two values differ, or None."""
    if isinstance(a, Rec) and isinstance(b, Rec):
        if set(a.d) != set(b.d):
            return f"{path}: fields {sorted(a.d)} and {sorted(b.d)}"
        for k in a.d:
            x = difference(a.d[k], b.d[k], f"{path}.{k}")
            if x:
                return x
        return None
    if isinstance(a, Con) and isinstance(b, Con):
        if a.n != b.n or len(a.a) != len(b.a):
            return f"{path}: {a!r} and {b!r}"
        for i, (x, y) in enumerate(zip(a.a, b.a)):
            z = difference(x, y, f"{path}.{a.n}{i}")
            if z:
                return z
        return None
    if isinstance(a, tuple) and isinstance(b, tuple):
        for i, (x, y) in enumerate(zip(a, b)):
            z = difference(x, y, f"{path}[{i}]")
            if z:
                return z
        return f"{path}: {len(a)} and {len(b)} items" if len(a) != len(b) else None
    return None if type(a) is type(b) and a == b else f"{path}: {a!r} and {b!r}"


def main():
    parser = argparse.ArgumentParser()
    parser.add_argument("--front-end", required=True)
    parser.add_argument("--seeds", nargs=2, type=int)
    parser.add_argument("--size", type=int, default=3)
    parser.add_argument("--built", type=int, default=3)
    parser.add_argument("sources", nargs="*")
    a = parser.parse_args()
    modules = image_by_front_end.modules_of(a.front_end)
    import lex, parse, tree
    convert = Converter(tree)
    program_of = definition("ada_image.specs.ImageOfUnits", "program_of")
    same, other = 0, 0

    def cases():
        if a.seeds:
            import gen
            for seed in range(*a.seeds):
                yield f"seed {seed}", gen.generate(seed, a.size, a.built)[0]
        else:
            for path in a.sources:
                with open(path, encoding="latin-1") as f:
                    yield path, f.read()

    for title, source in cases():
        source = source.encode("latin-1")
        try:
            want = image_of_data(modules, source)
        except modules["front"].Refused:
            continue
        got = program_of(convert.unit(parse.parse(source, lex.lex(source))))
        x = difference(got, want)
        if x:
            other += 1
            print(f"{title}: {x[:300]}")
        else:
            same += 1
    print(f"{same} the same, {other} not")
    os._exit(other > 0)


if __name__ == "__main__":
    threading.stack_size(512 * 1024 * 1024)
    t = threading.Thread(target=main)
    t.start()
    t.join()
