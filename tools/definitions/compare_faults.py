#!/usr/bin/env python3
"""Compares the legality faults of a source by the definitions of `ada_legality` with what a front end in Python answers.

    tools/definitions/compare_faults.py --front-end FOLDER SOURCE..          the first fault, its code and place
    tools/definitions/compare_faults.py --front-end FOLDER --seeds FIRST LAST --size N    the same of generated sources
    tools/definitions/compare_faults.py --front-end FOLDER --table FILE      a table of sources against its own answers
    tools/definitions/compare_faults.py --front-end FOLDER --tell FILE       such a table against the front end's answers
    .. --all               all faults of each source, and not the first alone (not of a table)
    .. --changed N SEED    of each source, N changed ones too: a name, a number, an operator or any token is another one

FOLDER is that of ../image_by_front_end.py, which also has a generator. A table has for each source a
line `## none TITLE` or `## L6 LINE:COLUMN TITLE`, and the source behind it; `@N TEXT@` in a source stands for TEXT N times, in
which `#` is the number of the turn. Sources that are no trees, or whose names have a fault, are counted and left.
"""
import argparse
import os
import random
import re
import sys
import threading

sys.dont_write_bytecode = True
sys.path.insert(0, os.path.dirname(os.path.abspath(__file__)))
from antt import definition
from tree_value import Converter

ALL_FORMS = 17    # the front end in Python has forms that it does not run yet, by this number; here all are asked


def words(fault):
    return "none" if fault is None else f"L{fault[1]} {fault[0][0]}:{fault[0][1]}"


def repeated(source):
    """The source with what stands between marks repeated."""
    return re.sub(r"@(\d+) (.*?)@", lambda m: "".join(m[2].replace("#", str(i)) for i in range(1, int(m[1]) + 1)), source, flags=re.S)


def table_of(path):
    title, source = None, ""
    with open(path, encoding="latin-1") as f:
        for line in f:
            if line.startswith("## "):
                if title:
                    yield title, repeated(source)
                title, source = line[3:].strip(), ""
            elif not line.startswith("# "):
                source += line
    yield title, repeated(source)


TOKEN = re.compile(r'\s+|--[^\n]*|"(?:[^"\n]|"")*"|\d[\d_.]*|\w+|[=:/<>.]{1,2}|.', re.S)
OPERATORS = ("+", "-", "*", "/", "=", "<", ">", "/=", "<=", ">=", "&", "and", "or", "xor", "mod", "rem")
OTHERS = ("1", "1.5", "True", "null", '"a"', "Integer", "Boolean", "Duration", "Natural", "Constraint_Error", "99999999999", "(1)", "-1", "not True")


def changed(source, random, reserved):
    """The source with one name, number or operator replaced by another one of it, or with a token dropped or doubled."""
    tokens = TOKEN.findall(source)
    names = [i for i, t in enumerate(tokens) if (t[0].isalnum() or t[0] == '"') and t.lower() not in reserved]
    operators = [i for i, t in enumerate(tokens) if t.lower() in OPERATORS]
    draw = random.random()
    if draw < 0.15 and operators:
        tokens[random.choice(operators)] = random.choice(OPERATORS)
    elif draw < 0.3:
        at = random.choice([i for i, t in enumerate(tokens) if t.strip()])
        tokens[at] = random.choice(["", tokens[at] + " " + tokens[at]])
    else:
        tokens[random.choice(names)] = random.choice(OTHERS) if draw < 0.5 else tokens[random.choice(names)]
    return "".join(tokens)


def main():
    parser = argparse.ArgumentParser()
    parser.add_argument("--front-end", required=True)
    parser.add_argument("--table")
    parser.add_argument("--tell")
    parser.add_argument("--seeds", nargs=2, type=int)
    parser.add_argument("--size", type=int, default=3)
    parser.add_argument("--changed", nargs=2, type=int, default=[0, 1])
    parser.add_argument("--all", action="store_true")
    parser.add_argument("sources", nargs="*")
    a = parser.parse_args()
    sys.path.append(a.front_end)
    import legal, lex, names, parse, tree
    convert = Converter(tree)
    names_of = definition("ada_regions.specs.Numbered", "names_of")
    faults_where = definition("ada_legality.specs.Faults", "faults_where")
    number_of_rule = definition("ada_legality.specs.Faults", "number_of_rule")
    same, other, skipped, told = 0, 0, 0, {}

    def given():
        if a.table or a.tell:
            yield from table_of(a.table or a.tell)
        elif a.seeds:
            import gen
            for seed in range(*a.seeds):
                yield f"seed {seed}", gen.generate(seed, a.size, ALL_FORMS)[0]
        else:
            for path in a.sources:
                with open(path, encoding="latin-1") as f:
                    yield path, f.read()

    def cases():
        draw = random.Random(a.changed[1])
        for title, source in given():
            yield title, source
            for i in range(a.changed[0]):
                yield f"{title}, changed {i}", changed(source, draw, lex.RESERVED)

    for title, source in cases():
        source = source.encode("latin-1")
        try:
            t = parse.parse(source, lex.lex(source))
            names.number(t, None)
        except (lex.LexFault, parse.ParseFault, names.NameFault) as fault:
            skipped += 1
            if (a.table or a.tell) and not a.changed[0]:
                print(f"{title}: {fault!r}")
            continue
        u = convert.unit(t)
        got = faults_where(u, names_of(u))
        every = [((f.d["place"].d["line"], f.d["place"].d["column"]), number_of_rule(f.d["rule"])) for f in got]
        got = every[0] if every else None
        if a.table:
            want = None if title.startswith("none ") else (tuple(map(int, title.split()[1].split(":"))), int(title.split()[0][1:]))
        else:
            faults = legal.check(t, ALL_FORMS)
            want = (tuple(faults[0][0]), faults[0][1]) if faults else None
            if a.all:
                theirs = [(tuple(p), r) for p, r in faults]
                if every != theirs:
                    print(f"{title}: also {[words(f) for f in every if f not in theirs]}, and not {[words(f) for f in theirs if f not in every]}")
                    print("    " + source.decode("latin-1").strip().replace("\n", "\n    "))
                    other += 1
                    continue
        told[want and want[1]] = told.get(want and want[1], 0) + 1
        if got != want:
            other += 1
            print(f"{title}: {words(got)}, and not {words(want)}")
            if a.changed[0]:
                print("    " + source.decode("latin-1").strip().replace("\n", "\n    "))
        else:
            same += 1
    print(f"{same} the same, {other} not, {skipped} no trees or without declarations; "
          + ", ".join(f"L{k} {v}" if k else f"none {v}" for k, v in sorted(told.items(), key=lambda x: x[0] or 0)))
    os._exit(other > 0)


if __name__ == "__main__":
    threading.stack_size(512 * 1024 * 1024)
    t = threading.Thread(target=main)
    t.start()
    t.join()
