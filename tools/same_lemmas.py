#!/usr/bin/env python3
"""Lemmas of `proofs/` that stand twice: with the same statement but for the names of bound variables.

    tools/same_lemmas.py                    those of the crates that have the same text too, a line for each group
    tools/same_lemmas.py --library FILE     those whose statement is one of this file of lemmas, as KIT/std/proofs/lemmas/Bool.antt

The same words may come from different modules, so a group is a place to look. What stands in a list of parameters or under
`where` is left out."""
import argparse
import collections
import pathlib
import re

CRATES = pathlib.Path(__file__).resolve().parent.parent / "crates"
STATEMENT = re.compile(r"(?:abbrev |unfoldable )?(?:pub )?([A-Za-z_][\w'-]*) : (.*)$")
BINDER = re.compile(r"([({])([\w' -]+?) : ([^(){}]+)([)}])")
NAME = re.compile(r"(?<![\w'.-])[A-Za-z_][\w'-]*")


def apart(binder):
    """`(a b : X)` as `(a : X) (b : X)`."""
    opening, names, kind, closing = binder.groups()
    return " ".join(f"{opening}{name} : {kind}{closing}" for name in names.split())


def with_numbers(statement):
    """The statement with numbers for its bound variables."""
    statement = BINDER.sub(apart, statement)
    numbers = {}
    for binder in re.finditer(r"[({]([\w'-]+) : ", statement):
        numbers.setdefault(binder[1], f"v{len(numbers)}")
    return NAME.sub(lambda found: numbers.get(found[0], found[0]), statement)


def lemmas(file):
    """(name, statement, clauses) of each lemma of a file."""
    lines = file.read_text().split("\n")
    for place, line in enumerate(lines):
        if found := STATEMENT.match(line):
            name, end = found[1], place + 1
            while end < len(lines) and lines[end].startswith((" ", name + " ", "unfolding ")):
                end += 1
            clauses = re.sub(rf"(?<![\w'.-]){re.escape(name)}(?![\w'-])", "itself", "\n".join(lines[place + 1:end]))
            yield name, with_numbers(found[2]), clauses


def main():
    parser = argparse.ArgumentParser(description=__doc__, formatter_class=argparse.RawDescriptionHelpFormatter)
    parser.add_argument("--library", type=pathlib.Path)
    library = parser.parse_args().library
    theirs = {statement: name for name, statement, _ in lemmas(library) if "→" in statement} if library else {}
    groups = collections.defaultdict(list)
    for file in sorted(CRATES.glob("*/proofs/**/*.antt")):
        for name, statement, clauses in lemmas(file):
            place = f"{file.relative_to(CRATES)} {name}"
            if statement in theirs:
                print(f"{place} = {theirs[statement]} | {statement}")
            elif not library and clauses:
                groups[statement, clauses].append(place)
    for (statement, _), places in groups.items():
        if len(places) > 1:
            print(f"{', '.join(places)} | {statement}")


main()
