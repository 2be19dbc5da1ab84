#!/usr/bin/env python3
"""Computes the law of direct names by the definitions of `source_laws`.

    tools/definitions/names_by_position.py SOURCE..

Prints for each source whether each body of a unit completes one, whether all names stand at places of their own, and whether
each direct name denotes by the table what it means by its position. A table of sources, as `name_table.txt`, counts as those
that stand in it. The status is 1 where the law does not hold of a source whose bodies complete something.
"""
import sys

sys.dont_write_bytecode = True
import interpreter
from antt import definition


def sources_of(path):
    """The sources of a file with their titles: of a table each, else the one."""
    text = interpreter.content(path)
    if text is None:
        sys.exit(f"there is no {path}")
    if not path.endswith(".txt"):
        yield path, text
        return
    for part in text.split(b"\n## ")[1:] if not text.startswith(b"## ") else (b"\n" + text).split(b"\n## ")[1:]:
        title, _, source = part.partition(b"\n")
        yield title.decode("latin-1"), source


def tree_of(source):
    """The tree of a source, or None."""
    tokens = definition("ada_lex.specs.Reading", "tokens_of")(tuple(source))
    if tokens.n != "Ok":
        return None
    lexemes = definition("ada_tree.specs.Written", "lexemes_of")(tuple(source), tokens.a[0])
    tree = definition("ada_grammar.specs.ReadingUnits", "unit_of")(lexemes)
    return tree.a[0] if tree.n == "Ok" else None


def main():
    tests = (("bodies complete", "Regions", "bodies_complete"), ("names apart", "Places", "names_stand_apart"), ("law", "Denoted", "denotes_by_position"))
    counts, broken = {}, False
    for path in sys.argv[1:]:
        for title, source in sources_of(path):
            tree = tree_of(source)
            if tree is None:
                continue
            told = tuple(bool(definition(f"source_laws.specs.{module}", name)(tree)) for _, module, name in tests)
            counts[told] = counts.get(told, 0) + 1
            broken = broken or told[0] and not told[2]
            if not all(told):
                print(f"{title}: " + ", ".join(f"{words} {'yes' if t else 'no'}" for (words, _, _), t in zip(tests, told)), flush=True)
    for told, n in sorted(counts.items(), reverse=True):
        print(f"{n}: " + ", ".join(f"{words} {'yes' if t else 'no'}" for (words, _, _), t in zip(tests, told)))
    return int(broken)


if __name__ == "__main__":
    if len(sys.argv) < 2:
        sys.exit(__doc__)
    sys.exit(interpreter.in_large_stack(main))
