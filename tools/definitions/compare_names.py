#!/usr/bin/env python3
"""Compares what names denote by the definitions of `ada_regions` with what a front end in Python answers.

    tools/definitions/compare_names.py --front-end FOLDER SOURCE..       the faults, and of sources without one what each name denotes
    tools/definitions/compare_names.py --front-end FOLDER --seeds FIRST LAST --size N --built K    the same of generated sources
    tools/definitions/compare_names.py --front-end FOLDER --table FILE    the faults of a table of sources against its own answers

FOLDER is that of ../image_by_front_end.py, which also has a generator. A table has for each source a
line `## none TITLE` or `## F7 LINE:COLUMN TITLE`, and the source behind it.
"""
import argparse
import os
import sys
import threading

sys.dont_write_bytecode = True
sys.path.insert(0, os.path.dirname(os.path.abspath(__file__)))
from antt import definition
from tree_value import Converter

CODES = {"Unknown": 7, "Twice": 8, "Ambiguous": 9}


def at(place):
    return place.d["line"], place.d["column"]


def fault_of(value):
    """The code and place of an option of a fault."""
    if value.n == "None":
        return None
    f = value.a[0]
    return CODES[f.n], at(f.a[0])


def words(fault):
    return "none" if fault is None else f"F{fault[0]} {fault[1][0]}:{fault[1][1]}"


def table_of_names(names):
    """What the name at each place denotes: the place of its declaration, or what is predefined."""
    out = {}
    for line in names.d["denotations"]:
        for column in line.d["1"]:
            x = column.d["1"]
            place = line.d["0"], column.d["0"]
            out[place] = at(names.d["entities"][x.a[0]].d["place"]) if x.n == "Entity" else "predefined"
    return out


class Uses:
    """The identifiers of a tree in Python that denote something."""

    def __init__(self, tree):
        self.tree, self.seen, self.out = tree, set(), {}

    def walk(self, x):
        if isinstance(x, (list, tuple)):
            for y in x:
                self.walk(y)
        elif isinstance(x, self.tree.Ident):
            if x.decl is not None:
                self.out[tuple(x.place)] = x.decl
        elif type(x).__module__ == "tree" and id(x) not in self.seen:
            self.seen.add(id(x))
            for name in x.__dataclass_fields__:
                if name not in ("decl", "use", "actuals", "type", "static", "oper", "image", "loop", "formal", "end_name"):
                    self.walk(getattr(x, name))


def main():
    parser = argparse.ArgumentParser()
    parser.add_argument("--front-end", required=True)
    parser.add_argument("--table")
    parser.add_argument("--seeds", nargs=2, type=int)
    parser.add_argument("--size", type=int, default=3)
    parser.add_argument("--built", type=int, default=17)
    parser.add_argument("sources", nargs="*")
    a = parser.parse_args()
    sys.path.append(a.front_end)
    import lex, names, parse, tree
    convert = Converter(tree)
    names_of = definition("ada_regions.specs.Numbered", "names_of")
    same, other, skipped, told, compared = 0, 0, 0, {7: 0, 8: 0, 9: 0, None: 0}, 0

    def cases():
        if a.table:
            title, source = None, ""
            with open(a.table, encoding="latin-1") as f:
                for line in f:
                    if line.startswith("## "):
                        if title:
                            yield title, source
                        title, source = line[3:].strip(), ""
                    else:
                        source += line
            yield title, source
        elif a.seeds:
            import gen
            for seed in range(*a.seeds):
                yield f"seed {seed}", gen.generate(seed, a.size, a.built)[0]
        else:
            for path in a.sources:
                with open(path, encoding="latin-1") as f:
                    yield path, f.read()

    for title, source in cases():
        source = source.encode("latin-1")
        try:
            t = parse.parse(source, lex.lex(source))
        except (lex.LexFault, parse.ParseFault):
            skipped += 1
            continue
        table = names_of(convert.unit(t))
        got = fault_of(table.d["fault"])
        if a.table:
            want = None if title.startswith("none ") else (int(title[1]), tuple(map(int, title.split()[1].split(":"))))
        else:
            try:
                names.number(t, None)
                want = None
            except names.NameFault as f:
                want = (f.code, tuple(f.place))
        told[want and want[0]] += 1
        good = got == want
        if not good:
            print(f"{title}: {words(got)}, and not {words(want)}")
        if good and want is None and not a.table:
            uses, mine = Uses(tree), table_of_names(table)
            uses.walk(t)
            for place, d in sorted(uses.out.items()):
                if d.kind == "hidden" or d.kind in ("unit",) and place not in mine:
                    continue
                there = "predefined" if d.predefined else tuple(d.place)
                compared += 1
                if mine.get(place) != there:
                    good = False
                    print(f"{title}: the name at {place} denotes {mine.get(place)}, and not {there} {d}")
        same, other = same + good, other + (not good)
    print(f"{same} the same, {other} not, {skipped} no trees; F7 {told[7]}, F8 {told[8]}, F9 {told[9]}, none {told[None]}; {compared} names compared")
    os._exit(other > 0)


if __name__ == "__main__":
    threading.stack_size(512 * 1024 * 1024)
    t = threading.Thread(target=main)
    t.start()
    t.join()
