#!/usr/bin/env python3
"""What stands on what: functions by their calls, and crates by their names.

    tools/crate_calls.py CRATE LOWER   the functions of CRATE that reach LOWER by calls, through any crates, and those that do
                                       not. The second could stand in a crate beside LOWER, and be proved while it is proved
    tools/crate_calls.py unused        what crates.txt lists for a crate and no file of that crate names; status 1 if anything

Calls are told by the names of functions alone: a function counts as called where its name stands before a bracket, in a
crate that the caller's stands on. So two functions of one name count as one, and a function that is passed is not seen."""
import collections
import pathlib
import re
import sys

ROOT = pathlib.Path(__file__).resolve().parent.parent
FUNCTION = r"[ \t]*(?:pub(?:\([a-z]+\))? )?fn (\w+)"


def stands_on():
    """The crates that crates.txt lists for each crate."""
    lines = (line.partition("#")[0].partition(":") for line in (ROOT / "crates.txt").read_text().splitlines())
    return {name.strip(): rest.split() for name, colon, rest in lines if colon}


def files(crate, *endings):
    found = (ROOT / "crates" / crate).rglob("*")
    return [file for file in found if file.suffix in endings and "out" not in file.relative_to(ROOT).parts]


def reached(start, ahead):
    """What is reached from these by `ahead`, these among it."""
    found, todo = set(start), list(start)
    while todo:
        for other in ahead(todo.pop()):
            if other not in found:
                found.add(other)
                todo.append(other)
    return found


def functions(crates):
    """The text of each function, by its crate and its name."""
    texts = collections.defaultdict(str)
    for crate in crates:
        for file in files(crate, ".rt"):
            for part in re.split(rf"(?m)^(?={FUNCTION})", file.read_text()):
                if name := re.match(FUNCTION, part):
                    texts[crate, name[1]] += part
    return texts


def calls(texts, below):
    """The functions that each function calls."""
    crates_with = collections.defaultdict(set)
    for crate, name in texts:
        crates_with[name].add(crate)
    called = {}
    for (crate, name), text in texts.items():
        words = set(re.findall(r"\b([a-z_]\w*)\s*(?:::<[^>]*>)?\(", text)) - {name}
        called[crate, name] = {(other, word) for word in words for other in crates_with[word] & below[crate]}
    return called


def reaching(crate, lower):
    crates = stands_on()
    for name in (crate, lower):
        if name not in crates:
            sys.exit(f"crates.txt has no crate {name}")
    below = {name: reached({name}, lambda other: crates.get(other, ())) & crates.keys() for name in crates}
    texts = functions(crates)
    called = calls(texts, below)
    own = sorted(key for key in texts if key[0] == crate)
    reach = [key for key in own if any(other == lower for other, _ in reached({key}, called.get))]
    for says, keys in ("reach", reach), ("do not reach", [key for key in own if key not in reach]):
        lines = sum(len(texts[key].splitlines()) for key in keys)
        print(f"{len(keys)} functions of {crate}, {lines} lines, {says} {lower}: {' '.join(name for _, name in keys)}")


def unused():
    found = False
    for crate, listed in stands_on().items():
        text = "".join(file.read_text() for file in files(crate, ".rt", ".antt"))
        names = [name for name in listed if not re.search(rf"\b{name}\b", text)]
        if names:
            print(f"{crate}: {' '.join(names)}")
            found = True
    return found


if __name__ == "__main__":
    if sys.argv[1:] == ["unused"]:
        sys.exit(unused())
    elif len(sys.argv) == 3:
        reaching(*sys.argv[1:])
    else:
        sys.exit(__doc__)
