#!/usr/bin/env python3
"""Definitions of `specs/` that say the same: whose clauses are the same but for the names of variables and their own.

    tools/same_definitions.py                    those of the crates, a line for each group
    tools/same_definitions.py --library FOLDER   those that a library has too: FOLDER has its `.antt` files, as KIT/core/specs
    tools/same_definitions.py --lists            those that go through a list by themselves, where a word of the library does

A group is a place to look: definitions of one shape may mean different things. Data that `declared` and `Rows` have is left
out."""
import argparse
import collections
import pathlib
import re

CRATES = pathlib.Path(__file__).resolve().parent.parent / "crates"
DEFINITION = re.compile(r"^( *)(?:abbrev |unfoldable )?(?:pub )?(\S+) : [^\n]*\n((?:^\1\2 [^\n]*\n)+)", re.MULTILINE)
NAME = re.compile(r"[A-Za-z_][A-Za-z0-9_'.]*")
KEPT = set("cond if then else suc zero map filter length true false not record".split())
SHORTEST = 35    # signs of a definition that is compared
BLOCK = re.compile(r"(?:pub )?(?:module|record|data) ")    # what stands deeper below it does not go on with it

# Of a list by itself: the clause of the empty list and the last operator of the other one, and the library's word.
BY_HAND = {("true", "&&"): "list_all", ("false", "||"): "list_any", ("[]", "++"): "flat_map", ("[]", "∷"): "map"}
# The same by a choice: what the empty list gives, what is chosen at an item x, and the word; the rest is gone through otherwise.
BY_CHOICE = {("false", "true"): "list_any", ("None", "Some x"): "find", ("None", "(Some x)"): "find"}
EMPTY = re.compile(r"(\S+) (.*)\[\](.*) = (\S+)$")


def shape(name, clauses):
    """The clauses, with numbers for their variables."""
    lines = []
    for clause in clauses.strip().split("\n"):
        variables = set(re.findall(r"[a-z_][A-Za-z0-9_']*", clause.partition(" = ")[0])) - {name} - KEPT
        numbers = {}

        def shown(found):
            word = found[0]
            if word == name:
                return "itself"
            return numbers.setdefault(word, f"v{len(numbers)}") if word in variables else word

        lines.append(NAME.sub(shown, clause.strip()))
    return "\n".join(sorted(lines))


def depth(line):
    return len(line) - len(line.lstrip())


def in_lines(text):
    """The text with each clause in one line; comments are left out."""
    lines = []
    for line in text.split("\n"):
        if line.lstrip().startswith("--"):
            continue
        before = lines[-1] if lines else ""
        if line.strip() and before.strip() and depth(line) > depth(before) and not BLOCK.match(before.lstrip()):
            lines[-1] += " " + line.strip()
        else:
            lines.append(line)
    return "\n".join(lines) + "\n"


def definitions(files):
    """(shape, file, name, clauses) of each definition."""
    for file in sorted(files):
        if "declared" in file.parts or "Rows" in file.parts:
            continue
        for indent, name, clauses in DEFINITION.findall(in_lines(file.read_text())):
            if len(clauses) >= SHORTEST:
                yield shape(name, clauses), file, name, [clause.strip() for clause in clauses.strip().split("\n")]


def word_for(name, clauses):
    """The library's word that goes through a list as these clauses do, if there is one."""
    empty = EMPTY.match(clauses[0])
    if len(clauses) != 2 or not empty or empty[1] != name:
        return None
    before, behind, base = empty[2].strip(), empty[3].strip(), empty[4]
    more = re.match(rf"{re.escape(name)} {re.escape(before)} ?\((.+) ∷ (\w+)\) ?{re.escape(behind)} = (.+)$", clauses[1])
    if not more:
        return None
    item, rest, clause = more.groups()
    again = " ".join([name, *before.split(), rest, *behind.split()])
    for (left, operator), word in BY_HAND.items():
        ending = re.search(rf"{re.escape(operator)} {re.escape(again)}\)*$", clause)
        if base == left and ending and not re.search(rf"\b(?:{rest}|cond|if|{re.escape(name)})\b", clause[:ending.start()]):
            return word
    for (left, chosen), word in BY_CHOICE.items():
        chosen = re.escape(chosen.replace("x", item))
        if base == left and re.match(rf"(?:cond .+ {chosen} \({re.escape(again)}\)|if .+ then {chosen} else {re.escape(again)})$", clause):
            return word
    return None


def main():
    parser = argparse.ArgumentParser(description=__doc__, formatter_class=argparse.RawDescriptionHelpFormatter)
    parser.add_argument("--library", type=pathlib.Path)
    parser.add_argument("--lists", action="store_true")
    asked = parser.parse_args()
    library, ours = asked.library, CRATES.glob("*/specs/**/*.antt")
    if asked.lists:
        for _, file, name, clauses in definitions(ours):
            if word := word_for(name, clauses):
                print(f"{file.relative_to(CRATES)} {name} = {word} | {clauses[1]}")
        return
    groups = collections.defaultdict(list)
    for key, file, name, clauses in definitions(ours):
        groups[key].append((f"{file.relative_to(CRATES)} {name}", clauses[0]))
    theirs = {key: f"{file.name} {name}" for key, file, name, _ in definitions(library.rglob("*.antt"))} if library else {}
    for key, found in groups.items():
        places = [place for place, line in found]
        if library and key in theirs:
            print(f"{', '.join(places)} = {theirs[key]} | {found[0][1]}")
        elif not library and len(found) > 1:
            print(f"{', '.join(places)} | {found[0][1]}")


main()
