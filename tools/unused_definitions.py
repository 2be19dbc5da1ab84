#!/usr/bin/env python3
"""Definitions and lemmas of `.antt` files that nothing uses.

    tools/unused_definitions.py          prints them, a file and a name on each line

A name is used where its own file has it outside its clauses, where another file imports it from its module, or where a tactic
in a `.rt` file has it at the end of a path. Answers and invariants are looked up by the kit, and are left alone; what a
ruleset lists counts as used."""
import collections
import pathlib
import re

CRATES = pathlib.Path(__file__).resolve().parent.parent / "crates"
LETTERS = r"A-Za-z_0-9'\-"
NAME = re.compile(r"[A-Za-z_][A-Za-z_0-9'-]*")
DECLARATION = re.compile(rf"^( {{0,2}})(?:pub |abbrev |unfoldable )*({NAME.pattern}) :(?: |$)")
IMPORT = re.compile(r"use ([A-Za-z_][A-Za-z_0-9.]*)\.\{([^}]*)\}")
MODULE_IMPORT = re.compile(r"use (Rattle\.[A-Za-z_0-9.]+)(?: as \w+)?;?\s*$", re.MULTILINE)
PATH = re.compile(r"(\w+)::((?:proofs|specs)(?:::\w+)*)::([A-Za-z_0-9']+)")
LOOKED_UP = {"Answers.antt", "Invariants.antt", "Lib.antt"}


def without_comments(text):
    return "\n".join("" if line.lstrip().startswith(("--", "//")) else line for line in text.split("\n"))


def texts():
    """The text of each file of the crates, by its path below them."""
    files = (file for file in CRATES.rglob("*") if file.suffix in (".antt", ".rt") and "out" not in file.parts)
    return {file.relative_to(CRATES): without_comments(file.read_text()) for file in files}


def module_of(path):
    return "Rattle." + ".".join(path.with_suffix("").parts)


def imported(files):
    """(module, name) of each import and path, and the files that import a module whole, by its name."""
    names, whole = set(), collections.defaultdict(set)
    for path, text in files.items():
        for module, items in IMPORT.findall(text):
            names.update((module, item.split(" as ")[0].strip()) for item in items.split(","))
        for module in MODULE_IMPORT.findall(text):
            whole[module].add(path)
        for crate, below, name in PATH.findall(text):
            crate = path.parts[0] if crate == "crate" else crate
            names.add(("Rattle." + crate + "." + below.replace("::", "."), name))
    return names, whole


def ends(line, indent, name):
    """Whether a line is behind the clauses of a declaration."""
    depth = len(line) - len(line.lstrip())
    own = depth == indent and re.match(rf"(?:{re.escape(name)}(?![{LETTERS}])|unfolding )", line.lstrip())
    return bool(line.strip()) and depth <= indent and not own


def declarations(text):
    """The name of each declaration with clauses, and their lines."""
    lines = text.split("\n")
    for at, line in enumerate(lines):
        found = DECLARATION.match(line)
        if found:
            indent, name = len(found[1]), found[2]
            behind = next((i for i in range(at + 1, len(lines)) if ends(lines[i], indent, name)), len(lines))
            clauses = lines[at + 1 : behind]
            if any(re.match(rf" {{{indent}}}{re.escape(name)}(?![{LETTERS}])", clause) for clause in clauses):
                yield name, [line] + clauses


def occurrences(name, text):
    return sum(word == name for word in NAME.findall(text))


def unused():
    files = texts()
    names, whole = imported(files)
    for path, text in sorted(files.items()):
        if path.suffix != ".antt" or "declared" in path.parts or path.name in LOOKED_UP:
            continue
        module, body = module_of(path), IMPORT.sub("", text)
        for name, block in declarations(body):
            here = occurrences(name, body) > occurrences(name, "\n".join(block))
            if not here and (module, name) not in names and not any(occurrences(name, files[file]) for file in whole[module]):
                yield path, name


for path, name in unused():
    print(path, name)
