#!/usr/bin/env python3
"""Prints each crate in a line, by the groups of crates.txt.

    tools/crate_table.py              prints the table
    tools/crate_table.py --follows    prints which files of definitions each crate follows

A group is a comment of crates.txt. A crate's line is the beginning of its root file, `src/lib.rt` or `src/main.rt`, up to the
first period, semicolon or colon, without clauses of the standard; what stands before a colon is kept with what is behind it if
it has three words at most. A crate follows a file of definitions if a definition there has the name of one of its functions,
whose contract cites it."""
import collections
import pathlib
import re
import sys

TOP = pathlib.Path(__file__).resolve().parent.parent
CRATES = TOP / "crates"

IMPORT = re.compile(r"ghost use Rattle\.(\w+)\.specs\.(\w+)\.\{([^}]*)\}")
FUNCTION = re.compile(r"^\s*(?:pub(?:\(crate\))? )?fn (\w+)", re.MULTILINE)


def groups(text):
    """(title, crates) of each group of crates.txt, in its order; the first comment is the file's own."""
    found, title = [], None
    for line in text.split("\n"):
        if line.startswith("# "):
            title = line[2:].strip()
        elif ":" in line:
            if not found or found[-1][0] != title:
                found.append((title, []))
            found[-1][1].append(line.split(":")[0].strip())
    return found


def root_file(crate):
    files = [CRATES / crate / "src" / name for name in ("lib.rt", "main.rt")]
    return next((file for file in files if file.exists()), None)


def first_paragraph(text):
    """The first paragraph of a file's own comment, in one line."""
    lines = []
    for line in text.split("\n"):
        if not line.startswith("//!") or line.strip() == "//!":
            break
        lines.append(line[3:].strip())
    return " ".join(lines)


def beginning(text):
    """What a paragraph begins with, as the line of a crate."""
    text = re.sub(r" \((?=[^()]*\d)[^()]*\)", "", text.replace("ISO/IEC 8652:2012, ", ""))
    sentence = re.split(r"\. (?=[A-Z`])|; ", text.rstrip("."))[0]
    before, _, behind = sentence.partition(": ")
    return sentence if behind and len(before.split()) <= 3 else before


def line_of(crate):
    """What the root of a crate says of it, in a line; empty if it says nothing."""
    file = root_file(crate)
    return beginning(first_paragraph(file.read_text())) if file else ""


def followed(crate):
    """The definitions of other crates whose names this crate's functions have and cite, by crate and file."""
    found = collections.defaultdict(set)
    for file in sorted((CRATES / crate / "src").rglob("*.rt")):
        text = file.read_text()
        functions = set(FUNCTION.findall(text))
        for owner, stem, names in IMPORT.findall(text):
            if owner != crate and (CRATES / owner / "specs").exists():
                if functions.intersection(re.split(r",\s*", names)):
                    found[owner].add(stem)
    return "; ".join(f"`{owner}`: {', '.join(sorted(found[owner]))}" for owner in sorted(found))


def follows(listed):
    lines = [(crate, followed(crate)) for _, crates in listed for crate in crates]
    return "\n".join(f"{crate}: {files}" for crate, files in lines if files)


def table(listed):
    """The groups, each with its title and a line for each of its crates; the lines begin in one column."""
    width = max(len(crate) for _, crates in listed for crate in crates)
    pieces = [[title[0].upper() + title[1:], *(f"  {crate:{width}}  {line_of(crate)}" for crate in crates)] for title, crates in listed]
    return "\n\n".join("\n".join(piece) for piece in pieces)


def main(words):
    if words not in ([], ["--follows"]):
        print(__doc__.split("\n\n")[1], file=sys.stderr)
        return 2
    listed = groups((TOP / "crates.txt").read_text())
    print(follows(listed) if words else table(listed))
    return 0


if __name__ == "__main__":
    sys.exit(main(sys.argv[1:]))
