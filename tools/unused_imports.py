#!/usr/bin/env python3
"""Names that a `.rt` file imports and does not use.

    tools/unused_imports.py          prints them, a line for each file
    tools/unused_imports.py --drop   takes them out of the files; then `rt fmt` in each crate, and a check of it

`rt tidy` does this for `.antt` files alone. A trait that is imported for its methods has to stand in TRAITS, since nothing
names it. Imports that are passed on (`pub use`) and lists in lists are left alone."""
import pathlib
import re
import sys

CRATES = pathlib.Path(__file__).resolve().parent.parent / "crates"
TRAITS = {"FitExpression", "HasForm", "Imaged", "Judge", "LabelledSequence", "MakeSequence", "Read", "Readable", "SequenceHasForm", "Shelf", "Sink", "Spell", "Tell", "TellLabels", "Write"}
IMPORT = re.compile(r"^([ \t]*(?:ghost )?use [^;{}]+)(?:\{([^;{}]*)\})?;[ \t]*\n", re.MULTILINE)


def is_used(item, rest):
    """Whether what an import brings is named in the rest of the file."""
    name = re.split(r"::|(?<=\w)\.", item.split(" as ")[-1].strip())[-1]
    if name in TRAITS or name in ("self", "*"):
        return True
    if "◌" in name:
        return all(part in rest for part in name.split("◌"))
    if name == "[]":
        return name in rest
    return re.search(rf"(?<![\w-]){re.escape(name)}(?![\w-])", rest) is not None


def pruned(text):
    """The text without the imports that it does not use, and what they bring."""
    code = re.sub(r"//[^\n]*", lambda comment: " " * len(comment.group()), text)
    unused = []
    for found in reversed(list(IMPORT.finditer(code))):
        rest = code[:found.start()] + code[found.end():]
        is_list = found.group(2) is not None
        items = [item.strip() for item in (found.group(2) if is_list else found.group(1).split("use ", 1)[1]).split(",")]
        items = [item for item in items if item]
        kept = [item for item in items if is_used(item, rest)]
        if kept != items:
            unused += [item for item in items if item not in kept]
            line = f"{found.group(1)}{{{', '.join(kept)}}};\n" if kept else ""
            text = text[:found.start()] + line + text[found.end():]
    return text, unused


def main():
    for path in sorted(CRATES.glob("*/src/**/*.rt")):
        text = path.read_text()
        shorter, unused = pruned(text)
        if unused:
            print(f"{path.relative_to(CRATES)}: {', '.join(unused)}")
            if sys.argv[1:] == ["--drop"]:
                path.write_text(shorter)


main()
