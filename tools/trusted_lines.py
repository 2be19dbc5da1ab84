#!/usr/bin/env python3
"""Counts the lines that have to be believed: the definitions that the clauses of `top` reach.

    tools/trusted_lines.py            writes the table of docs/PROVED.md
    tools/trusted_lines.py --check    says whether it is what would be written; status 1 if not

A definition is reached if a clause of `top` names it, or a reached definition does; so is a type of the code that one names,
with the types of its fields. Names are followed through the imports of their files. Lines of comments and empty ones are not
counted. Counts are rounded to 10, so that the page changes only if a definition does so much."""
import collections
import pathlib
import re
import sys

TOP = pathlib.Path(__file__).resolve().parent.parent
CRATES = TOP / "crates"
PAGE = TOP / "docs" / "PROVED.md"
BEGIN, END = "<!-- begin: made by tools/trusted_lines.py -->\n", "<!-- end -->\n"

ROOT = CRATES / "annexd" / "src" / "whole.rt"
OUTSIDE = CRATES / "ann_base" / "src" / "outside.rt"
HOST = [CRATES / "outside_host" / "src" / "host.rt", CRATES / "annexd" / "src" / "main.rt"]

IMPORT = re.compile(r"^(?:ghost )?use Rattle\.([\w.]+)\.\{([^}]*)\}", re.MULTILINE)
MODULE = re.compile(r"^(?:ghost )?use Rattle\.([\w.]+) as (\w+)", re.MULTILINE)
DEFINITION = re.compile(
    r"^(?:(?:abbrev |unfoldable |pub )*(?:(?:record|data) (\w+)|(?!module)([^\s:{]+) :)|  (?:abbrev |unfoldable )(?:pub )?([^\s:{]+) :)",
    re.MULTILINE,
)
TYPE = re.compile(r"^(?:pub (?:struct|enum|type|const)|impl Model for) (\w+)", re.MULTILINE)
MEMBER = re.compile(r"^ +(?:pub )?([A-Za-z]\w*) :", re.MULTILINE)
WORD = re.compile(r"[^\s(){}\[\],;.:]+")


def lines_of(text):
    """How many lines of a text say something."""
    lines = (line.strip() for line in text.split("\n"))
    return sum(bool(line) and not line.startswith(("--", "//", "use ", "ghost use ", "#")) for line in lines)


def blocks(pattern, text):
    """(name, text) of each piece of a file that begins where the pattern finds a name."""
    found = list(pattern.finditer(text))
    ends = [match.start() for match in found[1:]] + [len(text)]
    return [(next(filter(None, match.groups())), text[match.start() : end]) for match, end in zip(found, ends)]


def types(text):
    """(name, text) of each type of a file of code, with the model by which contracts see it."""
    found = {}
    for name, block in blocks(TYPE, text):
        end = "\n}\n" if "{" in block.split("\n")[0] else ";\n"
        found[name] = found.get(name, "") + block.partition(end)[0] + end
    return found.items()


class Reached:
    """What is reached so far: the blocks by file and name."""

    def __init__(self):
        self.files, self.seen, self.ahead = {}, {}, []

    def file(self, path):
        """The blocks of a file by name, and what its imports name, by the word that it uses."""
        if path not in self.files:
            text = path.read_text()
            found = {}
            for name, block in types(text) if path.suffix == ".rt" else blocks(DEFINITION, text):
                found.setdefault(name, block)
                if re.match(r"(?:pub )?(?:record|data) ", block):
                    for member in MEMBER.findall(block):
                        found.setdefault(member, block)
            self.files[path] = (found, self.imports(text))
        return self.files[path]

    def imports(self, text):
        names = {}
        for module, items in IMPORT.findall(text):
            for item in items.split(","):
                name, _, own = item.strip().partition(" as ")
                names[own or name] = (module, name)
        for module, own in MODULE.findall(text):
            names[own] = (module, None)
        return names

    def path_of(self, module):
        """The file of a module, and the type where the module is one of the code."""
        parts = module.split(".")
        if len(parts) < 3 or parts[1] != "specs" or not (CRATES / parts[0]).exists():
            return None, None
        if parts[2] != "declared":
            return (CRATES / parts[0] / "specs").joinpath(*parts[2:]).with_suffix(".antt"), None
        rest = [part for part in parts[3:] if part not in ("TheVariants", "TheConstants")]
        for length in range(len(rest), 0, -1):
            path = (CRATES / parts[0] / "src").joinpath(*rest[:length]).with_suffix(".rt")
            if path.exists():
                return path, (rest[length:] or [None])[0]
        return None, None

    def reach(self, path, name):
        found = self.file(path)[0] if path and path.exists() else {}
        if name in found and (path, found[name]) not in self.seen:
            self.seen[path, found[name]] = name
            self.ahead.append((path, found[name]))

    def follow(self, path, text):
        """Reaches all that a piece of a file names."""
        found, names = self.file(path)
        for word in set(WORD.findall(text)) | {f"◌{sign}◌" for sign in WORD.findall(text) if not sign.isalnum()}:
            if word in names:
                module, name = names[word]
                file, kind = self.path_of(module)
                self.reach(file, kind or name)
            elif word in found:
                self.reach(path, word)
            elif path.suffix == ".rt" and word[0].isupper():
                for other in sorted((CRATES / path.relative_to(CRATES).parts[0] / "src").rglob("*.rt")):
                    self.reach(other, word)

    def all(self):
        while self.ahead:
            path, text = self.ahead.pop()
            self.follow(path, text)
        return self.seen


def counted():
    """The lines that are reached, by crate."""
    reached = Reached()
    text = ROOT.read_text()
    reached.follow(ROOT, "\n".join(line for line in text.split("\n") if not line.startswith(("use ", "ghost use "))))
    reached.follow(OUTSIDE, OUTSIDE.read_text())
    lines = collections.Counter()
    for path, block in reached.all():
        lines[path.relative_to(CRATES).parts[0]] += lines_of(block)
    return lines


def table():
    lines = counted()
    order = sorted(lines, key=lambda crate: -lines[crate])
    rows = ["| crate | lines of definitions and types |", "|---|---|"]
    rows += [f"| `{crate}` | {max(10, round(lines[crate], -1)):,} |" for crate in order]
    rows.append(f"| all | {round(sum(lines.values()), -1):,} |")
    host = sum(lines_of(file.read_text()) for file in HOST)
    rows += ["", f"The host's lines, `outside_host` and `main`, are {round(host, -1)} more."]
    return "\n".join(rows) + "\n"


def main(words):
    if words not in ([], ["--check"]):
        print(__doc__.split("\n\n")[1], file=sys.stderr)
        return 2
    made, text = table(), PAGE.read_text()
    before, begin, rest = text.partition(BEGIN)
    _, end, behind = rest.partition(END)
    if not begin or not end:
        print(f"docs/PROVED.md lacks the line {BEGIN.strip()} or {END.strip()}", file=sys.stderr)
        return 2
    page = before + BEGIN + "\n" + made + "\n" + END + behind
    if words:
        if page != text:
            print("docs/PROVED.md has other numbers of lines: run tools/trusted_lines.py")
        return int(page != text)
    PAGE.write_text(page)
    return 0


if __name__ == "__main__":
    sys.exit(main(sys.argv[1:]))
