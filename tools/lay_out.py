#!/usr/bin/env python3
"""Breaks lines that are too long, and changes no token.

  lay_out.py PATH ..           files, or folders with .antt and .rt files
  lay_out.py --check PATH ..   writes nothing: lists the lines that are too long and that no break shortens

An .antt file under proofs/ ends at 160 columns, one under specs/ at 120, and an .rt file at 100. A line is broken at the
loosest place that it has: behind the `=` of a definition, behind `in`, before an arrow, before an operator, before an argument
in parentheses, and so on into the parts that are still too long. `rattle fmt` of the kit indents what is broken: continued
lines stand 4 columns deeper, and a record, a tuple or an `elim` that is broken has a line for each of its parts. A long `use`
line becomes several of the same module. A comment is wrapped as a comment. Strings, `do` blocks, attributes and Rattle's code
stay as they are (`rt fmt` lays out the code), and so does what program_data.py writes.

Each file that is written has the tokens that it had, but for what `rattle fmt` puts at the end of a broken list (a comma or a
semicolon before the bracket, a bar before the first case), and the words of its comments.
"""
import json
import os
import re
import shutil
import subprocess
import sys
import tempfile

WIDTHS = {"proofs": 160, "specs": 120, "rt": 100}
RATTLE = os.path.join(os.path.dirname(os.path.realpath(shutil.which("rt") or "rt")), "rattle")
# what program_data.py writes stays as it writes it
MADE = re.compile(r"/crates/machine_(rows|laws)/(specs/Rows|src/rows)\b")
LEX = re.compile(r'"(?:[^"\\]|\\.)*"|«[^»]*»|[(){}.;,@]|[^\s(){}.;,@"«»]+')
CLOSERS = {"(": ")", "{": "}", "[": "]"}
# the loosest operators first; one that is not listed is the tightest
OPERATORS = [
    ["then", "else"],
    ["▶", "▷", ">>=", ">>", "↵"],
    ["⊎"],
    ["×"],
    ["≡", "≢", "≤", "<", "≥", ">", "=="],
    ["||"],
    ["&&"],
    ["∙"],
    ["++", "∷"],
    ["+", "-"],
    ["*", "/", "%"],
]
LISTED = {word: level for level, words in enumerate(OPERATORS) for word in words}
NO_OPERATOR = {"=", ":", "|", "↦", "→", "_", "[", "]", "[]", "⊥", "λ", "--", "?", "¬", "-", "←"}


class Group:
    """What stands in brackets: the opening and the closing one, which may be missing, and the items between."""

    def __init__(self, opening, items, closing, kind):
        self.opening, self.items, self.closing, self.kind = opening, items, closing, kind

    def flat(self):
        inner = flat(self.items)
        if self.opening == "[" or self.kind in ("braces", "record"):
            return f"{self.opening} {inner} {self.closing}" if inner else f"{self.opening} {self.closing}"
        return f"{self.opening}{inner}{self.closing}"


class Item:
    """What has no space in it at its own depth: words and groups in a row."""

    def __init__(self):
        self.parts = []

    def flat(self):
        return "".join(part if isinstance(part, str) else part.flat() for part in self.parts)

    def word(self):
        """Returns the text of an item with no group."""
        return "".join(self.parts) if all(isinstance(part, str) for part in self.parts) else ""

    def group(self):
        return next((part for part in self.parts if isinstance(part, Group)), None)


def flat(items):
    return " ".join(item.flat() for item in items)


def parsed(text):
    """Returns the items of a line; None where it has a comment or what the words do not cover."""
    levels = [("", [])]
    tight = False
    end = 0
    for found in LEX.finditer(text):
        between = text[end : found.start()]
        if between.strip():
            return None
        end = found.end()
        word = found[0]
        if word.startswith("--"):
            return None
        tight = not between and found.start() > 0
        items = levels[-1][1]
        if word in ("]", ")", "}"):
            opening, inner = levels.pop()
            if opening and CLOSERS[opening] != word:
                return None
            if not levels:
                levels.append(("", []))
            outer = levels[-1][1]
            spaced = bool(between) and word == "}"
            made = Group(opening, inner, word, "")
            made.kind = kind_of(made, outer[:-1] if outer and outer[-1].parts == [None] else outer, spaced)
            if outer and outer[-1].parts and outer[-1].parts[-1] is None:
                outer[-1].parts[-1] = made
            else:
                item = Item()
                item.parts.append(made)
                outer.append(item)
            continue
        # the first word behind a bracket begins an item of its own
        if not (tight and items):
            items.append(Item())
        if word in ("(", "{", "["):
            items[-1].parts.append(None)
            levels.append((word, []))
        else:
            items[-1].parts.append(word)
    if text[end:].strip():
        return None
    while len(levels) > 1:
        opening, inner = levels.pop()
        made = Group(opening, inner, "", "")
        made.kind = "open"
        levels[-1][1][-1].parts[-1] = made
    return levels[0][1]


def ends(item, mark):
    return bool(item.parts) and item.parts[-1] == mark


def kind_of(group, before, spaced):
    if not group.opening:
        return "open"
    if group.opening == "(":
        return "tuple" if any(ends(item, ",") for item in group.items) else "plain"
    if group.opening == "[":
        return "cases"
    words = [item.word() for item in before[-2:]]
    if words[-1:] == ["record"] or words[-2:-1] == ["record"] or (len(before) > 1 and before[-2].word() == "record"):
        return "record"
    return "braces" if spaced else "plain"


def is_operator(item):
    word = item.word()
    if word in LISTED:
        return True
    if not word or word in NO_OPERATOR or "◌" in word or '"' in word:
        return False
    return not any(each.isalnum() or each in "_'.;,«»?" for each in word)


def matching_in(items, at):
    depth = 0
    for place in range(at, len(items)):
        word = items[place].word()
        depth += (word == "let") - (word == "in")
        if depth == 0:
            return place
    return None


def split(items):
    """Returns the parts of a row of items at its loosest places, and how the last of them is set."""
    words = [item.word() for item in items]
    if "do" in words or len(items) < 2:
        return [items], ""
    # what runs on to the end of the row
    for at, word in enumerate(words):
        if word == "λ":
            dots = [place for place in range(at, len(items) - 1) if ends(items[place], ".")]
            if dots and (at == 0 or "=" not in words[:at]):
                return [items[: dots[0] + 1], items[dots[0] + 1 :]], "body"
            break
        if word == "let":
            close = matching_in(items, at)
            if close is not None and close + 1 < len(items):
                if at and "=" not in words[:at]:
                    return [items[:at], items[at : close + 1], items[close + 1 :]], "let"
                if at == 0:
                    return [items[: close + 1], items[close + 1 :]], "let"
            break
        if word in ("=", "↦"):
            break
    for mark in ("=", "↦"):
        if mark in words and words.index(mark) + 1 < len(items):
            at = words.index(mark) + 1
            return [items[:at], items[at:]], "eq"
    if ":" in words and 0 < words.index(":") < len(items) - 1:
        at = words.index(":") + 1
        head = [items[:at]]
        if len(flat(items[:at])) > 80:
            head = split_call(items[:at])
        if words[0] in ("pub", "record", "data", "module", "let") and len(head) > 1:
            return head + [items[at:]], ""
        rest = split(items[at:])[0]
        return head[:-1] + [head[-1] + rest[0]] + rest[1:], ""
    if "→" in words[1:]:
        return split_at(items, [at for at, word in enumerate(words) if word == "→" and at]), ""
    places = [(LISTED.get(words[at], len(OPERATORS)), at) for at in range(1, len(items)) if is_operator(items[at])]
    if places:
        least = min(places)[0]
        return split_at(items, [at for level, at in places if level == least]), ""
    return split_call(items), "call"


def split_at(items, places):
    marks = [0, *places, len(items)]
    return [items[start:end] for start, end in zip(marks, marks[1:]) if start < end]


def split_call(items):
    """Returns a function's name with the words behind it, and each argument in parentheses with those behind it."""
    places = []
    for at in range(1, len(items)):
        group = items[at].group()
        starts = bool(group) and isinstance(items[at].parts[0], Group) and group.opening == "("
        before = items[at - 1].word()
        if items[at].word() == "record" or (starts and before not in ("elim", "as", "record", "→", "×", "open")):
            if not is_operator(items[at - 1]):
                places.append(at)
        elif items[at].word() == "λ" and not is_operator(items[at - 1]):
            places.append(at)
    if not places:
        places = [at for at in range(1, len(items)) if items[at].group() and items[at].flat().startswith("{")]
        places = [at for at in places if items[at].group().kind == "plain"]
        places = [at for at in places if items[at - 1].word() not in ("record", "open", "use")]
    if not places:
        if any(item.group() and len(item.flat()) > 60 for item in items):
            return [items]
        places = [at for at in range(1, len(items)) if not is_operator(items[at - 1]) and items[at].word()]
        places = [at for at in places if items[at].word() not in ("|", "as")]
        places = [at for at in places if items[at - 1].word() not in ("record", "elim", "as", "open", "λ", "|")]
    return split_at(items, places)


class Page:
    def __init__(self, width, indent):
        self.width, self.lines, self.line = width, [], " " * indent
        self.fresh = True

    def room(self):
        return self.width - len(self.line) - (0 if self.fresh else 1)

    def add(self, text, spaced=True):
        self.line += text if self.fresh or not spaced else " " + text
        self.fresh = False

    def turn(self, indent):
        if self.fresh:
            return
        self.lines.append(self.line)
        self.line, self.fresh = " " * indent, True


def is_list(items):
    """Whether a row ends in brackets whose parts stand on lines of their own."""
    group = items[-1].group() if items else None
    if group is None or group.kind not in ("record", "tuple", "cases"):
        return False
    words = [item.word() for item in items]
    if "λ" in words:
        dots = [at for at, item in enumerate(items) if ends(item, ".")]
        return bool(dots) and is_list(items[dots[-1] + 1 :])
    if group.kind == "tuple":
        return len(items) == 1
    if group.kind == "record":
        return words[0] == "record"
    return words[0] == "elim"


def set_row(page, items, cont, tail):
    text = flat(items)
    if len(text) + tail <= page.room():
        page.add(text)
        return
    parts, how = split(items)
    if len(parts) == 1:
        for at, item in enumerate(items):
            behind = items[at + 1 :]
            rest = 0 if any(it.group() for it in behind) else tail + len(flat(behind)) + bool(behind)
            set_item(page, item, cont, rest)
        return
    broken = False
    for at, part in enumerate(parts):
        last = at + 1 == len(parts)
        behind = tail if last else 0
        size = len(flat(part)) + behind
        if how == "let" and at:
            page.turn(cont)
        elif broken and not (how == "body" and last and size > page.width - cont):
            page.turn(cont)
        if size <= page.room():
            page.add(flat(part))
            continue
        if at and is_list(part) and page.room() >= 20:
            set_row(page, part, cont, behind)
            broken = True
            continue
        if size <= page.width - cont:
            page.turn(cont)
            page.add(flat(part))
            continue
        if at and not (how == "body" and last) and (how != "call" or len(page.line.lstrip()) > 12):
            page.turn(cont)
        set_row(page, part, cont, behind)
        broken = True


def set_item(page, item, cont, tail):
    for at, part in enumerate(item.parts):
        rest = sum(len(it) if isinstance(it, str) else len(it.flat()) for it in item.parts[at + 1 :])
        lead = at == 0
        if isinstance(part, str):
            page.add(part, lead)
            continue
        text = part.flat()
        after = rest + tail if all(isinstance(it, str) for it in item.parts[at + 1 :]) else 1
        if len(text) + after <= page.room():
            page.add(text, lead)
        elif part.kind in ("plain", "open", "braces"):
            space = part.kind == "braces"
            if part.opening:
                page.add(part.opening, lead)
                page.line += " " if space else ""
                page.fresh = True
            set_row(page, part.items, cont, len(part.closing) + 2 * space + after)
            if part.closing:
                page.fresh = False
                page.line += (" " if space else "") + part.closing
        else:
            set_list(page, part, lead)


def set_list(page, group, lead):
    page.add(group.opening, lead)
    base = len(page.line) - len(page.line.lstrip(" "))
    if group.kind == "cases":
        rows = split_at(group.items, [at for at, item in enumerate(group.items) if item.word() == "|" and at])
        for row in rows:
            page.turn(base + 2)
            if row[0].word() != "|":
                page.add("|")
            set_row(page, row, base + 6, 0)
    else:
        mark = "," if group.kind == "tuple" else ";"
        rows = split_at(group.items, [at + 1 for at, item in enumerate(group.items[:-1]) if ends(item, mark)])
        for row in rows:
            page.turn(base + 2)
            set_row(page, row, base + 6, 1)
            if not page.line.endswith(mark):
                page.line += mark
    page.turn(base)
    page.add(group.closing, False)


# ---- lines


def broken_use(line, width):
    found = re.fullmatch(r"( *(?:pub )?(?:ghost )?use [^{]*\{)([^{}]*)(\};?)", line)
    if not found:
        return None
    names, least = found[2].split(", "), None
    # the narrowest lines of which no more are needed, so that all are about as long
    for room in range(width, 0, -1):
        rows = [[]]
        for name in names:
            if rows[-1] and len(found[1] + ", ".join([*rows[-1], name]) + found[3]) > room:
                rows.append([])
            rows[-1].append(name)
        if least and len(rows) > len(least):
            break
        least = rows
    return [found[1] + ", ".join(row) + found[3] for row in least]


COMMENT = re.compile(r"(\s*)(--|//[/!]?) (\S.*)")
NO_PROSE = re.compile(r"(---|[-*+] |\d+\. |#|\||```|>|    )")


def wrapped(lines, at, width):
    """Returns the lines that stand for a comment's from at on to the end of its paragraph, and the place behind it."""
    first = COMMENT.fullmatch(lines[at])
    lead = f"{first[1]}{first[2]} "
    words, end = first[3].split(), at + 1
    marked = re.match(r"[-*+] |\d+\. ", first[3])
    hang = " " * len(marked[0]) if marked else ""
    made, line = [], lead
    while True:
        while words:
            word = words.pop(0)
            if line.strip() != lead.strip() and len(line) + len(word) + (not line.endswith(" ")) > width:
                made.append(line.rstrip())
                line = lead + hang
            line += word if line.endswith(" ") else " " + word
        after = COMMENT.fullmatch(lines[end]) if end < len(lines) else None
        if not made or not after or f"{after[1]}{after[2]} " != lead or NO_PROSE.match(after[3]):
            break
        if len(line) > width - 8 and len(lines[end]) <= width:
            break
        words, end = after[3].split(), end + 1
    made.append(line.rstrip())
    return made, end


def broken(line, width):
    indent = len(line) - len(line.lstrip(" "))
    items = parsed(line.strip())
    if not items:
        return [line]
    page = Page(width, indent)
    set_row(page, items, indent + 4, 0)
    page.lines.append(page.line)
    return page.lines


def tokens(text, name):
    """Returns the tokens of a text as rattle reads them; None where it does not parse."""
    path = f"{SCRATCH}/{os.path.basename(name)}"
    with open(path, "w", encoding="utf-8") as it:
        it.write(text)
    ran = subprocess.run([RATTLE, "fmt", "--tokens", path], capture_output=True)
    if ran.returncode:
        return None
    rows = [row.split(b" ", 4) for row in ran.stdout.splitlines()[1:]]
    return [(int(row[0]), row[3].decode(), json.loads(row[4])) for row in rows]


def same_words(text, name):
    """Returns what must not change: the tokens, but for those that end a broken list, and the words of comments."""
    found = [word for _, _, word in tokens(text, name) or []]
    kept = []
    for at, word in enumerate(found):
        after = found[at + 1] if at + 1 < len(found) else ""
        if word in (",", ";") and after in (")", "}"):
            continue
        if word == "|" and kept and kept[-1] == "[":
            continue
        kept.append(word)
    # use lines of one module in a row are one
    joined = re.sub(r"(\n(?:pub )?(?:ghost )?use \n[^\n{]*\n\.\n\{\n)", r"\1", "\n".join(kept))
    comments = []
    for line in text.split("\n"):
        found = re.fullmatch(r"\s*(--|//[/!]?)(?: (.*))?", line)
        if found:
            comments += (found[2] or "").split()
    return use_sets(joined.split("\n")), comments


def use_sets(words):
    """Returns the words with the lists of neighbouring use lines of one module joined."""
    text = "\n".join(words) + "\n"
    again = re.compile(
        r"(?<![^\n])((?:pub\n)?(?:ghost\n)?use\n[^\n{}]+\n\.\n\{\n)((?:[^{}])*?)\}\n(;\n)?\1"
    )
    while True:
        found = again.search(text)
        if not found:
            return text
        text = text[: found.start()] + found[1] + found[2] + ",\n" + text[found.end() :]


def formatted(text, name):
    path = f"{SCRATCH}/{os.path.basename(name)}"
    with open(path, "w", encoding="utf-8") as it:
        it.write(text)
    ran = subprocess.run([RATTLE, "fmt", path], capture_output=True)
    return ran.stdout.decode() if ran.returncode == 0 else None


def is_antt(name, text):
    """Returns the lines, from 1, whose tokens are all antt's."""
    if name.endswith(".antt"):
        return None
    code, found = set(), set()
    for line, kind, word in tokens(text, name) or []:
        (found if kind in ("Antt", "Text", "Head", "End") else code).add(line)
        if word in ("⟦", "⟧"):
            code.add(line)
    return found - code


def pass_over(text, name, width, skipped):
    lines, made, at = text.split("\n"), [], 0
    antt = is_antt(name, text)
    fence = False
    while at < len(lines):
        line = lines[at]
        if "```" in line and COMMENT.fullmatch(line):
            fence = not fence
        if len(line) <= width or line in skipped:
            made.append(line)
            at += 1
        elif COMMENT.fullmatch(line) and not fence and not re.match(r"\||#", COMMENT.fullmatch(line)[3]):
            more, at = wrapped(lines, at, width)
            made += more
        elif re.match(r" *(pub )?(ghost )?use ", line):
            made += broken_use(line, width) or [line]
            at += 1
        elif antt is None or at + 1 in antt:
            made += broken(line, width)
            at += 1
        else:
            made.append(line)
            at += 1
    return "\n".join(made)


def laid_out(text, name, width):
    """Returns the text with its long lines broken, and stable under rattle fmt."""
    before = same_words(text, name)
    skipped = set()
    for _ in range(12):
        made = pass_over(text, name, width, skipped)
        if made == text:
            break
        new = formatted(made, name)
        if new is None or same_words(new, name) != before:
            # some line cannot be broken as it was: find which
            bad = 0
            for line in [it for it in text.split("\n") if len(it) > width and it not in skipped]:
                others = {it for it in text.split("\n") if len(it) > width and it != line}
                alone = formatted(pass_over(text, name, width, others), name)
                if alone is None or same_words(alone, name) != before:
                    skipped.add(line)
                    bad += 1
            if not bad:
                return text
            continue
        if new == text:
            break
        text = new
    return text


def main(words):
    global SCRATCH
    check = "--check" in words
    files = []
    for path in [word for word in words if word != "--check"]:
        if os.path.isfile(path):
            files.append(path)
        for folder, _, names in os.walk(path):
            files += [f"{folder}/{name}" for name in names if name.endswith((".antt", ".rt"))]
    files = [file for file in files if not MADE.search(os.path.abspath(file))]
    count = [0, 0]
    status = 0
    with tempfile.TemporaryDirectory() as SCRATCH:
        for file in sorted(files):
            kind = "rt" if file.endswith(".rt") else "specs" if "/specs/" in os.path.abspath(file) else "proofs"
            width = WIDTHS[kind]
            with open(file, encoding="utf-8") as it:
                text = it.read()
            long = sum(len(line) > width for line in text.split("\n"))
            if not long:
                continue
            new = laid_out(text, file, width)
            left = [(at, line) for at, line in enumerate(new.split("\n"), 1) if len(line) > width]
            count[0] += long
            count[1] += len(left)
            for at, line in left:
                print(f"{file}:{at}: {len(line)} columns: {line.strip()[:60]}")
            if new != text and same_words(new, file) != same_words(text, file):
                print(f"{file}: the tokens would not be the same: left as it is")
                status = 1
            elif new != text and not check:
                with open(file, "w", encoding="utf-8") as it:
                    it.write(new)
    print(f"{count[0]} lines were too long, {count[1]} are")
    return status or (check and count[1] > 0)


if __name__ == "__main__":
    if len(sys.argv) < 2:
        sys.exit(__doc__)
    sys.exit(main(sys.argv[1:]))
