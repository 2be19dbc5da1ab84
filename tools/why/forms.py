"""Which known form stands at a place of a source: forms.txt says how each is known."""
import re

import blocks
from source_text import RESERVED

NAME = r"[a-z]\w*"
CLASSES = {
    "NAME": NAME, "MARK": rf"{NAME}(?: \. {NAME})*", "NUMBER": r"\d\S*", "BASED": r"\d\S*#\S*",
    "EXPONENT": r"\d[\d_.]*e\S*", "FINE": r"[\d_]+\.\d{7,}", "TEXT": '""', "ANY": r"\S+",
    "RESERVED": "(?:" + "|".join(sorted(RESERVED)) + ")",
}
SKIPS = {"SKIP": r"(?:[^; ]+ )*?", "INNER": r"(?:(?!begin |end )\S+ )*?"}
MOST_TOKENS = 300


def item(word, missing):
    """A word of a pattern as a regular expression; `missing` are the units that with clauses name and nobody has."""
    if word in SKIPS:
        return SKIPS[word]
    if word == "MISSING":
        return "(?:" + "|".join(sorted(missing)) + ") " if missing else r"(?!)"
    if len(word) > 1 and word.endswith("?"):
        return f"(?:{item(word[:-1], missing)})?"
    if len(word) > 2 and word[0] == "[" and word[-1] == "]":
        return "(?:" + "|".join(re.escape(w) for w in word[1:-1].split("|")) + ") "
    return CLASSES.get(word, re.escape(word)) + " "


def side(words, missing):
    return "".join(item(word, missing) for word in words)


def joined(tokens):
    """Tokens as a pattern sees them: in lower case, each with a space behind it, and texts without their letters."""
    return "".join(('""' if t.text.startswith('"') else t.text) + " " for t in tokens)


class Around:
    """What stands before a place and behind it; a token in which the place lies is on neither side."""

    def __init__(self, tokens, offset):
        self.before = [t for t in tokens if t.end <= offset]
        self.behind = [t for t in tokens if t.start >= offset]
        self.texts = " " + joined(self.before[-MOST_TOKENS:]), joined(self.behind[:MOST_TOKENS])


def fits(pattern, around, missing):
    words = pattern.split()
    at = words.index("@")
    before, behind = side(words[:at], missing), side(words[at + 1:], missing)
    return re.match(behind, around.texts[1]) and re.search(f"(?<= ){before}$", around.texts[0])


def form_at(around, code, missing, holds):
    """The first form that stands at the place of a refusal with this code, or None; `holds` answers whether a condition of
    forms.txt does."""
    for form in blocks.read("forms.txt"):
        for value in form.all("at"):
            wanted, _, pattern = value.partition(" ")
            if wanted == code and fits(pattern, around, missing) and all(map(holds, form.all("when"))):
                return form
    return None
