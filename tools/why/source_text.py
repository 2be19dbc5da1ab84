"""A source as text: its tokens, where a place is, and how the line of a place is shown.

The tokens are those of the profile, read more kindly: a number has its base and exponent, and any other byte is a token of
its own, so that every source has a list of them. A source is bytes; here each byte is a character.
"""
import re

RESERVED = frozenset("""abort abs abstract accept access aliased all and array at begin body case constant declare delay delta
digits do else elsif end entry exception exit for function generic goto if in interface is limited loop mod new not null of
or others out overriding package pragma private procedure protected raise range record rem renames requeue return reverse
select separate some subtype synchronized tagged task terminate then type until use when while with xor""".split())
TOKEN = re.compile(
    r'--[^\n]*|"(?:[^"\n]|"")*"|[A-Za-z]\w*|\d[\w#]*(?:\.\d[\w#]*)?(?:(?<=[eE])[+-]\d+)?'
    r"|=>|\.\.|:=|/=|>=|<=|[^\s]", re.ASCII)
WIDEST = 96


class Token:
    def __init__(self, raw, start):
        self.raw, self.start, self.end = raw, start, start + len(raw)
        self.text = raw.lower()

    def is_word(self):
        return self.text[:1].isalpha()

    def is_name(self):
        return self.is_word() and self.text not in RESERVED


def tokens_of(text):
    """The tokens of a text, without comments."""
    return [Token(m.group(), m.start()) for m in TOKEN.finditer(text) if not m.group().startswith("--")]


def line_of(text, offset):
    """The line in which a byte stands, from 1."""
    return text.count("\n", 0, offset) + 1


def offset_of(text, line, column):
    """Where a place is, or the end of the text."""
    start = 0
    for _ in range(line - 1):
        start = text.find("\n", start) + 1
        if start == 0:
            return len(text)
    return min(start + column - 1, len(text))


def printable(bytes_as_text):
    """What a terminal shows of these bytes: tabs are spaces, and what cannot be printed is a question mark."""
    shown = bytes_as_text.encode("latin-1").decode("utf-8", "replace").replace("\ufffd", "?")
    return "".join(" " if c == "\t" else c if c.isprintable() else "?" for c in shown)


def shown_line(text, line, column=None):
    """The line of a place with its number, and a caret below the place; a long line is cut round it."""
    lines = text.split("\n")
    whole = lines[line - 1] if line <= len(lines) else ""
    whole = whole[:-1] if whole.endswith("\r") else whole
    before = printable(whole[:column - 1] if column else "")
    shown = before + printable(whole[column - 1:] if column else whole)
    if len(before) > WIDEST - 16:
        cut = len(before) - WIDEST // 2
        before, shown = ".." + before[cut:], ".." + shown[cut:]
    if len(shown) > WIDEST:
        shown = shown[:WIDEST - 2] + ".."
    number = str(line)
    said = [f"{number} | {shown}".rstrip()]
    if column:
        said.append(" " * len(number) + " | " + " " * len(before) + "^")
    if column and not whole.strip() and line > 1:
        above = [n for n in range(line - 1, 0, -1) if lines[n - 1].strip()]
        said[:0] = [f"{above[0]:>{len(number)}} | {printable(lines[above[0] - 1])[:WIDEST].rstrip()}"] if above else []
    return "\n".join(said)
