"""The tokens of a source: words, numbers, texts and delimiters, each with its place in the bytes.

The rules are those of the front end (crates/ada_lex/specs); check/tools/tokens compares the two on every source of the
repository. The definitions are not asked here, since it takes longer to read them than to run a hundred variants.
"""
import re

PIECE = re.compile(
    rb"(?P<gap>[ \t\f\r\n]+|--[^\n]*)"
    rb"|(?P<word>[A-Za-z](?:_?[A-Za-z0-9])*)"
    rb"|(?P<number>[0-9](?:_?[0-9])*(?:\.[0-9]+)?)"
    rb'|(?P<text>"(?:[ !#-~]|"")*")'
    rb"|(?P<delimiter>=>|\.\.|:=|/=|>=|<=|[&'()*+,\-./:;<=>|])"
)
# what may not follow a token directly
SPOILS = {"word": b"_", "number": b"_#ABCDEFGHIJKLMNOPQRSTUVWXYZabcdefghijklmnopqrstuvwxyz", "text": b'"'}
MAX_SOURCE = 262_144
MAX_WORD = 80


class NoTokens(Exception):
    """The source cannot be read: the place of the first byte at fault."""

    def __init__(self, line, column):
        super().__init__(f"{line}:{column}: no token of Ada begins here")


class Token:
    """A token; it is equal to its text. (Plain classes and tuples serve here, since tools begin sooner than with `dataclasses`.)"""

    __slots__ = ("kind", "first", "end", "text")

    def __init__(self, kind, first, end, text):
        self.kind, self.first, self.end = kind, first, end  # a word, number, text or delimiter
        self.text = text  # of a word in lower case, of all others as it stands

    def __eq__(self, other):
        return self.text == other if isinstance(other, str) else self is other

    __hash__ = object.__hash__


def place_of(source, offset):
    """Line and column of a byte, both from 1."""
    before = source[:offset]
    return before.count(b"\n") + 1, offset - (before.rfind(b"\n") + 1) + 1


def is_proper(found, source):
    """Whether a piece keeps the limits, and nothing follows it that would be more of it."""
    kind, text = found.lastgroup, found.group()
    if found.end() < len(source) and source[found.end()] in SPOILS.get(kind, b""):
        return False
    if kind == "word":
        return len(text) <= MAX_WORD
    return kind != "number" or int(text.split(b".")[0]) < 2**128


def tokens_of(source):
    """The tokens of the bytes of a source, in order. A source that has none is told by NoTokens."""
    if len(source) > MAX_SOURCE:
        raise NoTokens(1, 1)
    tokens, at = [], 0
    while at < len(source):
        found = PIECE.match(source, at)
        if not found or not is_proper(found, source):
            raise NoTokens(*place_of(source, at))
        kind = found.lastgroup
        if kind != "gap":
            text = found.group().decode("latin-1")
            tokens.append(Token(kind, at, found.end(), text.lower() if kind == "word" else text))
        at = found.end()
    return tokens
