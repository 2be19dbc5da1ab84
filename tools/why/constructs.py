"""Which constructs of a source are open at a place: read from its tokens, since a source that is refused may have no tree."""
HEADS = ("procedure", "function", "package", "protected", "task", "entry")
CLOSED_BY = {"if": "end if", "case": "end case", "loop": "end loop", "select": "end select", "record": "end record"}


class Open:
    """An open construct: its word, the name of a unit or a body, and its first token."""

    def __init__(self, word, token, name=""):
        self.word, self.token, self.name = word, token, name
        self.has_begun = self.is_body = self.is_type = self.is_in_private = False

    def title(self):
        if self.word in HEADS:
            return f"`{self.word} {self.name}`"
        return {"begin": "the block", "accept": "the accept statement"}.get(self.word, f"the `{self.word}`")

    def closing(self):
        return CLOSED_BY.get(self.word, f"end {self.name}" if self.name else "end")


class Reader:
    """Goes through tokens, and keeps what is open, the innermost last."""

    def __init__(self):
        self.open, self.head, self.closes = [], None, False

    def read(self, token, before, behind):
        word = token.text
        if self.closes:
            # from an end to its semicolon
            self.closes = word != ";"
        elif word == "end":
            self.closes = True
            self.open[-1:] = []
        elif word in HEADS:
            self.head = Open(word, token, name_in(behind))
            self.head.is_body, self.head.is_type = ([t.text for t in behind[:1]] == [w] for w in ("body", "type"))
        elif word == ";":
            self.head = None
        elif word == "is" and self.head:
            self.open.append(self.head)
            self.head = None
        elif word == "private" and self.open:
            self.open[-1].is_in_private = True
        elif word in ("if", "case", "select", "loop", "record"):
            self.opens(word, token, before)
        elif word == "accept":
            self.head = Open("accept", token, behind[0].raw if behind else "")
        elif word == "do" and self.head:
            self.open.append(self.head)
            self.head = None
        elif word in ("declare", "begin"):
            self.begins(word, token)

    def opens(self, word, token, before):
        is_null_record = word == "record" and before == "null"
        if not is_null_record:
            self.open.append(Open(word, token))

    def begins(self, word, token):
        innermost = self.open[-1] if self.open else None
        if word == "begin" and innermost and not innermost.has_begun and innermost.word in HEADS + ("begin",):
            innermost.has_begun = True
            return
        self.open.append(Open("begin", token))
        self.open[-1].has_begun = word == "begin"


def name_in(tokens):
    """The name of a unit, behind its first word."""
    return next((t.raw for t in tokens if t.text not in ("body", "type")), "")


def open_in(tokens):
    """What is open behind these tokens, the innermost last."""
    reader = Reader()
    for i, token in enumerate(tokens):
        reader.read(token, tokens[i - 1].text if i else "", tokens[i + 1:i + 3])
    return reader.open
