"""Why a source is refused: its line with the place, what is not in the profile there, and the rule."""
import re
import textwrap

import blocks
import constructs
import forms
import names
from source_text import Token, line_of, offset_of, shown_line, tokens_of

WIDTH = 100


def wrapped(text, first="", rest=None):
    """A text in lines of at most WIDTH columns; what stands in grave accents is not broken."""
    kept = re.sub(r"`[^`]*`", lambda m: m.group().replace(" ", "\xa0"), text)
    lines = textwrap.wrap(kept, WIDTH, initial_indent=first, subsequent_indent=first if rest is None else rest,
                          break_long_words=False, break_on_hyphens=False)
    return "\n".join(lines).replace("\xa0", " ")


def rule_of(name):
    return next((block for block in blocks.read("rules.txt") if block.name == name), None)


def titled(name, title=None):
    """A rule by its title and clauses."""
    rule = rule_of(name)
    clauses = rule.one("clauses")
    clauses = f"({clauses})" if clauses != "own" else "(a rule of this profile's own)"
    return f"{title or name}: {rule.one('is')} {clauses}."


def told_rule(name, title=None):
    """The sentences of a rule behind its title and clauses."""
    return wrapped(f"{titled(name, title)} {rule_of(name).one('says')}")


def told_form(form):
    """The rewrite of a form."""
    said = [wrapped(w, "  you write      " if i == 0 else " " * 17, " " * 17) for i, w in enumerate(form.all("write"))]
    said += [wrapped(w, "  write instead  " if i == 0 else " " * 17, " " * 17) for i, w in enumerate(form.all("instead"))]
    said.append(f"  in full        check/rewrites/{form.name}/before.adb and after.adb")
    return "\n".join(said)


class Refused:
    """A source, the place and the code of its refusal, and the judge of other texts."""

    def __init__(self, text, line, column, code, judge):
        self.text, self.line, self.column, self.code, self.judge = text, line, column, code, judge
        self.offset = offset_of(text, line, column)
        self.tokens = tokens_of(text)
        self.around = forms.Around(self.tokens, self.offset)

    def at(self):
        """The number of the token at the place."""
        return len(self.around.before)

    def token(self, by=0):
        """The token at the place, or one so many before or behind it; at the end an empty one."""
        at = self.at() + by
        return self.tokens[at] if 0 <= at < len(self.tokens) else Token("", len(self.text))

    def form(self):
        """The known form that stands there, or None; a name that the source declares somewhere is its own."""
        if self.code == "F7" and any(d.token.text == self.token().text for d in names.declared_in(self.tokens)):
            return None
        return forms.form_at(self.around, self.code, names.missing_units(self.tokens), self.holds)

    def holds(self, condition):
        """Whether a condition of forms.txt holds at the place."""
        if condition == "complete":
            return not re.match(r"source refused \d+:\d+ F[1-6]", self.judge(self.text[:self.offset]))
        before = self.declared_before()
        return bool(before) and before.kind in ("procedure", "function", "entry")

    def declared_before(self):
        """The first declaration before the place of the name that stands there, or None."""
        return next((d for d in names.declared_in(self.tokens)
                     if d.token.text == self.token().text and d.token.start < self.offset), None)

    def is_at_end(self):
        return not self.around.behind


def explained(text, line, column, code, judge):
    """What is to be said of a refusal, as lines of text; `judge` answers the note of another source, or nothing."""
    refused = Refused(text, line, column, code, judge)
    form = refused.form()
    said = [shown_line(text, line, column)] if code != "F4" else []
    reason = form.one("says") if form else REASONS.get(code, lambda r: "")(refused)
    if reason:
        said.append(wrapped(reason))
    if form:
        said.append(told_form(form))
    said.append(titled(code) if form or reason else told_rule(code))
    return "\n".join(said) + "\n"


# ---- reasons where no known form stands, by code; each may be empty

def bad_byte(refused):
    byte = refused.text[refused.offset:refused.offset + 1]
    if byte == "_":
        return "An underscore stands between two letters or digits, and only one."
    if byte and not byte.isascii():
        return "This byte is no ASCII character; such bytes stand in comments alone."
    if byte in "#$%?@[]^`{}~\\!":
        return f"The character {byte} is none of the language, outside comments and texts."
    return ""


def bad_number(refused):
    return "A number has digits, single underscores between them, and perhaps a point with digits behind it."


def grammar(refused):
    """Of a token that does not belong there."""
    token, before = refused.token(), refused.token(-1)
    if refused.is_at_end():
        return text_ends(refused)
    if before.text == "'":
        block = names.absent("attributes", token.text)
        return names.not_here(f"The attribute {token.raw}", block) if block else f"There is no attribute {token.raw}."
    if before.text == "end":
        return end_closes(refused)
    if token.text == "pragma":
        return "Pragmas inside units (2.8) are not in this profile. Aspects say what such pragmas said; the pragmas of the " \
               "profile stand first of all in the source."
    if gets_further(refused):
        return f"A semicolon seems to be missing before `{token.raw}`."
    block = names.absent("words", token.text)
    if block:
        return f"No form of this profile has the word `{token.raw}`. {block.one('instead')}"
    behind = f"behind `{before.raw}`" if before.text else "at the beginning"
    return f"`{token.raw}` cannot stand {behind} here."


def text_ends(refused):
    left = constructs.open_in(refused.around.before)
    if left:
        line = line_of(refused.text, left[-1].token.start)
        return f"The text ends here, and {left[-1].title()} of line {line} is still open: `{left[-1].closing()};` closes it."
    if refused.token(-1).text == ";":
        return "The text ends here, and a program has a main procedure, which stands behind the packages (10.2): " \
               "`procedure Main is begin null; end Main;`, say."
    return "The text ends here: a semicolon or a bracket is missing, or the main procedure, which stands behind the packages."


def end_closes(refused):
    left = constructs.open_in(refused.around.before[:-1])
    if not left:
        return "Nothing is open that this `end` could close."
    line = line_of(refused.text, left[-1].token.start)
    return f"This `end` closes {left[-1].title()} of line {line}, which is the innermost construct that is open: " \
           f"`{left[-1].closing()};` is expected."


def gets_further(refused):
    """Whether the text with a semicolon before the place is accepted, or refused well behind it."""
    at = refused.around.before[-1].end if refused.around.before else 0
    note = refused.judge(refused.text[:at] + ";" + refused.text[at:])
    place = re.match(r"source refused (\d+):(\d+) F5", note)
    if not place:
        return not note.endswith("F6")
    return offset_of(refused.text[:at] + ";" + refused.text[at:], int(place[1]), int(place[2])) > refused.token().end + 1


def unknown(refused):
    return names.unknown(refused.text, refused.tokens, refused.at())


def twice(refused):
    first = refused.declared_before()
    if first:
        return f"{refused.token().raw} is declared in line {line_of(refused.text, first.token.start)} already."
    return f"{refused.token().raw} is a name of the library already, which no unit takes again."


def unit(refused):
    return names.unit_refused(refused.tokens, refused.at())


def wrong_kind(refused):
    """Of an aspect that the profile has not, where one stands there."""
    token = refused.token()
    if refused.token(1).text not in ("=>", ",", "is", ";") or not stands_in_aspects(refused):
        return ""
    block = names.absent("aspects", token.text)
    if block:
        return names.not_here(f"The aspect {token.raw}", block)
    return f"The aspect {token.raw} may not stand here, or there is none. Priority and CPU stand on tasks and the main " \
           "procedure, Priority on protected units too, Relative_Deadline on tasks, Attach_Handler on protected procedures."


def stands_in_aspects(refused):
    for token in reversed(refused.around.before):
        if token.text == "with":
            return True
        if token.text in (";", ":", "is", "begin", "record"):
            return False
    return False


def policy(refused):
    """Of a pragma, or a restriction in it, that the profile has not."""
    name = refused.token(1)
    if name.text == "restrictions":
        for token in refused.around.behind:
            block = names.absent("restrictions", token.text)
            if block:
                return names.not_here(f"The restriction {token.raw}", block)
            if token.text == ";":
                return ""
    block = names.absent("pragmas", name.text)
    return names.not_here(f"The pragma {name.raw}", block) if block else ""


REASONS = {"F1": bad_byte, "F2": bad_number, "F5": grammar, "F7": unknown, "F8": twice, "L1": unit, "L5": wrong_kind,
           "L30": policy}


# ---- what is to be said of a source that is accepted

def warnings(text):
    """Tasks without a priority in a source with a range of EDF_Across_Priorities: they inherit the main procedure's."""
    tokens = tokens_of(text)
    if not any(t.text == "edf_across_priorities" for t in tokens):
        return ""
    said = []
    for at, name in unprioritized(tokens):
        line = line_of(text, tokens[at].start)
        said.append(shown_line(text, line, tokens[at].start - (text.rfind("\n", 0, tokens[at].start) + 1) + 1))
        said.append(wrapped(
            f"warning: the task {name} has no aspect Priority, so that it inherits the priority of the main procedure, which "
            "lies outside every range of EDF_Across_Priorities (D.1, L31). It is not ordered by deadline: it runs before or "
            "behind all tasks of the range. Give it a Priority in the range, above its lowest."))
    return "".join(part + "\n" for part in said)


def unprioritized(tokens):
    """The declarations of tasks without a priority: where `task` stands, and the name."""
    for at, token in enumerate(tokens):
        if token.text != "task" or tokens[at + 1].text == "body":
            continue
        name = at + 1 + (tokens[at + 1].text == "type")
        aspects, depth, end = set(), 0, name + 1
        while depth or tokens[end].text not in (";", "is"):
            depth += (tokens[end].text == "(") - (tokens[end].text == ")")
            if tokens[end - 1].text in ("with", ",") and not depth:
                aspects.add(tokens[end].text)
            end += 1
        if not aspects & {"priority", "interrupt_priority"}:
            yield at, tokens[name].raw
