"""Why a name of a source is not known: Ada has it and the profile has not, a clause is missing, it is declared elsewhere, or
it is misspelt. What is declared in a source is read from its tokens, since a source that is refused may have no tree."""
import difflib

import blocks
import constructs
from source_text import line_of

UNIT_WORDS = ("procedure", "function", "task", "protected", "entry", "package", "type", "subtype")


def units():
    """The library units of the profile by their names in lower case."""
    return {unit.name.lower(): unit for unit in blocks.read("units.txt")}


def absent(kind, name):
    """The block of what Ada has under this kind or unit, and the profile has not."""
    for block in blocks.read("absent.txt"):
        if block.name.lower() == kind.lower() and name.lower() in (n.lower() for n in block.listed("names")):
            return block
    return None


def absent_anywhere(name, first):
    """The same in any unit, those of `first` before the others."""
    kinds = [b.name for b in blocks.read("absent.txt") if b.name[:1].isupper() and b.name not in ("Ada",)]
    kinds.sort(key=lambda kind: kind.lower() not in first)
    return next((block for kind in kinds for block in [absent(kind, name)] if block), None)


def not_here(what, block):
    return f"{what} ({block.one('clause')}) is not in this profile. {block.one('instead')}"


def dotted(tokens, at, form="text"):
    """The names with points that a token begins: in lower case, or as they are written where the form is `raw`."""
    parts = [getattr(tokens[at], form)]
    while at + 2 < len(tokens) and tokens[at + 1].text == "." and tokens[at + 2].is_word():
        at += 2
        parts.append(getattr(tokens[at], form))
    return ".".join(parts)


def prefix(tokens, at, form="text"):
    """What stands before a token with points."""
    parts = []
    while at >= 2 and tokens[at - 1].text == "." and tokens[at - 2].is_word():
        at -= 2
        parts.insert(0, getattr(tokens[at], form))
    return ".".join(parts)


def named_by_with(tokens):
    """The units that with clauses name."""
    found = []
    for i, token in enumerate(tokens):
        if token.text == "with" and (i == 0 or tokens[i - 1].text == ";"):
            j = i + 1
            while j < len(tokens) and tokens[j].is_word():
                found.append(dotted(tokens, j))
                j += len(found[-1].split(".")) * 2 - 1
                if j >= len(tokens) or tokens[j].text != ",":
                    break
                j += 1
    return found


class Declared:
    """A declaration of a source: its name's token, the construct in which it stands, if any, and what it is there."""

    def __init__(self, token, inside, is_parameter, kind):
        self.token, self.inside, self.kind = token, inside, kind
        self.is_seen = bool(inside) and not (is_parameter or inside.is_body or inside.is_in_private)

    def package(self):
        """The name of the package whose visible part has it, or None."""
        return self.inside.name if self.is_seen and self.inside.word == "package" else None

    def unit(self):
        """The task or protected unit whose visible part has it, or None."""
        return self.inside if self.is_seen and self.inside.word in ("task", "protected") else None


def declared_in(tokens):
    """The declarations of a source, by what stands before or behind their names."""
    found, reader, depth, is_literals = [], constructs.Reader(), 0, False
    for i, token in enumerate(tokens):
        inside = reader.open[-1] if reader.open else None
        before = tokens[i - 1].text if i else ""
        reader.read(token, before, tokens[i + 1:i + 3])
        depth += (token.text == "(") - (token.text == ")")
        if token.text in ("(", ")"):
            is_literals = token.text == "(" and before == "is" and i > 2 and tokens[i - 3].text == "type"
        if token.is_name() and (is_literals or is_declared(tokens, i, before)):
            found.append(Declared(token, inside, depth > 0 and not is_literals, before))
    return found


def is_declared(tokens, at, before):
    """Whether a name is declared where it stands: behind the word of a unit, or before a colon."""
    if before in UNIT_WORDS or before == "for" or before == "type" and at > 1 and tokens[at - 2].text in UNIT_WORDS:
        return True
    return before in (";", "is", "declare", "private", "(", ",", "record") and is_before_colon(tokens, at)


def is_before_colon(tokens, at):
    while at + 2 < len(tokens) and tokens[at + 1].text == "," and tokens[at + 2].is_name():
        at += 2
    return at + 1 < len(tokens) and tokens[at + 1].text == ":"


def packages_of(tokens, form="text"):
    return [getattr(d.token, form) for d in declared_in(tokens) if d.kind == "package"]


def missing_units(tokens):
    """The first parts of units that with clauses name, and that neither the profile nor the source has."""
    has = set(name.split(".")[0] for name in units()) | set(packages_of(tokens)) | {"ada"}
    other = {b.name.lower() for b in blocks.read("absent.txt")} | {"interfaces", "gnat"}
    missing = {name.split(".")[0] for name in named_by_with(tokens)} - has - other
    return {name for name in missing if not near(name, packages_of(tokens)) and not unit_ending(name)}


def near(name, others):
    """The name among others that is spelt nearly so, or None."""
    by_text = {other.lower(): other for other in others}
    close = difflib.get_close_matches(name.lower(), by_text, 1, 0.72)
    return by_text[close[0]] if close and close[0] != name.lower() else None


def unit_ending(name):
    """The unit whose name ends with this one, behind a point, or None."""
    return next((u.name for n, u in units().items() if n.endswith("." + name.lower())), None)


def unknown(text, tokens, at):
    """Why the name at a token is not known."""
    before = prefix(tokens, at)
    return unknown_behind(text, tokens, at, before) if before else unknown_alone(text, tokens, at)


def unknown_behind(text, tokens, at, before):
    raw, known = tokens[at].raw, units()
    title = prefix(tokens, at, "raw")
    gone = absent(before, tokens[at].text)
    if gone:
        return not_here(f"{title}.{raw}", gone)
    if before.split(".")[0] in ("ada", "system", "interfaces", "gnat", "standard"):
        names = list(known[before].listed("has")) if before in known else []
        names += [u.name[len(before) + 1:] for n, u in known.items() if n.startswith(before + ".")]
        other = near(raw, names)
        if other:
            return f"{title} has no {raw}. Is {other} meant?"
        return f"{title} has no {raw} in this profile. It has {', '.join(names) or 'nothing'}."
    last = before.split(".")[-1]
    inside = [d for d in declared_in(tokens) if d.inside and d.inside.name.lower() == last]
    hidden = next((d for d in inside if d.token.text == tokens[at].text), None)
    if hidden:
        line = line_of(text, hidden.token.start)
        if hidden.is_seen and hidden.inside.is_type:
            return f"{tokens[at - 2].raw} is a type, and {raw} of line {line} is called on an object of it (9.5)."
        return f"{raw} is declared in line {line}, in the private part or the body of {tokens[at - 2].raw}, and is not seen " \
               "from outside (8.2)."
    other = near(raw, [d.token.raw for d in inside if d.is_seen])
    return f"{tokens[at - 2].raw} declares nothing of the name {raw}." + (f" Is {other} meant?" if other else "")


def unknown_alone(text, tokens, at):
    token, withs = tokens[at], named_by_with(tokens)
    elsewhere = [d for d in declared_in(tokens) if d.token.text == token.text]
    here = [u for n, u in units().items() if token.text in (h.lower() for h in u.listed("has"))]
    here.sort(key=lambda u: u.name.lower() not in withs)
    if here and (here[0].name.lower() in withs or not elsewhere):
        name = next(h for h in here[0].listed("has") if h.lower() == token.text)
        return clause_missing(here[0].name, name, here[0].name.lower() in withs)
    if elsewhere:
        return declared_elsewhere(text, tokens, at, elsewhere)
    if unit_ending(token.text):
        return f"{token.raw} is the unit {unit_ending(token.text)} here: write its whole name, and a with clause for it " \
               "(10.1.2)."
    gone = absent_anywhere(token.text, withs)
    if gone and gone.name != "Standard" and gone.name.lower() not in withs and "_" not in token.text:
        gone = None     # a name that anybody may give
    if gone:
        return not_here(token.raw if gone.name == "Standard" else f"{token.raw} of {gone.name}", gone)
    names = [d.token for d in declared_in(tokens)]
    other = near(token.raw, [n.raw for n in names])
    if other:
        line = line_of(text, next(n.start for n in names if n.raw == other))
        return f"Nothing is called {token.raw}. Is {other} meant, which is declared in line {line}?"
    other = near(token.raw, [h for u in units().values() for h in u.listed("has")])
    if other:
        return f"Nothing is called {token.raw}. Is {other} meant?"
    return f"Nothing in the source is called {token.raw}, and nothing in the profile's library units."


def clause_missing(unit, name, is_named):
    if is_named:
        return f"{name} is declared in {unit}. A with clause names that unit, but no use clause does: write " \
               f"`use {unit};` behind the with clause, or `{unit}.{name}` here (8.4)."
    return f"{name} is declared in {unit}. Write `with {unit}; use {unit};` before the unit (10.1.2, 8.4)."


def declared_elsewhere(text, tokens, at, found):
    """Where a name is declared that is not seen at a token."""
    token = tokens[at]
    first = next((d for d in found if d.package() or d.unit()), found[0])
    place = f"{token.raw} is declared in line {line_of(text, first.token.start)}"
    if first.token is token or first.token.start < token.start and not any(
            t.text == ";" for t in tokens[tokens.index(first.token):at]):
        return f"{token.raw} is being declared here, and is not known before its declaration ends (8.3)."
    if first.package():
        return f"{place}, in package {first.package()}. Write `{first.package()}.{first.token.raw}` here, or " \
               f"`use {first.package()};` behind a with clause for it (8.4)."
    if first.unit():
        unit = first.unit()
        return f"{place}, as an operation of `{unit.word} {unit.name}`. " + (
            f"Write an object of the type and a point before it: `X.{first.token.raw}`, say (9.5)." if unit.is_type else
            f"Write `{unit.name}.{first.token.raw}` (9.5).")
    if first.token.start > token.start:
        return f"{place}, which is behind this place; a name is known from its declaration on (8.3). Move the declaration up, " \
               "or declare a subprogram before its body."
    return f"{place}, in a part of the text that this place does not lie in (8.2, 8.3)."


def with_missing(title, is_elsewhere):
    if is_elsewhere:
        return f"The with clause for {title} stands before another unit, or behind this place. A unit that names {title} has " \
               f"`with {title};` before it, or its package's declaration has (10.1.2, 10.1.6)."
    return f"No with clause names {title}. Write `with {title};` before the unit (10.1.2)."


def unit_refused(tokens, at):
    """Why the name of a unit is refused (L1)."""
    name, known = dotted(tokens, at), units()
    written = dotted(tokens, at, "raw").split(".")
    parts, withs = name.split("."), named_by_with(tokens)
    # in a with clause the whole name is that of a unit, elsewhere its beginning
    for count in range(len(parts), len(parts) - 1 if name in withs else 0, -1):
        unit = ".".join(parts[:count])
        if unit in known:
            return with_missing(known[unit].name, unit in withs)
    for count in range(1, len(parts)):
        gone = absent(".".join(parts[:count]), parts[count])
        if gone:
            return not_here(".".join(written[:count + 1]), gone)
    gone = absent("units", parts[0])
    if gone:
        return not_here(written[0], gone)
    if parts[0] in packages_of(tokens):
        title = next(d.token.raw for d in declared_in(tokens) if d.token.text == parts[0])
        return f"{title} is a package of this source: the package stands before every unit that names it, and a with " \
               f"clause, `with {title};`, stands before that unit (10.1.2, 10.1.4)."
    if unit_ending(name):
        return f"{'.'.join(written)} is the unit {unit_ending(name)} here: write its whole name (10.1.1)."
    other = near(name, [u.name for u in known.values()] + packages_of(tokens, "raw"))
    return f"There is no unit {'.'.join(written)}." + (f" Is {other} meant?" if other else "")
