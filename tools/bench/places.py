"""The places of a source at which a value can be replaced: constants and initial values, the aspects of tasks, protected
objects and subprograms, budgets, the policies of pragmas and the numbers of restrictions.

They are found among the tokens of a source that the front end accepts, by how its regions nest; of a source that it
refuses some places may be missing. Nothing in a comment or in a text is ever found or replaced.
"""
import collections
import re

from .tokens import NoTokens, place_of, tokens_of
from .traces import is_named

SET_BY_CALL = {"group_budget": "replenish", "timer": "set_handler", "timing_event": "set_handler"}
VALUE_NAMES = {"to", "in_time", "at_time"}
POLICY_PRAGMAS = ("task_dispatching_policy", "locking_policy", "queuing_policy")
PRIORITIES = ("priority", "interrupt_priority")
UNITS = {"microseconds": 1, "milliseconds": 1_000, "seconds": 1_000_000}
TO_SEMICOLON = {"exit", "return", "raise", "abort", "requeue", "null", "terminate"}
RESERVED_STARTS = {"is", "private", "exception", "or", "else", "overriding", "reverse", "record", "others", "end", "body", "not", "in", "out"}


class NoPlace(Exception):
    """A name that is not there, or means several places, or a value that cannot stand there."""


# The bytes from first to end are replaced by the new value, with the texts before and after round it.
Edit = collections.namedtuple("Edit", "first end before after old", defaults=("", "", ""))


class Place(collections.namedtuple("Place", "kind path edits old")):
    """A constant, variable, aspect, budget, pragma or restriction. Its path has the words of its name, in lower case: regions,
    its own name, perhaps an aspect. `old` is the text that stands there, "" where there is none."""

    __slots__ = ()

    @property
    def name(self):
        return ".".join(self.path)


class Declared:
    """A task, a protected object or an object of the source."""

    def __init__(self, kind, path, mark=""):
        self.kind, self.path = kind, path  # a task, task type, protected, protected type, subprogram or object
        self.mark = mark  # of an object, the last word of its type
        self.aspects = {}  # the name of an aspect, and the text and bytes of its value
        self.insert, self.has_aspects = 0, False  # where its first aspect may stand


class Region:
    def __init__(self, kind, name=None):
        self.kind, self.name, self.begun = kind, name, False


class Survey:
    """What the tokens of a source declare, and where."""

    def __init__(self, source):
        self.source = source
        self.tokens = tokens_of(source)
        self.at = 0
        self.regions = []
        self.label = None  # the name of the block that begins here
        self.is_whole = True  # does each region end, and nothing else? Of an accepted source they do
        self.places = []
        self.declared = []
        self.calls = []  # the name, its arguments and the task body round it
        self.assignments = []  # the task body, the target and the tokens of the expression
        self.untils = []  # the task body and the tokens of the moment
        self.read_all()
        self.find_budgets()
        self.find_aspects()
        self.find_missing_pragmas()

    # ---- moving

    def word(self, ahead=0):
        here = self.at + ahead
        return self.tokens[here].text if here < len(self.tokens) else ""

    def until(self, *stops):
        """Passes the tokens up to one of these that stands in no bracket, and gives those that were passed."""
        first, depth = self.at, 0
        while self.at < len(self.tokens):
            text = self.word()
            if depth == 0 and text in stops:
                break
            depth += (text == "(") - (text == ")")
            self.at += 1
        return self.tokens[first : self.at]

    def path(self, *more):
        return tuple(r.name for r in self.regions if r.name) + more

    def body(self):
        """The path of the task body in which one stands, outside of any subprogram in it."""
        for depth in range(len(self.regions), 0, -1):
            region = self.regions[depth - 1]
            if region.kind in ("subprogram", "package", "entry", "protected"):
                return None
            if region.kind == "task body":
                return tuple(r.name for r in self.regions[:depth] if r.name)
        return None

    def text_of(self, tokens):
        return self.source[tokens[0].first : tokens[-1].end].decode("latin-1") if tokens else ""

    # ---- reading

    def read_all(self):
        while self.at < len(self.tokens):
            before = self.at
            self.read_one()
            if self.at == before:
                self.at += 1
        self.is_whole = self.is_whole and not self.regions

    def read_one(self):
        word = self.word()
        reader = getattr(self, f"read_{word}", None) if word.isidentifier() else None
        if reader:
            reader()
        elif word in TO_SEMICOLON:
            self.until(";")
        elif self.tokens[self.at].kind == "word" and word not in RESERVED_STARTS:
            self.read_named()

    def read_pragma(self):
        self.at += 1
        name = self.word()
        arguments = arguments_of(self.until(";")[1:])
        if name == "restrictions":
            for label, tokens in arguments:
                if label:
                    self.add("restriction", (label,), tokens)
        elif arguments:
            self.add("pragma", (name,), arguments[0][1])

    def read_with(self):
        self.until(";")

    read_use = read_subtype = read_with

    def read_package(self):
        self.at += 2 if self.word(1) == "body" else 1
        self.regions.append(Region("package", self.word()))
        self.until("is")

    def read_procedure(self):
        self.at += 1
        name = self.word()
        here = Declared("subprogram", self.path(name))
        self.read_aspects(here)
        self.declared.append(here)
        if self.word() == "is":
            self.regions.append(Region("subprogram", name))

    read_function = read_procedure

    def read_entry(self):
        self.at += 1
        name = self.word()
        self.until("is", ";")
        if self.word() == "is":
            self.regions.append(Region("entry", name))

    def read_task(self):
        self.read_unit("task")

    def read_protected(self):
        self.read_unit("protected")

    def read_unit(self, kind):
        self.at += 1
        if self.word() == "body":
            self.at += 1
            self.regions.append(Region(f"{kind} body", self.word()))
            self.until("is")
            return
        if self.word() == "type":
            kind += " type"
            self.at += 1
        name = self.word()
        here = Declared(kind, self.path(name))
        self.read_aspects(here)
        self.declared.append(here)
        if self.word() == "is":
            self.regions.append(Region("protected" if kind.startswith("protected") else "task", name))

    def read_aspects(self, here):
        """The aspects between a declared name and its `is` or semicolon."""
        here.insert = self.tokens[min(self.at, len(self.tokens) - 1)].end
        passed = self.until("with", "is", ";")
        here.insert = passed[-1].end if passed else here.insert
        if self.word() != "with":
            return
        here.has_aspects = True
        here.insert = self.tokens[self.at].end
        self.at += 1
        for label, tokens in split_arguments(self.until("is", ";")):
            if label and tokens:
                here.aspects[label] = (self.text_of(tokens), tokens[0].first, tokens[-1].end)

    def read_type(self):
        passed = self.until(";", "record")
        if self.word() == "record" and passed[-1].text != "null":
            self.regions.append(Region("record"))
            self.at += 1

    def read_declare(self):
        self.push_block()

    def read_begin(self):
        top = self.regions[-1] if self.regions else None
        if not top or top.begun or top.kind not in ("package", "subprogram", "entry", "task body", "block"):
            self.push_block()
        self.regions[-1].begun = True

    def push_block(self):
        self.regions.append(Region("block", self.label))
        self.label = None

    def read_if(self):
        self.push_statement("if")
        self.to_then()

    def read_elsif(self):
        self.to_then()

    def to_then(self):
        while self.at < len(self.tokens):
            self.until("then")
            self.at += 1
            if self.tokens[self.at - 2].text != "and":
                return

    def read_case(self):
        self.push_statement("case")
        self.until("is")

    def read_when(self):
        self.until("=>")

    def read_while(self):
        self.until("loop")

    read_for = read_while

    def read_loop(self):
        self.push_statement("loop")

    def read_select(self):
        self.push_statement("select")

    def push_statement(self, kind):
        self.regions.append(Region(kind))
        self.regions[-1].begun = True

    def read_then(self):
        self.at += 2  # then abort

    def read_accept(self):
        self.until("do", ";")
        if self.word() == "do":
            self.push_statement("accept")

    def read_end(self):
        if self.regions:
            self.regions.pop()
        else:
            self.is_whole = False
        self.until(";")

    def read_delay(self):
        passed = self.until(";")
        if len(passed) > 2 and passed[1].text == "until" and self.body():
            self.untils.append((self.body(), passed[2:]))

    def read_named(self):
        """A declaration of objects, a label, or a statement that begins with a name."""
        ahead = 1
        while self.word(ahead) == ",":
            ahead += 2
        if self.word(ahead) != ":":
            self.read_statement()
        elif self.regions and self.regions[-1].begun:
            self.read_label(ahead + 1)
        else:
            self.read_objects(ahead)

    def read_label(self, ahead):
        """The name of a loop, which names do not have in them, or of a block."""
        name = self.word()
        self.at += ahead
        if self.word() in ("declare", "begin"):
            self.label = name

    def read_objects(self, ahead):
        names = [self.word(n) for n in range(0, ahead, 2)]
        self.at += ahead + 1
        constant = False
        while self.word() in ("aliased", "constant"):
            constant = constant or self.word() == "constant"
            self.at += 1
        marked = self.until(":=", ";")
        mark = ""
        for token in marked:
            if token.kind != "word" and token.text != ".":
                break
            if token.text != ".":
                mark = token.text
        if mark == "exception":
            return
        for name in names:
            self.declared.append(Declared("object", self.path(name), mark=mark))
        if self.word() == ":=":
            self.at += 1
            value = self.until(";")
            kind = "constant" if constant else "variable"
            for name in names:
                self.add(kind if len(names) == 1 else "shared", self.path(name), value)

    def read_statement(self):
        passed = self.until(";")
        texts = [t.text for t in passed]
        if ":=" in texts:
            cut = texts.index(":=")
            if self.body() and cut == 1:
                self.assignments.append((self.body(), texts[0], passed[2:]))
            return
        cut = texts.index("(") if "(" in texts else len(texts)
        if cut and all(t.kind == "word" or t.text == "." for t in passed[:cut]):
            arguments = arguments_of(passed[cut:])
            self.calls.append((texts[cut - 1], arguments))
            if texts[cut - 1] == "delay_until_and_set_deadline" and self.body() and arguments:
                self.untils.append((self.body(), arguments[0][1]))

    # ---- places

    def add(self, kind, path, tokens):
        if tokens:
            old = self.text_of(tokens)
            self.places.append(Place(kind, path, (Edit(tokens[0].first, tokens[-1].end, old=old),), old))

    def find_budgets(self):
        """Of each budget, timer and timing event, the second actual parameters of the calls that set it."""
        for here in self.declared:
            if here.kind != "object" or here.mark not in SET_BY_CALL:
                continue
            edits = []
            for name, arguments in self.calls:
                if name != SET_BY_CALL[here.mark] or len(arguments) < 2:
                    continue
                words = tuple(t.text for t in arguments[0][1] if t.kind == "word")
                labelled = [tokens for label, tokens in arguments if label in VALUE_NAMES]
                value = labelled[0] if labelled else arguments[1][1]
                if value and (ends_with(here.path, words) or self.only_name(words, here)):
                    edits.append(Edit(value[0].first, value[-1].end, old=self.text_of(value)))
            if edits:
                old = " and ".join(dict.fromkeys(e.old for e in edits))
                self.places.append(Place("budget", here.path, tuple(edits), old))

    def only_name(self, words, here):
        """Is this the only object whose name ends so?"""
        return words and here.path[-1] == words[-1] and 1 == sum(d.kind == "object" and d.path[-1] == words[-1] for d in self.declared)

    def find_aspects(self):
        for here in self.declared:
            for label, (text, first, end) in here.aspects.items():
                self.places.append(Place("aspect", here.path + (label,), (Edit(first, end),), text))
            if here.kind.split()[0] in ("task", "protected") or (here.kind == "subprogram" and len(here.path) == 1):
                self.places.append(self.priority_of(here))

    def priority_of(self, here):
        """The place of its Priority or Interrupt_Priority: where it stands, or would stand."""
        for label in PRIORITIES:
            if label in here.aspects:
                text, first, end = here.aspects[label]
                return Place("aspect", here.path, (Edit(first, end),), text)
        before, after = (" Priority => ", ",") if here.has_aspects else (" with Priority => ", "")
        return Place("aspect", here.path, (Edit(here.insert, here.insert, before, after),), "")

    def find_missing_pragmas(self):
        there = {p.path for p in self.places if p.kind == "pragma"}
        for name in POLICY_PRAGMAS:
            if (name,) not in there:
                self.places.append(Place("pragma", (name,), (Edit(0, 0, f"pragma {name} (", "); "),), ""))

    # ---- what the tools ask

    def place(self, name):
        """The place that a name means, or NoPlace."""
        words = tuple(name.lower().split("."))
        found = [p for p in self.places if p.path == words] or [p for p in self.places if ends_with(p.path, words)]
        if not found:
            known = ", ".join(sorted({p.name for p in self.places if p.old and p.kind != "shared" and p.path[-1] not in PRIORITIES}))
            raise NoPlace(f"nothing is called {name} whose value could be replaced; there are {known or 'none'}")
        if len(found) > 1:
            there = ", ".join(f"{p.name} at {self.line_of(p)}" for p in found)
            raise NoPlace(f"{name} is one of several: {there}; give more of the name")
        if found[0].kind == "shared":
            raise NoPlace(f"{name} shares its initial value with others; declare it apart")
        return found[0]

    def line_of(self, place):
        return ":".join(map(str, place_of(self.source, place.edits[0].first)))

    def tasks(self):
        """The declared tasks and task types that have a place for a priority."""
        return [d for d in self.declared if d.kind in ("task", "task type")]

    def task_names(self):
        """The names that tasks have in a trace: that of the environment task, of each task, and of each object of a task type."""
        types = {d.path[-1] for d in self.declared if d.kind == "task type"}
        main = [d.path for d in self.declared if d.kind == "subprogram" and len(d.path) == 1][-1:]
        return [".".join(path) for path in main + [d.path for d in self.declared if d.kind == "task" or d.mark in types]]

    def check_task(self, name, option):
        """NoPlace where no task has this name, or one that ends so. A source whose regions do not end is refused, and nothing is
        said of its names."""
        known = self.task_names()
        if self.is_whole and not any(is_named(task, name.lower()) for task in known):
            raise NoPlace(f"{option}: no task is called {name}; there {'is' if len(known) == 1 else 'are'} {', '.join(known) or 'none'}")

    def unit(self, name):
        """The declaration of a task or protected object, by the name that it has in a trace: its own, or its type's."""
        words = tuple(name.split("."))
        for here in self.declared:
            if here.path == words and here.kind in ("task", "protected"):
                return here
        for here in self.declared:
            if here.kind == "object" and here.path == words:
                for of in self.declared:
                    if of.kind in ("task type", "protected type") and of.path[-1] == here.mark:
                        return of
        return None

    # ---- periods

    def period_of(self, name, overrides=()):
        """The period in ticks of the task of this name: what it adds to the moment of its only `delay until`, or None."""
        unit = self.unit(name)
        if unit is None or not unit.kind.startswith("task"):
            return None
        moments = {t.text for body, tokens in self.untils if body == unit.path for t in tokens[:1] if len(tokens) == 1}
        if len(moments) != 1 or any(len(tokens) != 1 for body, tokens in self.untils if body == unit.path):
            return None
        moment = moments.pop()
        steps = []
        for body, target, tokens in self.assignments:
            if body == unit.path and target == moment:
                texts = [t.text for t in tokens]
                if texts[:2] == [moment, "+"]:
                    steps.append(tokens[2:])
                elif texts[-2:] == ["+", moment]:
                    steps.append(tokens[:-2])
                else:
                    return None
        values = {self.ticks_of(step, dict(overrides)) for step in steps}
        return values.pop() if len(values) == 1 else None

    def delays_until(self, name):
        unit = self.unit(name)
        return unit is not None and any(body == unit.path for body, _ in self.untils)

    def ticks_of(self, tokens, overrides, depth=0):
        """The ticks of a span such as Microseconds (50), Period or 2 * Period, or None."""
        texts = [t.text for t in tokens]
        if len(texts) >= 4 and texts[-1] == ")" and "(" in texts:
            cut = texts.index("(")
            unit = texts[cut - 1] if cut in (1, 3, 5) else ""
            number = self.number_of(tokens[cut + 1 : -1], overrides, depth)
            return UNITS[unit] * number if unit in UNITS and number is not None else None
        if "*" in texts and len(texts) == 3:
            for number, span in ((tokens[:1], tokens[2:]), (tokens[2:], tokens[:1])):
                factor, ticks = self.number_of(number, overrides, depth), self.ticks_of(span, overrides, depth)
                if factor is not None and ticks is not None:
                    return factor * ticks
            return None
        value = self.constant(tokens, overrides, depth)
        return self.ticks_of(value, overrides, depth + 1) if value else None

    def number_of(self, tokens, overrides, depth):
        if len(tokens) == 1 and tokens[0].kind == "number":
            text = tokens[0].text.replace("_", "")
            return int(text) if text.isdigit() else None
        value = self.constant(tokens, overrides, depth)
        return self.number_of(value, overrides, depth + 1) if value else None

    def constant(self, tokens, overrides, depth):
        """The tokens of the value of the constant that these tokens name."""
        words = tuple(t.text for t in tokens if t.text != ".")
        found = [p for p in self.places if p.kind == "constant" and ends_with(p.path, words)]
        if depth > 8 or len(found) != 1 or not words:
            return None
        try:
            return tokens_of(overrides.get(found[0].path, found[0].old).encode("latin-1"))
        except NoTokens:
            return None


def ends_with(path, words):
    return len(words) > 0 and path[-len(words) :] == tuple(words)


def arguments_of(tokens):
    """The actual parameters in brackets: each with its name or None, and its tokens."""
    return split_arguments(tokens[1:-1]) if len(tokens) > 2 and tokens[0].text == "(" else []


def split_arguments(tokens):
    parts, depth = [[]], 0
    for token in tokens:
        depth += (token.text == "(") - (token.text == ")")
        if depth == 0 and token.text == ",":
            parts.append([])
        else:
            parts[-1].append(token)
    return [labelled(part) for part in parts if part]


def labelled(part):
    if len(part) > 1 and part[1].text == "=>":
        return part[0].text, part[2:]
    return None, part


CALLED = re.compile(r"([A-Za-z_.0-9]+\s*\(\s*)([0-9_]+(?:\.[0-9]+)?)(\s*\))")
NUMBER = re.compile(r"[0-9_]+(?:\.[0-9]+)?")


def value_text(place, value):
    """The text of a new value, as it stands at the place, or as it was given where the place has several old values."""
    check_value(value)
    return fitted(place.old, value)


def fitted(old, value):
    """A bare number put in place of a call with one number, such as Microseconds (50), replaces the number."""
    called = CALLED.fullmatch(old)
    if called and NUMBER.fullmatch(value):
        return called[1] + value + called[3]
    return value


def check_value(value):
    try:
        texts = [t.text for t in tokens_of(value.encode("latin-1", "replace"))]
    except NoTokens:
        texts = []
    depth = 0
    for text in texts:
        depth += (text == "(") - (text == ")")
        if depth < 0 or text == ";":
            depth = -1
            break
    if not texts or depth != 0 or "--" in value:
        raise NoPlace(f"{value!r} is no value")


class Replacing:
    """A source cut at some places, so that values are put there many times."""

    def __init__(self, source, places):
        edits = sorted(((e, n) for n, place in enumerate(places) for e in place.edits), key=lambda pair: (pair[0].first, pair[0].end))
        self.cuts, at = [], 0  # the bytes before an edit, the edit, and the number of its place
        for edit, place in edits:
            if edit.first < at:
                raise NoPlace("two of the settings are of one place")
            self.cuts.append((source[at : edit.first], edit, place))
            at = edit.end
        self.rest = source[at:]
        self.known = {}  # the bytes that stand for a value at an edit

    def with_values(self, values):
        """The source with the values, one for each place."""
        parts = []
        for cut, (before, edit, place) in enumerate(self.cuts):
            key = cut, values[place]
            if key not in self.known:
                self.known[key] = (edit.before + fitted(edit.old, values[place]) + edit.after).encode("latin-1")
            parts += [before, self.known[key]]
        return b"".join(parts) + self.rest


def replaced(source, settings):
    """The source with each place of settings, pairs of a place and the text of its value, replaced."""
    return Replacing(source, [place for place, _ in settings]).with_values([text for _, text in settings])
