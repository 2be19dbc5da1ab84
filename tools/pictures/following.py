"""Follows a run by the definitions of the machine: which statement each line of its trace comes from, and what the world is
at each tick.

The image of a source has no places. So the definitions that make the image are watched while they do: each is called with a
part of the tree, which has its place, and every statement that is made meanwhile comes from there. The run is then
computed part by part (the effect of an action, what is due, the choice), so that of each line it is known which action said
it. Nothing is proved here; the lines are those of the definitions, and `trace_of_program` asks the built program for its own.
"""

import os
import subprocess
import sys
from bisect import bisect_left
from dataclasses import dataclass, field

sys.dont_write_bytecode = True
TOOLS = os.path.dirname(os.path.dirname(os.path.abspath(__file__)))
sys.path.insert(0, os.path.join(TOOLS, "definitions"))
import interpreter  # noqa: E402
from antt import GLOBALS, definition, load  # noqa: E402

PROGRAM = os.path.join(os.path.dirname(TOOLS), "crates", "annexd", "out", "annexd")
IMAGE = "ada_image.specs.ImageOf"


class NotFollowed(Exception):
    """A source, a script or a run of which there is nothing to tell; the text says why."""


# ---- places of the text


def place_of(place):
    return place.d["line"], place.d["column"]


def first_place(name):
    """The place of a name."""
    return place_of(name.d["parts"].d["first"].d["place"])


def place_of_statement(statement):
    """Where a statement begins; a loop with its iteration."""
    kind, part = statement.n, statement.a[0]
    if kind in ("Null", "Return", "Raise", "Abort", "Requeue"):
        return place_of(part)
    if kind == "Assignment":
        return first_place(part.d["target"])
    if kind == "Call":
        return first_place(part.d["name"])
    if kind == "Loop" and part.d["iteration"].n != "Forever":
        return place_of(part.d["iteration"].a[0])
    return place_of(part.d["place"])


HEADS = ("if", "case", "loop", "select", "procedure", "function", "entry", "task", "protected", "package", "type", "subtype")
HAVE_BEGIN = ("procedure", "function", "entry", "task body", "package body", "declare")
OPENED_BY_IS = HAVE_BEGIN + ("task", "protected", "protected body", "package")


class Ends:
    """Which `end` closes what: the token of the `end` by that of a `begin`, `do`, `select`, `package` or other opening word."""

    def __init__(self, source):
        tokens = definition("ada_lex.specs.Reading", "tokens_of")(tuple(source)).a[0]
        self.places = [place_of(token.d["place"]) for token in tokens]
        self.words = [bytes(source[token.d["first"]:token.d["end"]]).decode("latin-1").lower() for token in tokens]
        self.end_at = {}
        self.match()

    def match(self):
        """Goes through the tokens with what is open: each is a word, and the token at which it opened."""
        opened, head, brackets = [], None, 0
        for at, word in enumerate(self.words):
            before = self.words[at - 1] if at else ""
            if word in "()":
                brackets += 1 if word == "(" else -1
            elif word == ";" and brackets == 0:
                head = None
            elif word == "end":
                if opened:
                    self.close(opened.pop(), at)
            elif word in HEADS and before != "end" and not (word == "type" and head):
                # `task type T is` is the head of a task
                head = word, at
                if word in ("if", "case", "loop", "select"):
                    opened.append((word, [at]))
            elif word == "body" and head:
                head = head[0] + " body", head[1]
            elif word in ("do", "declare") or (word == "record" and before not in ("end", "null")):
                opened.append((word, [at]))
            elif word == "is" and head:
                if head[0] in OPENED_BY_IS:
                    opened.append((head[0], [head[1]]))
                head = None
            elif word == "begin":
                # of a body, a block with declarations, or a package; or of a block that begins with it
                if opened and opened[-1][0] in HAVE_BEGIN and len(opened[-1][1]) == 1:
                    opened[-1][1].append(at)
                else:
                    opened.append((word, [at]))

    def close(self, construct, end):
        for at in construct[1]:
            self.end_at[at] = end

    def before(self, place, words):
        """The last token before a place that is one of these words."""
        at = bisect_left(self.places, place) - 1
        while at > 0 and self.words[at] not in words:
            at -= 1
        return at

    def at(self, place):
        """The token that begins at a place."""
        return bisect_left(self.places, place)

    def end_of(self, at):
        return self.places[self.end_at.get(at, at)]

    def begin_of(self, sequence):
        """The `begin` or `do` of a sequence's parts."""
        return self.before(place_of_statement(sequence.d["statements"].d["first"]), ("begin", "do"))


# ---- the image with the places of its statements


@dataclass
class Places:
    """Where the statements of an image stand, and where what they open ends."""

    statements: dict = field(default_factory=dict)
    subprograms: dict = field(default_factory=dict)
    ends: dict = field(default_factory=dict)
    scope_ends: dict = field(default_factory=dict)


class Watch:
    """While it is open, the definitions that make an image tell which part of the tree they work on."""

    def __init__(self, source):
        self.ends = Ends(source)
        self.places = Places()
        self.within = [(1, 1)]
        self.kept = {}

    def __enter__(self):
        begin = lambda parts: self.ends.places[self.ends.begin_of(parts)]  # noqa: E731
        # the parameters of a definition are: the sequence where its module has one, then its own, and the lists last
        self.stand("Statements", "statement_put", lambda a: place_of_statement(a[2]))
        self.stand("Statements", "elsifs_put", lambda a: place_of(a[2][0].d["place"]) if a[2] else None)
        self.stand("Statements", "delay_put", lambda a: place_of(a[1].d["place"]))
        self.stand("Statements", "accept_put", lambda a: place_of(a[2].d["place"]))
        self.stand("Statements", "asynchronous_put", lambda a: None, self.open_select)
        self.stand("Declarations", "object_put", lambda a: place_of(a[3].d["place"]))
        self.stand("Declarations", "unhandled_put", lambda a: begin(a[3]))
        self.stand("Declarations", "with_handlers_put", lambda a: begin(a[3]), self.open_handled)
        self.stand("Declarations", "body_put", lambda a: None, self.open_body)
        self.stand("Declarations", "handled_put", lambda a: None, self.open_construct)
        self.stand("Declarations", "whole_put", lambda a: begin(a[3]), self.open_scope)
        self.stand("Units", "package_declaration_put", lambda a: self.end_of_package(a[2]))
        self.stand("Units", "package_body_put", lambda a: self.end_of_package(a[2]))
        self.stand("Units", "actions_made", lambda a: place_of(a[0].d["main"].d["place"]))
        self.watch("ada_image.specs.CallStatements", "call_statement_put", lambda a: first_place(a[1]))
        self.watch("ada_image.specs.Making", "action_put", lambda a: None, self.make)
        self.watch("ada_image.specs.Making", "reserved", lambda a: None, self.make)
        self.places.scope_ends[0] = self.ends.places[max(i for i, word in enumerate(self.ends.words) if word == "end")]
        return self

    def __exit__(self, *_):
        for name, inner in self.kept.items():
            GLOBALS[name] = inner

    def stand(self, file, name, place, also=None):
        self.watch(IMAGE + file, name, place, also)

    def watch(self, module, name, place, also=None):
        """While this definition is computed, what is made comes from this place of its arguments."""
        made = load(module).defs[name]
        made.compile()
        inner = self.kept[made.py] = GLOBALS[made.py]

        def watched(*arguments):
            here = place(arguments)
            self.within.append(here or self.within[-1])
            try:
                if also:
                    also(arguments)
                return inner(*arguments)
            finally:
                self.within.pop()

        GLOBALS[made.py] = watched

    # what is told besides; the next statement has the number that is the length of the list

    def make(self, arguments):
        self.places.statements[len(arguments[-1].d["statements"])] = self.within[-1]

    def next_ends_at(self, arguments, end):
        self.places.ends[len(arguments[-1].d["statements"])] = end

    def open_body(self, arguments):
        """The body of a subprogram, by its number."""
        _, _, place, function = arguments[:4]
        if function.n == "Some":
            self.places.subprograms[function.a[0].d["0"]] = place_of(place)

    def open_construct(self, arguments):
        """The sequence of an accept statement or a block, by the number of its statement."""
        construct = arguments[1].d["construct"]
        if construct.n == "Some":
            self.places.ends[construct.a[0].d["0"]] = self.ends.end_of(self.ends.begin_of(arguments[3]))

    def open_scope(self, arguments):
        """The body of a task or a subprogram, or a block, by the number of its scope."""
        end = self.ends.end_of(self.ends.begin_of(arguments[3]))
        self.places.scope_ends[arguments[1].d["scope"]] = end

    def open_select(self, arguments):
        at = self.ends.at(self.within[-1])
        self.next_ends_at(arguments, self.ends.end_of(at))

    def open_handled(self, arguments):
        self.next_ends_at(arguments, self.ends.end_of(self.ends.begin_of(arguments[3])))

    def end_of_package(self, package):
        return self.ends.end_of(self.ends.before(place_of(package.d["name"].d["place"]), ("package",)))


def image_of(source):
    """The image of a source, and the places of its statements."""
    if definition("ada_lex.specs.Reading", "tokens_of")(tuple(source)).n == "Err":
        _, refusal = interpreter.judged(source)
        raise NotFollowed(interpreter.refusal_text(refusal).decode().strip())
    with Watch(source) as watch:
        image, refusal = interpreter.judged(source)
    if refusal is not None:
        raise NotFollowed(interpreter.refusal_text(refusal).decode().strip())
    return image, watch.places


# ---- the run


@dataclass
class Line:
    """A line of a trace, with the place of the statement that it comes from, and how: an action `acts`, a task `stands` there."""

    tick: int
    text: str
    place: tuple = None
    how: str = ""


def name_of(who):
    """t3 or agent."""
    return "agent" if who.n == "Agent" else f"t{who.a[0].d['0']}"


def chosen_of(option):
    return name_of(option.a[0]) if option.n == "Some" else None


class Follower:
    """A run, from world to world."""

    def __init__(self, image, places, items, bound):
        self.image, self.places, self.items, self.bound = image, places, items, bound
        self.last = {}  # where each task acted last
        run, instant = "profile_machine.specs.Run", "profile_machine.specs.Instant"
        self.opening, self.tock, self.stop = (definition(run, it) for it in ("opening", "tock", "stop"))
        self.finish = definition(instant, "finish_action")
        due = ("script_items", "events_due", "moments_due", "timers_due", "budgets_due", "quantum_spent")
        self.due = [definition(instant, it) for it in due]
        self.jumped = definition("machine_kernel.specs.Jump", "jumped")
        self.line_text = definition("trace_text.specs.Text", "line_text")
        self.task_of = definition("profile_machine.specs.Tasks", "task_of")

    def told(self, tick, events, place, how, world=None):
        """The lines of these events; one by which somebody else is told, who stands where it is, comes from there."""
        for event in events:
            text = bytes(self.line_text(tick, event)).decode().rstrip("\n")
            if how == "stands":
                words = text.split(" ")
                place = self.last.get(words[1])
                if words[1] == "release":
                    place = self.place_of_release(world, int(words[2]))
                elif words[1] == "agent":
                    place = self.handler_place(world) if not world.d["agent"].d["frames"] else place
            yield Line(tick, text, place, how if place else "")

    def place_of_next(self, world, who):
        """Where the action stands that a task does next, or does now."""
        frames = self.task_of(world, who).d["frames"]
        if not frames:
            return self.handler_place(world) if who.n == "Agent" else None
        frame = frames[0]
        if frame.d["onward"].n == "Some":
            return self.places.statements.get(frame.d["onward"].a[0].d["0"])
        return self.place_of_end(world, frame.d["mark"]) or self.last.get(name_of(who))

    def handler_place(self, world):
        """The handler that the agent serves, or begins next."""
        serving, pending = world.d["serving"], world.d["releases"]
        release = serving.a[0] if serving.n == "Some" else pending[0] if pending else None
        return self.place_of_handler(release) if release else None

    def place_of_release(self, world, number):
        for release in world.d["releases"]:
            if release.d["number"] == number:
                return self.place_of_handler(release)
        return None

    def place_of_handler(self, release):
        return self.places.subprograms.get(release.d["handler"].d["procedure"].d["0"])

    def place_of_end(self, world, mark):
        """Where a construct ends; none for one that has no words of its own."""
        kind = mark.n
        if kind == "Handled":
            return self.places.ends.get(mark.a[0].d["0"])
        if kind == "InAccept":
            return self.places.ends.get(mark.a[0].d["accept"].d["0"])
        if kind == "Abortable":
            return self.places.ends.get(mark.a[0].d["select"].d["0"])
        if kind == "Scope":
            number = mark.a[0].d["within"].d["0"]
            for scope in world.d["scopes"]:
                if scope.d["id"].d["0"] == number:
                    return self.places.scope_ends.get(scope.d["scope"].d["0"])
        return None

    def steps(self):
        """Each instant with its tock: the tick, its lines, the world while the tick passes, who runs in it and at which place, and
        whether something has changed. At the last instant nobody runs any more."""
        opened = self.opening(self.image, self.items)
        world = opened.d["0"]
        start = self.places.statements.get(0, (1, 1))
        lines = list(self.told(0, opened.d["1"], start, "acts"))
        while True:
            tick, changed = world.d["time"], bool(lines)
            ran = world.d["ran"]
            if ran.n == "Some":
                left = self.task_of(world, ran.a[0]).d["ticks_left"]
                if left.n == "Some" and left.a[0] == 0:
                    place = self.place_of_next(world, ran.a[0])
                    self.last[name_of(ran.a[0])] = place
                    done = self.finish(self.image, world)
                    world, changed = done.d["0"], True
                    lines += self.told(tick, done.d["1"], place, "acts")
            for part in self.due:
                done = part(self.image, world)
                world = done.d["0"]
                lines += self.told(tick, done.d["1"], None, "stands", world)
            stop = self.stop(self.image, self.bound, world)
            if stop.n == "Some":
                why = interpreter.Con("End", (stop.a[0],))
                yield tick, lines + list(self.told(tick, (why,), None, "")), world, None, None, True
                return
            passed = self.tock(self.image, world)
            chosen = passed.d["0"].d["ran"]
            name = chosen_of(chosen)
            place = self.place_of_next(world, chosen.a[0]) if name else None
            lines += self.told(tick, passed.d["1"], place, "goes on")
            yield tick, lines, passed.d["0"], name, place, changed or bool(lines)
            world, lines = self.jumped(self.bound, passed.d["0"]), []


def follower_of(source, script=None, ticks=None):
    """The run of a source's bytes under a script's."""
    image, places = image_of(source)
    items = ()
    if script is not None:
        items, fault = interpreter.items_of(script)
        if fault is not None:
            raise NotFollowed(interpreter.script_note(fault).decode().strip())
    return Follower(image, places, items, interpreter.default_ticks() if ticks is None else ticks)


def lines_of(follower):
    for _, lines, *_ in follower.steps():
        yield from lines


# ---- the program


def trace_of_program(words):
    """What the built program prints for a run, or None where there is none."""
    if not os.access(PROGRAM, os.X_OK):
        return None
    return subprocess.run([PROGRAM, "run", *words], stdout=subprocess.PIPE, check=False).stdout.decode()


def first_difference(ours, theirs):
    """What is said where two traces are not the same, or None."""
    if ours == theirs:
        return None
    one, other = ours.split("\n"), theirs.split("\n")
    at = next((i for i, (a, b) in enumerate(zip(one, other)) if a != b), min(len(one), len(other)))
    line = lambda text: text[at] if at < len(text) else "(nothing)"  # noqa: E731
    return f"line {at + 1} is '{line(one)}' by the definitions, and '{line(other)}' there"
