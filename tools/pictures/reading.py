"""Reads a trace: who does what from which tick to which, and what happens on the way.

`read_trace` gives a `Picture`. A lane of it is a task, the agent that runs handlers, a protected object, or the script.
"""

import re
from dataclasses import dataclass, field


class BadTrace(Exception):
    """A line that is none of a trace's, or a file that is none."""


@dataclass
class Bar:
    """What a subject does from one tick to another."""

    first: int
    end: int
    state: str
    detail: str = ""
    level: str = ""
    base: str = ""

    @property
    def is_raised(self):
        """Whether the active priority is above the base priority."""
        return self.level.isdigit() and self.base.isdigit() and int(self.level) > int(self.base)


@dataclass
class Mark:
    """Something that happens on a lane at a tick; its kind is one of the signs of `svg`."""

    tick: int
    kind: str
    label: str = ""
    says: str = ""


@dataclass
class Action:
    """A protected action, from `enter` to `exit`."""

    first: int
    end: int
    subject: str
    object: str
    mode: str


@dataclass
class Link:
    """A call that begins or ends: from one lane to another."""

    tick: int
    kind: str
    first: str
    second: str
    says: str


@dataclass
class Job:
    """A stay in the ready queues, as `annexd report` counts it; `run` is the time in which the task ran."""

    subject: str
    first: int
    end: int
    run: int
    preempted: int
    why: str


@dataclass
class Span:
    """The work of one release: up to the next delay, the next deadline where it is late, or the end of the task."""

    first: int
    end: int
    deadline: int
    is_over: bool = True

    @property
    def late_from(self):
        return max(self.first, self.deadline)


@dataclass
class Lane:
    """A subject with all that is drawn on its lane."""

    name: str
    title: str = ""
    note: str = ""
    base: str = ""
    bars: list = field(default_factory=list)
    marks: list = field(default_factory=list)
    leavings: list = field(default_factory=list)
    jobs: list = field(default_factory=list)
    misses: list = field(default_factory=list)

    # while the trace is read
    state: str = ""
    since: int = 0
    detail: str = ""
    level: str = ""
    job_first: int = -1
    preempted: int = 0
    tail: int = -1  # when it was last placed at a tail
    span_first: int = -1
    deadlines: list = field(default_factory=list)
    spans: list = field(default_factory=list)

    @property
    def words(self):
        """The name of the task or the object in the source."""
        return self.title.partition(" ")[2] or self.title

    def turn(self, tick, state, detail=""):
        """Ends the bar that is open at this tick, and begins one of this state."""
        if self.state and tick > self.since:
            self.bars.append(Bar(self.since, tick, self.state, self.detail, self.level, self.base))
        self.state, self.since, self.detail = state, tick, detail

    def at_level(self, tick, level):
        """Goes on in the same state, at another level."""
        if level != self.level:
            self.turn(tick, self.state, self.detail)
            self.level = level

    def run_between(self, first, end):
        """The ticks at which the subject ran; `turn` has ended the last bar."""
        ticks = 0
        for bar in reversed(self.bars):
            if bar.end <= first:
                break
            if bar.state == "run":
                ticks += min(bar.end, end) - max(bar.first, first)
        return ticks

    def end_job(self, tick, why):
        if self.job_first >= 0:
            run = self.run_between(self.job_first, tick)
            self.jobs.append(Job(self.name, self.job_first, tick, run, self.preempted, why))
        self.job_first, self.preempted = -1, 0

    def deadline_of(self, first, end):
        """The deadline of work from a tick to another one: that in force before its end, since a task sets the next one as it
        ends its work. One that had passed before the work began counts only if it was set in this work."""
        for told, moment, is_set in reversed(self.deadlines):
            if told < end:
                return moment if moment >= first or (is_set and told >= first) else None
        return None

    def end_span(self, tick, is_over=True):
        if self.span_first >= 0:
            self.spans.append((self.span_first, tick, self.deadline_of(self.span_first, tick), is_over))
        self.span_first = -1


@dataclass
class Picture:
    """All that a trace tells."""

    lanes: dict = field(default_factory=dict)
    actions: list = field(default_factory=list)
    links: list = field(default_factory=list)
    ticks: set = field(default_factory=set)
    end: int = 0
    why: str = ""

    def lane(self, name):
        if name not in self.lanes:
            self.lanes[name] = Lane(name, name)
        return self.lanes[name]

    @property
    def title(self):
        """The name of the main procedure."""
        return self.lanes["t0"].words if "t0" in self.lanes else "trace"

    @property
    def idle(self):
        """The stretches in which nobody runs."""
        runs = sorted((bar.first, bar.end) for lane in self.lanes.values() for bar in lane.bars if bar.state == "run")
        free, at = [], 0
        for first, end in runs + [(self.end, self.end)]:
            if first > at:
                free.append((at, first))
            at = max(at, end)
        return free


# ---- lines


def parts_of(line, number):
    """The tick, the subject or none, the word and its arguments of a line."""
    words = line.split(" ")
    if len(words) < 2 or not re.fullmatch(r"0|[1-9][0-9]*", words[0]):
        raise BadTrace(f"line {number} is no line of a trace: {line[:60]}")
    tick, rest = int(words[0]), words[1:]
    if re.fullmatch(r"[tp][0-9]+|agent", rest[0]):
        if len(rest) < 2:
            raise BadTrace(f"line {number} has a subject and no word: {line[:60]}")
        return tick, rest[0], rest[1], rest[2:]
    return tick, "", rest[0], rest[1:]


class Reader:
    """Follows a trace line by line: who is in which state, and what is open."""

    def __init__(self, duties=None):
        self.picture = Picture()
        self.duties = duties or {}
        self.runner = None
        self.open_actions = []
        self.open_leavings = {}
        self.callers = {}
        self.entries = {}
        self.objects_named = {}

    def read(self, lines):
        for number, line in enumerate(lines, 1):
            tick, subject, word, arguments = parts_of(line, number)
            if tick < self.picture.end:
                raise BadTrace(f"line {number} is of an earlier tick than the one before it: {line[:60]}")
            self.picture.ticks.add(tick)
            self.picture.end = tick
            try:
                self.follow(tick, subject, word, arguments)
            except IndexError:
                raise BadTrace(f"line {number} lacks an argument: {line[:60]}") from None
        if not self.picture.ticks:
            raise BadTrace("there is no line")
        self.close()
        return self.picture

    def close(self):
        """Ends what is still open at the last tick."""
        end = self.picture.end
        for lane in self.picture.lanes.values():
            lane.turn(end, "")
            lane.end_span(end, False)
            self.mark_misses(lane)
        for action in self.open_actions:
            action.end = end
        for lane, region, first, why in self.open_leavings.values():
            lane.leavings.append((first, end, region, why))

    def mark_misses(self, lane):
        """A span of work whose deadline passed before it was over."""
        allowed = self.duties.get(lane.words.lower(), self.duties.get(lane.words.lower().rpartition(".")[2]))
        for first, end, deadline, is_over in lane.spans:
            if allowed is not None:
                deadline = first + allowed
                self.mark_deadline(lane, str(deadline))
            if deadline is not None and deadline < end:
                lane.misses.append(Span(first, end, deadline, is_over))
                how = f"is done {end - deadline} ticks after" if is_over else "is not yet done at"
                lane.marks.append(Mark(end, "miss", f"+{end - deadline}", f"{how} its deadline {deadline}"))

    def follow(self, tick, subject, word, arguments):
        if subject:
            lane = self.picture.lane(subject)
            known = getattr(self, f"on_{word}", None)
            if known:
                known(tick, lane, arguments)
            else:
                lane.marks.append(Mark(tick, "setting", " ".join([word, *arguments])))
        else:
            self.of_nobody(tick, word, arguments)

    def of_nobody(self, tick, word, arguments):
        """Lines without a subject."""
        says = " ".join([word, *arguments])
        if word == "idle":
            self.stop_runner(tick)
        elif word == "end":
            self.picture.why = " ".join(arguments)
        elif word == "release":
            agent = self.picture.lane("agent")
            agent.marks.append(Mark(tick, "release", f"{arguments[1]} ({arguments[0]})", says))
        else:
            self.picture.lane("script").marks.append(Mark(tick, "script", says, says))

    def stop_runner(self, tick):
        """Whoever runs is ready from now on, unless it has been blocked or has ended."""
        if self.runner and self.runner.state == "run":
            self.runner.turn(tick, "ready")
        self.runner = None

    # the lines of subjects, by their words

    def on_new(self, tick, lane, arguments):
        lane.title, lane.base = f"{lane.name} {arguments[0]}", arguments[1]
        if lane.name.startswith("p"):
            lane.note = f"ceiling {arguments[1]}"
        else:
            lane.note = f"base {arguments[1]}"
            lane.turn(tick, "made")

    def on_ready(self, tick, lane, arguments):
        level, deadline = arguments[0], arguments[2:3]
        if lane.job_first < 0:
            lane.job_first = tick
        if arguments[1] == "tail":
            lane.tail = tick
        if lane.state in ("made", "") or (lane.state == "block" and lane.detail in ("delay", "release")):
            lane.marks.append(Mark(tick, "release", "", "released"))
            lane.span_first = tick
        if lane.state == "run":
            lane.at_level(tick, level)
        else:
            lane.turn(tick, "ready")
            lane.level = level
        if deadline:
            self.tell_deadline(tick, lane, deadline[0], False)

    def on_deadline(self, tick, lane, arguments):
        before = lane.deadline_of(lane.span_first, tick) if lane.span_first >= 0 else None
        if before is not None and before < tick:
            # the work was late when the next deadline was set, also where the next release has come and nothing waits
            lane.end_span(tick)
            lane.span_first = tick
        lane.marks.append(Mark(tick, "setting", f"deadline {arguments[0]}"))
        self.tell_deadline(tick, lane, arguments[0], True)

    def tell_deadline(self, tick, lane, moment, is_set):
        """A `deadline` line sets it; a `ready` line tells the one that counts, which may be an old one."""
        if re.fullmatch(r"-?[0-9]+", moment):
            if is_set or not lane.deadlines or lane.deadlines[-1][1] != int(moment):
                lane.deadlines.append((tick, int(moment), is_set))
            self.mark_deadline(lane, moment)

    def mark_deadline(self, lane, moment):
        mark = Mark(int(moment), "deadline", "deadline", f"the deadline of {lane.title}")
        if int(moment) >= 0 and mark not in lane.marks[-60:]:
            lane.marks.append(mark)

    def on_run(self, tick, lane, arguments):
        if self.runner is not lane:
            # whoever went to a tail itself at this tick is not preempted
            if self.runner and self.runner.state == "run" and self.runner.tail < tick:
                self.runner.preempted += 1
            self.stop_runner(tick)
        lane.turn(tick, "run")
        self.runner = lane

    def on_block(self, tick, lane, arguments):
        lane.turn(tick, "block", arguments[0])
        lane.end_job(tick, arguments[0])
        if arguments[0] in ("delay", "release"):
            lane.end_span(tick)
        if self.runner is lane:
            self.runner = None

    def on_done(self, tick, lane, arguments):
        lane.turn(tick, "")
        lane.end_job(tick, "done")
        lane.end_span(tick)
        lane.marks.append(Mark(tick, "end", "", "terminated"))
        if self.runner is lane:
            self.runner = None

    def on_base(self, tick, lane, arguments):
        lane.marks.append(Mark(tick, "setting", f"base {arguments[0]}"))
        lane.turn(tick, lane.state, lane.detail)
        lane.base = arguments[0]

    def on_raise(self, tick, lane, arguments):
        lane.marks.append(Mark(tick, "fault", arguments[0], f"raises {arguments[0]}"))

    def on_put(self, tick, lane, arguments):
        text = " ".join(arguments)
        shown = text if len(text) <= 24 else text[:22] + ".."
        lane.marks.append(Mark(tick, "put", f"\u201c{shown}\u201d", f"puts {text}"))

    def on_call(self, tick, lane, arguments):
        self.callers[arguments[0]], self.entries[arguments[0]] = lane.name, arguments[1]
        lane.marks.append(Mark(tick, "call", f"calls {arguments[1]}", f"call {arguments[0]} of {arguments[1]}"))

    def link(self, tick, number, first, second, says):
        """A rendezvous has two tasks; an entry body of a protected object may be run by another task than the caller."""
        if first != second:
            kind = "meeting" if self.entries.get(number, "t").startswith("t") else "entry body"
            self.picture.links.append(Link(tick, kind, first, second, says))

    def on_start(self, tick, lane, arguments):
        caller = self.callers.get(arguments[0], lane.name)
        self.link(tick, arguments[0], caller, lane.name, f"call {arguments[0]} begins")

    def on_finish(self, tick, lane, arguments):
        number, how = arguments[0], " ".join(arguments[1:])
        caller = self.callers.get(number, lane.name)
        self.link(tick, number, lane.name, caller, f"call {number} ends: {how}")
        if how != "ok":
            lane.marks.append(Mark(tick, "call" if how == "requeue" else "harm", how, f"call {number} ends: {how}"))

    def on_cancel(self, tick, lane, arguments):
        lane.marks.append(Mark(tick, "cancel", f"cancels {arguments[0]}", f"call {arguments[0]} is cancelled"))

    def on_gone(self, tick, lane, arguments):
        lane.marks.append(Mark(tick, "fault", "gone", f"call {arguments[0]}: the callee is gone"))

    def on_enter(self, tick, lane, arguments):
        action = Action(tick, tick, lane.name, arguments[0], arguments[1])
        self.picture.lane(arguments[0])
        self.picture.actions.append(action)
        self.open_actions.append(action)

    def on_exit(self, tick, lane, arguments):
        for action in reversed(self.open_actions):
            if action.subject == lane.name and action.object == arguments[0]:
                action.end = tick
                self.open_actions.remove(action)
                break

    def on_held(self, tick, lane, arguments):
        lane.marks.append(Mark(tick, "fault", f"{arguments[0]} is held", f"finds {arguments[0]} held"))

    def on_abort(self, tick, lane, arguments):
        lane.marks.append(Mark(tick, "harm", f"aborts {arguments[0]}", f"aborts {arguments[0]}"))
        self.picture.lane(arguments[0]).marks.append(Mark(tick, "fault", "aborted", f"aborted by {lane.name}"))

    def on_trigger(self, tick, lane, arguments):
        lane.marks.append(Mark(tick, "trigger", "trigger", "the trigger has come"))

    def on_quantum(self, tick, lane, arguments):
        lane.marks.append(Mark(tick, "setting", "quantum", "the quantum is spent"))

    def on_leave(self, tick, lane, arguments):
        self.open_leavings[arguments[0]] = lane, arguments[0], tick, arguments[1]

    def on_left(self, tick, lane, arguments):
        lane, region, first, why = self.open_leavings.pop(arguments[0], (lane, arguments[0], tick, ""))
        lane.leavings.append((first, tick, region, why))

    def on_init(self, tick, lane, arguments):
        self.objects_named[arguments[0]] = arguments[2]
        says = f"object {arguments[0]}, {arguments[2]}, is initialized"
        lane.marks.append(Mark(tick, "object", f"+{arguments[2]}", says))

    def on_final(self, tick, lane, arguments):
        name = self.objects_named.get(arguments[0], arguments[0])
        lane.marks.append(Mark(tick, "object", f"\u2212{name}", f"object {arguments[0]}, {name}, is finalized"))

    def on_replace(self, tick, lane, arguments):
        name = self.objects_named.get(arguments[0], arguments[0])
        lane.marks.append(Mark(tick, "object", f"{name} :=", f"object {arguments[0]}, {name}, is assigned"))

    def on_serve(self, tick, lane, arguments):
        lane.marks.append(Mark(tick, "setting", f"serves {arguments[0]}", f"release {arguments[0]} begins"))

    def on_served(self, tick, lane, arguments):
        pass


# ---- files


def read_trace(text, duties=None):
    """The picture of a trace's text; duties give a deadline to the tasks of a name, in ticks after each release."""
    return Reader(duties).read(line for line in text.split("\n") if line)


def duties_of(text):
    """The deadlines of a table of duties, by name: lines NAME C T D B P."""
    duties = {}
    for number, line in enumerate(text.split("\n"), 1):
        line = line.rstrip("\r")
        if line and not line.startswith("--"):
            words = line.split(" ")
            if len(words) != 6 or not all(word.isdigit() for word in words[1:]):
                raise BadTrace(f"line {number} of the table is no duty: {line[:60]}")
            duties[words[0].lower()] = int(words[3])
    return duties


# ---- lanes in their orders


def kind_of(name):
    """The script, tasks, the agent, protected objects."""
    return {"s": 0, "t": 1, "a": 2, "p": 3}[name[0]]


def by_number(picture):
    """The names of the lanes: tasks and objects by number."""
    return sorted(picture.lanes, key=lambda it: (kind_of(it), int(it[1:]) if it[0] in "tp" else 0))


def by_priority(picture):
    """The names of the lanes: of the tasks the highest base priority first."""

    def place(name):
        base = picture.lanes[name].bars[0].base if picture.lanes[name].bars else picture.lanes[name].base
        level = int(base) if base.isdigit() else 0
        number = int(name[1:]) if name[0] in "tp" else 0
        return {"s": 0, "a": 1, "t": 2, "p": 3}[name[0]], -level if name[0] == "t" else 0, number

    return sorted(picture.lanes, key=place)


def chosen(picture, names, wanted):
    """Those of these lanes that are asked for, by number or by name, and the script's."""
    if not wanted:
        return names
    asked = [word.strip().lower() for word in wanted.split(",") if word.strip()]

    def is_meant(name, word):
        words = picture.lanes[name].words.lower()
        return word in (name, words, words.rpartition(".")[2])

    for word in asked:
        if not any(is_meant(name, word) for name in names):
            raise BadTrace(f"there is no task or object {word}")
    return [name for name in names if any(is_meant(name, word) for word in asked)]
