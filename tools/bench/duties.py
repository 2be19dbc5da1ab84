"""Duties: what a run shows of periodic tasks, the table of them for `rta`, and their response times.

A release of a task goes from the end of a delay to the next delay, or to its end; that of a task which never delays, from
where it becomes ready to where it waits. A task that is late begins its next release
at once: then `delay until` does not block, and the release counts from the moment at which it was due.
"""
import re
from dataclasses import dataclass, field

from .traces import World

MOST_TIME, MOST_PRIORITY = 10_000_000, 98
SHORT = re.compile(r"([A-Za-z0-9_.]+) ([1-9]\d*)(?: ([1-9]\d*))?$")
FULL = re.compile(r"([A-Za-z0-9_]{1,80}) ([1-9]\d*) ([1-9]\d*) ([1-9]\d*) (0|[1-9]\d*) (0|[1-9]\d*)$")


@dataclass
class Piece:
    """What is run between two delays, or up to a `delay until` of a moment that has passed."""

    ended: int = None
    run: int = 0


@dataclass
class Release:
    begun: int
    ended: int = None  # None where it has not ended
    run: int = 0
    is_start: bool = False  # from its activation to its first delay

    def response(self, last):
        return (last if self.ended is None else self.ended) - self.begun


@dataclass
class Stretch:
    """Ticks in which nothing changes."""

    first: int
    end: int
    runner: str
    ready: frozenset


@dataclass
class Watched:
    """A task of the trace."""

    who: str
    name: str
    base: int
    chunks: list = field(default_factory=list)  # (begun, pieces) of what lies between two waits for a release
    waits: list = field(default_factory=list)  # (from, reason) of waits that are no delays
    base_changed: bool = False


class Watch:
    """The tasks of a trace, the stretches of its ticks, and its protected actions."""

    def __init__(self, lines):
        self.tasks, self.stretches, self.actions, self.with_deadlines = {}, [], [], False
        self.world, self.open, self.skipped = World(), {}, {}
        self.delaying = {line.subject for line in lines if line.word == "block" and line.rest[0] == "delay"}
        now = 0
        for line in lines:
            if line.tick > now:
                self.pass_ticks(now, line.tick)
                now = line.tick
            self.read(line)
            self.world.follow(line)
        self.last = now

    def pass_ticks(self, first, end):
        runner = self.world.runner
        self.stretches.append(Stretch(first, end, runner, frozenset(self.world.levels)))
        if runner in self.tasks and self.tasks[runner].chunks:
            self.tasks[runner].chunks[-1][1][-1].run += end - first
        for action in self.open.values():
            if action[1] == runner:
                action[2] += end - first

    def read(self, line):
        who = line.subject
        if line.word == "new" and who[0] == "t":
            self.tasks[who] = Watched(who, line.rest[0], int(line.rest[1]))
        elif line.word == "enter":
            self.open[who, line.rest[0]] = [line.rest[0], who, 0]
        elif line.word == "exit" and (who, line.rest[0]) in self.open:
            self.actions.append(tuple(self.open.pop((who, line.rest[0]))))
        elif who in self.tasks:
            self.read_of_task(self.tasks[who], line)

    def read_of_task(self, task, line):
        is_in = task.who in self.world.levels
        if line.word in ("quantum", "base"):
            self.skipped[task.who] = line.tick
            if line.word == "base":
                task.base_changed = task.base_changed or int(line.rest[0]) != task.base
                task.base = int(line.rest[0])
        elif line.word == "ready":
            self.with_deadlines = self.with_deadlines or len(line.rest) > 2
            if not is_in and (not task.chunks or task.chunks[-1][1][-1].ended is not None):
                task.chunks.append((line.tick, [Piece()]))
            elif self.is_late(task, line):
                task.chunks[-1][1][-1].ended = line.tick
                task.chunks[-1][1].append(Piece())
        elif line.word == "done" or (line.word == "block" and (line.rest[0] == "delay" or task.who not in self.delaying)):
            if task.chunks:
                task.chunks[-1][1][-1].ended = line.tick
        elif line.word == "block":
            task.waits.append((line.tick, line.rest[0]))

    def is_late(self, task, line):
        """Is this the line of a `delay until` whose moment has passed?"""
        same = self.world.levels.get(task.who) == int(line.rest[0])
        return same and line.rest[1] == "tail" and self.world.runner == task.who and self.skipped.get(task.who) != line.tick

    def gaps(self, task):
        """The ticks from one release to the next, where none between them was late."""
        begun = [b for b, _ in task.chunks[1:]]
        return [b - a for a, b in zip(begun, begun[1:])]

    def releases(self, task, period):
        found = []
        for number, (begun, pieces) in enumerate(task.chunks):
            for late, piece in enumerate(pieces):
                found.append(Release(begun + late * period, piece.ended, piece.run, number == 0 and late == 0))
        return found

    def blocking(self, priority):
        """The longest protected action of a task of lower base priority on an object of at least this ceiling."""
        return max((ran for where, who, ran in self.actions
                    if who in self.tasks and self.tasks[who].base < priority <= self.world.ceilings.get(where, -1)), default=0)


@dataclass
class Duty:
    """A line of the table for `rta`."""

    name: str
    cost: int
    period: int
    deadline: int
    blocking: int
    priority: int
    who: str = ""
    releases: list = field(default_factory=list)

    def line(self):
        return f"{self.name} {self.cost} {self.period} {self.deadline} {self.blocking} {self.priority}"


def need(duties, place, window):
    """How much duty `place` and those before it ask for in a window that begins with their releases."""
    own = duties[place]
    others = (d for n, d in enumerate(duties) if n != place and d.priority >= own.priority)
    return own.cost + own.blocking + sum(d.cost * -(-window // d.period) for d in others)


def response_time(duties, place):
    """The least window up to the deadline in which no more is needed than there is time for, or None."""
    window = 1
    while window <= duties[place].deadline:
        needed = need(duties, place, window)
        if needed <= window:
            return window
        window = needed  # (no smaller window is enough, since what is needed does not fall)
    return None


class BadTable(Exception):
    """A table that cannot be read, with the number of its line."""


def read_table(text):
    """The lines of a table: (name, period, deadline, the other numbers or None). A line is `NAME T`, `NAME T D`, or a duty as
    `rta` reads it, `NAME C T D B P`."""
    rows = []
    for number, line in enumerate(text.decode("latin-1").splitlines(), 1):
        if not line or line.startswith("--"):
            continue
        short, full = SHORT.fullmatch(line), FULL.fullmatch(line)
        if full:
            cost, period, deadline, blocking, priority = map(int, full.groups()[1:])
            row = (full[1], period, deadline, (cost, blocking, priority))
        elif short:
            cost, blocking, priority = 1, 0, 0
            period = int(short[2])
            deadline = int(short[3] or period)
            row = (short[1], period, deadline, None)
        else:
            raise BadTable(f"line {number} is neither NAME T, NAME T D nor NAME C T D B P")
        if deadline > period or max(cost, period, blocking) > MOST_TIME or priority > MOST_PRIORITY:
            raise BadTable(f"line {number} has a number out of its range, or a deadline above the period")
        if any(row[0] == other[0] for other in rows):
            raise BadTable(f"line {number} has a name that stands above")
        rows.append(row)
    if not rows:
        raise BadTable("it has no duty")
    return rows


# ---- where a run is worse than the bound

def broken_premises(watch, duties, place, release, bound):
    """Which premises of the analysis do not hold in the first `bound` ticks of a release that took longer: sentences. At least
    one does not: if all hold, no more is asked for in these ticks than there is time for."""
    own = duties[place]
    first, end = release.begun, release.begun + bound
    spent = Spent(watch, own, first, end)
    of_duty = {d.who: d for d in duties}
    told = []
    if release.run > own.cost:
        told.append(f"C larger than the table's: this release ran {release.run} ticks, and C is {own.cost}")
    if spent.lower > own.blocking:
        told.append(f"blocking larger than B: tasks of lower base priority ran {spent.lower} of its first {bound} ticks, and B is {own.blocking}")
    if spent.waiting:
        told.append(f"suspension: for {spent.waiting} of its first {bound} ticks it was not ready{waits_text(watch, own, first, end)}")
    for who, ticks in spent.others.items():
        duty = of_duty.get(who)
        if duty is None:
            told.append(f"a runner of at least its priority that is no duty of the table: {watch.world.named(who)} ran {ticks} ticks")
        else:
            told += premises_of_duty(duty, first, end, bound)
    if watch.with_deadlines:
        told.append("fixed priorities: some ready queues are ordered by deadlines")
    if watch.tasks[own.who].base_changed:
        told.append("fixed priorities: its base priority was set while it ran")
    return told


class Spent:
    """On what the ticks of a window were spent, seen from one duty."""

    def __init__(self, watch, own, first, end):
        self.lower = self.waiting = 0
        self.others = {}
        for stretch in watch.stretches:
            ticks = min(stretch.end, end) - max(stretch.first, first)
            if ticks <= 0 or stretch.runner == own.who:
                continue
            if own.who not in stretch.ready and not stretch.runner:
                self.waiting += ticks
            elif not stretch.runner:
                continue
            elif stretch.runner in watch.tasks and watch.tasks[stretch.runner].base < own.priority:
                if own.who in stretch.ready:
                    self.lower += ticks
                else:
                    self.waiting += ticks
            else:
                self.others[stretch.runner] = self.others.get(stretch.runner, 0) + ticks


def waits_text(watch, own, first, end):
    reasons = sorted({reason for tick, reason in watch.tasks[own.who].waits if first <= tick < end})
    return f" ({', '.join(reasons)})" if reasons else ""


def premises_of_duty(duty, first, end, bound):
    """What is wrong with the jobs of a duty of at least the same priority in a window."""
    told = []
    there = [r for r in duty.releases if r.begun < end and (r.ended is None or r.ended > first)]
    most = -(-bound // duty.period)
    starts = [r for r in there if r.is_start]
    if starts:
        told.append(f"a runner that is no duty of the table: the start of {duty.name}, up to its first delay")
        there = [r for r in there if not r.is_start]
    if len(there) > most:
        told.append(f"more jobs in a window than R / T, rounded up: {len(there)} of {duty.name} in {bound} ticks, and {most} by its period {duty.period}")
        close = [b.begun - a.begun for a, b in zip(there, there[1:]) if b.begun - a.begun < duty.period]
        if close:
            told.append(f"release jitter: two releases of {duty.name} are {min(close)} ticks apart, and its period is {duty.period}")
        elif there[0].begun < first:
            told.append(f"a job that was late: that of {duty.name} from {there[0].begun} was still to be done at {first}")
    longer = max((r.run for r in there), default=0)
    if longer > duty.cost:
        told.append(f"C larger than the table's: a release of {duty.name} ran {longer} ticks, and C is {duty.cost}")
    return told
