"""What a trace tells: its report as numbers, the jobs of a task, its exceptions, and why the run ended."""
import collections
import re

FIGURES = ("jobs", "worst", "sum", "run", "preempted", "lower", "longest")
WAITS = re.compile(rb" block (?:activation|entry|accept|select|dependents|call)\n")
RAISED = re.compile(rb"^\d+ (?:t\d+|agent) raise (\S+)$", re.M)
LINE = re.compile(rb"\d+ (?:t\d+|p\d+|agent|idle|release|interrupt|port|mask|unmask|masked|end)(?: |\r?\n|$)")


class Account:
    """The line of a report for one task."""

    def __init__(self, task, name, figures, misses=None):
        self.task, self.name, self.given, self.misses = task, name, figures, misses  # no misses where no deadline is known

    @property
    def figures(self):
        """What the report tells, by its words; read when it is asked for."""
        if not isinstance(self.given, dict):
            self.given = dict(zip(FIGURES, map(int, self.given)))
        return self.given

    @property
    def worst(self):
        return self.figures["worst"] if isinstance(self.given, dict) else int(self.given[FIGURES.index("worst")])


class Report:
    """A report. Workers hand it over as its text, which its reader takes apart as far as it needs."""

    def __init__(self, accounts, agent, idle, ticks, text=None):
        self.accounts, self.agent, self.idle, self.ticks, self.text = accounts, agent, idle, ticks, text

    def __reduce__(self):
        return with_misses, (self.text or report_text(self), [a.misses for a in self.accounts])


def report_of(text):
    *rows, agent, idle, ticks = [line.split() for line in text.rstrip("\n").split("\n")]
    accounts = [Account(int(row[0][1:]), row[1], row[3::2]) for row in rows]
    return Report(accounts, int(agent[-1]), int(idle[-1]), int(ticks[-1]), text)


def with_misses(text, misses):
    report = report_of(text)
    for account, count in zip(report.accounts, misses):
        account.misses = count
    return report


def raised_in(trace):
    """The names of the exceptions that were raised, in order; one that is raised again counts again."""
    if b" raise " not in trace:
        return []
    return [name.decode() for name in RAISED.findall(trace)]


def end_of(trace):
    """Why the run ended, as the last line says it behind `end`."""
    words = trace[trace.rfind(b"\n", 0, len(trace) - 1) + 1 :].decode("latin-1").split()
    return " ".join(words[2:]) if words[1:2] == ["end"] else "?"


def is_trace(content):
    """Does the text begin as a trace does? An empty text is none."""
    return LINE.match(content) is not None


def line_before(trace, at):
    """The tick of the line whose subject is followed by this place, or -1 where it is no line but part of a text."""
    first = trace.rfind(b"\n", 0, at) + 1
    tick = trace[first:at]
    return int(tick) if tick.isdigit() else -1


def places(trace, mark, at=0):
    """Each (place, tick) of the lines that go on with these bytes behind their tick."""
    at = trace.find(mark, at)
    while at >= 0:
        tick = line_before(trace, at)
        if tick >= 0:
            yield at, tick
        at = trace.find(mark, at + 1)


# A job: the tick at which it became ready, the tick at which it waited for its next release or was done, or None, and the
# deadline that its first `ready` line tells, or None.
Job = collections.namedtuple("Job", "begun ended deadline")


def releases_of(trace, task, period=None):
    """The releases of a task. For one that delays each goes from the end of a delay, or from its activation, to the next
    delay or its end; for one that never does, each is a job of the report. Where its period is known, one that is late ends
    at the `delay until` that does not block, and the next one counts from when it was due."""
    mark = b" t%d " % task
    ends = list(places(trace, mark + b"block delay\n"))
    if not ends:
        ends = list(places(trace, mark + b"block "))
    ends += list(places(trace, mark + b"done\n"))
    ends.sort()
    jobs, at = [], 0
    for place, tick in [*ends, (len(trace), None)]:
        job = job_from(trace, mark, at)
        if job is not None and job[0] <= place:
            cuts = late_cuts(trace, mark, job[0], place) if period else []
            for late, ended in enumerate([*cuts, tick]):
                jobs.append(Job(job[1] + late * (period or 0), ended, job[2]))
        at = place
    return jobs


def late_cuts(trace, mark, at, end):
    """The ticks at which a task that runs is placed behind all of its level, and neither a quantum nor a base priority says
    why: there a `delay until` found that its moment had passed."""
    cuts, level = [], None
    for place, tick in places(trace, mark + b"ready ", at):
        if place >= end:
            break
        words = trace[place : trace.index(b"\n", place)].split()
        causes = [b"\n%d%s" % (tick, mark) + word for word in (b"quantum\n", b"base ")]
        if words[3] == b"tail" and words[2] == level and all(trace.rfind(cause, max(0, place - 2000), place) < 0 for cause in causes):
            cuts.append(tick)
        level = words[2]
    return cuts


def job_from(trace, mark, at):
    """The place, tick and deadline of the first `ready` line of a task from here on."""
    for place, tick in places(trace, mark + b"ready ", at):
        words = trace[place : trace.index(b"\n", place)].split()
        return place, tick, int(words[4]) if len(words) > 4 else None
    return None


def misses_of(trace, account, deadline, last, waiters, period=None):
    """How many releases of a task ended after their deadline, or are open beyond it; None where no deadline is known. A
    deadline that is given is a number of ticks from the release; else those count that the trace tells. `waiters` are those
    of `waiters_in`, and `period` is that of the task, where it is known."""
    if deadline is None and not re.search(rb" t%d ready \d+ (?:tail|head) \d" % account.task, trace):
        return None  # (none of its ready lines tells a deadline)
    if deadline is not None and account.worst <= deadline and jobs_are_releases(trace, account.task, waiters):
        return int(is_open_for(trace, account.task, last, deadline))
    jobs = releases_of(trace, account.task, period)
    known = [(job, job.begun + deadline if deadline is not None else job.deadline) for job in jobs]
    if all(until is None for _, until in known):
        return None if deadline is None else 0
    return sum(until is not None and (last if job.ended is None else job.ended) > until for job, until in known)


def waiters_in(trace):
    """The subjects that block for something else than a delay."""
    return {trace[trace.rfind(b" ", 0, found.start()) + 1 : found.start()] for found in WAITS.finditer(trace)}


def jobs_are_releases(trace, task, waiters):
    """Does a task wait for delays alone, or never for one? Then its releases are the jobs of the report."""
    return b"t%d" % task not in waiters or b" t%d block delay\n" % task not in trace


def is_open_for(trace, task, last, ticks):
    """Is the job of the report that has not ended older than so many ticks?"""
    at = last_place(trace, b" t%d block " % task)
    return (not at or last - line_before(trace, at) > ticks) and open_for(trace, task, last) > ticks


def open_for(trace, task, last):
    """The age of the job of the report that has not ended, or 0."""
    mark = b" t%d " % task
    at = last_place(trace, mark + b"block ")
    at = max([at, *(place for place, _ in places(trace, mark + b"done\n", at))])
    job = job_from(trace, mark, at)
    return 0 if job is None else last - job[1]


def last_place(trace, mark):
    """The place of the last line that goes on so behind its tick, or 0."""
    at = trace.rfind(mark)
    while at >= 0 and line_before(trace, at) < 0:
        at = trace.rfind(mark, 0, at)
    return max(at, 0)


# ---- lines, for what is read one by one

# A line: its tick, its subject (tN, pN, agent, or "" where it has none), its word, the words behind it, and its text.
Line = collections.namedtuple("Line", "tick subject word rest text")


def lines_of(trace):
    """The lines of a trace; ValueError with the number of a line that is none."""
    found = []
    for number, text in enumerate(trace.decode("latin-1").removesuffix("\n").split("\n") if trace else (), 1):
        words = text.split(" ")
        if len(words) < 2 or not words[0].isdigit():
            raise ValueError(number)
        has_subject = re.fullmatch(r"t\d+|p\d+|agent", words[1]) is not None
        if has_subject and len(words) < 3:
            raise ValueError(number)
        found.append(Line(int(words[0]), *((words[1], words[2], words[3:]) if has_subject else ("", words[1], words[2:])), text))
    return found


class World:
    """Who is ready, at which level, and who runs, behind some lines of a trace."""

    def __init__(self):
        self.names, self.bases, self.ceilings = {}, {}, {}
        self.levels, self.deadlines = {}, {}  # of who is ready
        self.places, self.count = {}, 0  # where it stands in its level: a lower number stands before
        self.runner = ""

    def follow(self, line):
        who = line.subject
        if line.word == "new":
            self.names[who] = line.rest[0]
            (self.ceilings if who[0] == "p" else self.bases)[who] = int(line.rest[1])
        elif line.word == "base":
            self.bases[who] = int(line.rest[0])
        elif line.word == "ready":
            self.count += 1
            self.places[who] = self.count if line.rest[1] == "tail" else -self.count
            self.levels[who] = int(line.rest[0])
            self.deadlines[who] = int(line.rest[2]) if len(line.rest) > 2 else None
        elif line.word in ("block", "done"):
            self.levels.pop(who, None)
        elif line.word == "run":
            self.runner = who
        elif line.word == "idle":
            self.runner = ""

    def queue(self):
        """Who is ready, in the order in which they would be chosen."""
        def key(who):
            deadline = self.deadlines[who]
            return -self.levels[who], deadline is None, deadline or 0, self.places[who]

        return sorted(self.levels, key=key)

    def named(self, who):
        return f"{who} {self.names[who]}" if who in self.names else who


def is_named(name, given):
    """Is this the name of a task, or an end of it?"""
    return name == given or name.endswith("." + given)


def jobs_of(lines, who):
    """The jobs of the report of a task: (begun, ended), where the last may have None for its end."""
    jobs, since = [], None
    for line in lines:
        if line.subject != who:
            continue
        if line.word == "ready" and since is None:
            since = line.tick
        elif line.word in ("block", "done") and since is not None:
            jobs.append((since, line.tick))
            since = None
    return jobs + ([(since, None)] if since is not None else [])


# ---- the report, counted from the lines

class Counting:
    """The figures of a task while its trace is read."""

    def __init__(self, who, name):
        self.who, self.name = who, name
        self.figures = dict.fromkeys(FIGURES, 0)
        self.since = self.tail = None
        self.streak = 0

    def lowered(self, ticks):
        """For so many ticks it is ready while a task of lower base priority runs."""
        self.figures["lower"] += ticks
        self.streak += ticks
        self.figures["longest"] = max(self.figures["longest"], self.streak)

    def leaves(self, tick):
        if self.since is not None:
            response, self.since = tick - self.since, None
            self.figures["jobs"] += 1
            self.figures["sum"] += response
            self.figures["worst"] = max(self.figures["worst"], response)


def counted(lines):
    """The report of the lines of a formed trace, as docs/TRACES.md has it. It is meant for where no program is built, since
    the definitions of a report take minutes for some hundred lines."""
    world, tasks, agent, idle, now = World(), {}, 0, 0, 0
    for line in lines:
        if line.tick > now:
            ticks, now = line.tick - now, line.tick
            pass_ticks(world, tasks, ticks)
            agent += ticks if world.runner == "agent" else 0
            idle += ticks if not world.runner else 0
        count_line(world, tasks, line)
        world.follow(line)
    accounts = [Account(int(c.who[1:]), c.name, c.figures) for c in tasks.values()]
    return Report(accounts, agent, idle, now)


def pass_ticks(world, tasks, ticks):
    if world.runner in tasks:
        tasks[world.runner].figures["run"] += ticks
    runner_base = world.bases.get(world.runner)
    for who, counting in tasks.items():
        if who in world.levels and runner_base is not None and runner_base < world.bases[who]:
            counting.lowered(ticks)
        else:
            counting.streak = 0


def count_line(world, tasks, line):
    who = line.subject
    if line.word == "new" and who[0] == "t":
        tasks[who] = Counting(who, line.rest[0])
    elif line.word == "run":
        before = tasks.get(world.runner)
        if before and before.who != who and before.since is not None and before.tail != line.tick:
            before.figures["preempted"] += 1
    elif who in tasks and line.word == "ready":
        if line.rest[1] == "tail":
            tasks[who].tail = line.tick
        if tasks[who].since is None:
            tasks[who].since = line.tick
    elif who in tasks and line.word in ("block", "done"):
        tasks[who].leaves(line.tick)


def report_text(report):
    """The text of a report, as the program prints it."""
    rows = [f"t{a.task} {a.name} " + " ".join(f"{word} {a.figures[word]}" for word in FIGURES) for a in report.accounts]
    return "\n".join(rows + [f"agent run {report.agent}", f"idle {report.idle}", f"ticks {report.ticks}", ""])
