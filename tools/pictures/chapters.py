"""The data of a page: the source, the trace with its places, the lanes of the picture, and the world at each tick.

What changes from tick to tick is told as a list of changes for each kind of fact, so that a page finds the fact of a tick by
halving the list. All of it is computed from the worlds that the definitions go through.
"""

from pictures.following import NotFollowed, first_difference, name_of
from pictures.reading import by_priority, read_trace
from pictures.svg import SIGNS

HOW = {"acts": "a", "goes on": "g", "stands": "s", "": ""}


def text_of(codes):
    return bytes(codes).decode("latin-1")


def lines_of_text(text):
    """The lines of a file; what is no UTF-8 in a comment is shown as a sign for that."""
    return [line.rstrip("\r") for line in text.decode("utf-8", "replace").rstrip("\n").split("\n")]


class Facts:
    """What a world says, in words that a page shows."""

    def __init__(self, follower):
        self.follower = follower
        self.entries = follower.image.d["entries"]
        self.subprograms = follower.image.d["subprograms"]
        self.known = set()  # the tasks that there were

    def line_of(self, world, who):
        """The line at which a task goes on, or at which it waits."""
        place = self.follower.place_of_next(world, who)
        return place[0] if place else 0

    def callers(self, world, calls):
        """The callers of these calls, by their numbers."""
        of = {call.d["number"].d["0"]: call for call in world.d["calls"]}
        return [f"t{of[it.d['0']].d['caller'].d['0']}" if it.d["0"] in of else "?" for it in calls]

    def queues(self, world, unit, number, queues):
        """The entries of a task or an object on which somebody waits, with the callers in their order."""
        mine = [e for e in self.entries if e.d["unit"].n == unit and e.d["unit"].a[0].d["0"] == number]
        mine.sort(key=lambda e: e.d["place"])
        names = [text_of(e.d["name"]) for e in mine]
        return [[name, self.callers(world, queue)] for name, queue in zip(names, queues) if queue]

    def ready(self, world):
        """The ready queue, the one that runs first: name, level, deadline or nothing, and the line of one that does not run."""
        out, ran = [], world.d["ran"]
        runner = name_of(ran.a[0]) if ran.n == "Some" else None
        for placed in world.d["places"]:
            who, deadline = placed.d["who"], placed.d["deadline"]
            moment = deadline.a[0] if deadline.n == "Some" else None
            line = 0 if name_of(who) == runner else self.line_of(world, who)
            out.append([name_of(who), placed.d["level"], moment, line])
        return out

    def waiting(self, world):
        """What each task waits for, and at which line; nothing for one that is ready or has terminated."""
        delays = {}
        for it in world.d["appointments"]:
            if it.d["due"].n == "Delay":
                delays[it.d["due"].a[0].d["0"]] = it.d["moment"]
        calls = {call.d["number"].d["0"]: call for call in world.d["calls"]}
        out = dict.fromkeys(self.known)
        for task in world.d["tasks"]:
            name = name_of(task.d["who"])
            self.known.add(name)
            if task.d["state"].n == "Blocked":
                why = self.wait_of(task.d["state"].a[0], delays.get(task.d["who"].a[0].d["0"]), calls)
                place = self.follower.last.get(name)
                out[name] = [why, place[0] if place else 0]
            elif task.d["state"].n == "Made":
                out[name] = ["its activation", 0]
        return out

    def wait_of(self, waiting, moment, calls):
        kind = waiting.n
        if kind == "Moment":
            return f"its delay, until {moment}" if moment is not None else "its delay"
        if kind in ("Call", "EndOfCall"):
            call = calls.get(waiting.a[0].d["0"])
            return f"its call of {self.called(call)}" if call else "its call"
        if kind == "Accept":
            return "a call that it accepts"
        if kind == "Select":
            return f"an alternative of its select{f', or {moment}' if moment is not None else ''}"
        return {"Activation": "the tasks that it activates", "Dependents": "its dependents", "Release": "a release"}[kind]

    def called(self, call):
        owner, entry = call.d["owner"], self.entries[call.d["entry"].d["0"]]
        letter = "t" if owner.n == "Task" else "p"
        return f"{letter}{owner.a[0].d['0']}.{text_of(entry.d['name'])}"

    def objects(self, world):
        """The protected objects: name, ceiling, who is inside and how, and the queues of their entries."""
        out = []
        for it in world.d["objects"]:
            inside = [[name_of(a.d["who"]), a.d["mode"].n.lower()] for a in it.d["actions"]]
            queues = self.queues(world, "Protected", it.d["unit"].d["0"], it.d["queues"])
            out.append([f"p{it.d['number'].d['0']}", it.d["ceiling"], inside, queues])
        return out

    def calls(self, world):
        """The queues of tasks' entries."""
        out = []
        for task in world.d["tasks"]:
            unit = task.d["unit"]
            if unit.n == "Some" and any(task.d["queues"]):
                out.append([name_of(task.d["who"]), self.queues(world, "Task", unit.a[0].d["0"], task.d["queues"])])
        return out

    def handler(self, handler):
        name = text_of(self.subprograms[handler.d["procedure"].d["0"]].d["name"])
        return f"p{handler.d['object'].d['0']}.{name}"

    def releases(self, world):
        """The releases of handlers that are served or pending, and what comes at a moment; delays are told of the tasks."""
        out, serving = [], world.d["serving"]
        if serving.n == "Some":
            out.append(f"release {serving.a[0].d['number']} of {self.handler(serving.a[0].d['handler'])} is served")
        for it in world.d["releases"]:
            out.append(f"release {it.d['number']} of {self.handler(it.d['handler'])} is pending")
        for it in world.d["appointments"]:
            due, moment = it.d["due"], it.d["moment"]
            if due.n == "Event":
                out.append(f"at {moment}: {self.handler(due.a[1])}, by a timing event")
            elif due.n == "Timeout":
                out.append(f"at {moment}: the end of call {due.a[0].d['0']}")
            elif due.n == "Trigger":
                out.append(f"at {moment}: the trigger of t{due.a[0].d['0']}")
        return out


class Changes:
    """For each kind of fact the ticks at which it becomes another one, and what it then is."""

    def __init__(self):
        self.changes = {}
        self.last = {}

    def tell(self, tick, kind, fact):
        if kind not in self.last or self.last[kind] != fact:
            self.last[kind] = fact
            self.changes.setdefault(kind, []).append([tick, fact])


def chapters_of(follower, name, source, script=None, other=None):
    """The data of a page of this run; another trace, as a name and a text, must be the same."""
    facts, changes, lines = Facts(follower), Changes(), []
    for tick, said, world, runner, place, changed in follower.steps():
        lines += said
        changes.tell(tick, "run", runner)
        changes.tell(tick, "at", place[0] if place and runner else 0)
        if changed:
            for kind in ("ready", "objects", "calls", "releases"):
                changes.tell(tick, kind, getattr(facts, kind)(world))
            for task, fact in facts.waiting(world).items():
                changes.tell(tick, f"waits {task}", fact)
    trace = "".join(line.text + "\n" for line in lines)
    wrong = first_difference(trace, other[1]) if other else None
    if wrong:
        raise NotFollowed(f"{other[0]} has another trace: {wrong}")
    picture = read_trace(trace)
    return {
        "name": name,
        "title": picture.title,
        "source": lines_of_text(source),
        "script": lines_of_text(script) if script else [],
        "trace": [line.text for line in lines],
        "lines": [line.place[0] if line.place else 0 for line in lines],
        "how": "".join(HOW[line.how] or "-" for line in lines),
        "end": picture.end,
        "why": picture.why,
        "lanes": [lane_of(picture.lanes[it]) for it in by_priority(picture)],
        "actions": [[it.first, it.end, it.subject, it.object, it.mode] for it in picture.actions],
        "links": [[it.tick, it.kind, it.first, it.second, it.says] for it in picture.links],
        "signs": {kind: says for kind, (_, _, says) in SIGNS.items()},
        "changes": changes.changes,
    }


def lane_of(lane):
    """A lane of the picture: bars with their state, level, and whether it is above the base; signs; where it is late, and where a scope is left."""
    bars = [[it.first, it.end, it.state, it.level, int(it.is_raised), it.detail] for it in lane.bars]
    marks = [[it.tick, it.kind, it.says or it.label] for it in lane.marks]
    late = [[it.late_from, it.end] for it in lane.misses]
    left = [[first, end, f"region {region} is left ({why})"] for first, end, region, why in lane.leavings]
    named = {"name": lane.name, "words": lane.words, "note": lane.note}
    return {**named, "bars": bars, "marks": marks, "late": late, "left": left}
