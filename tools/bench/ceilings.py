"""The least ceilings with which a run of a source is lawful, from its traces.

All ceilings are first set to the highest priority, so that every call is lawful. The greatest level at which a call enters
an object is then the least ceiling that it needs; with these ceilings the source is run again, since who calls from inside
another object has that object's ceiling, until the ceilings are those that the run needs.
"""
from .places import Survey, replaced
from .traces import World, lines_of, raised_in

HIGHEST, HIGHEST_IF_WIDE = 30, 97
ROUNDS = 20


class Ceiling:
    def __init__(self, path, old):
        self.path, self.old = path, old  # the ceiling in the run of the source as it stands, None where it was not made
        self.least = None  # None where nobody called it
        self.line = self.caller = ""  # the first call that needs so much
        self.kept = ""  # why its ceiling is left as it is

    @property
    def name(self):
        return ".".join(self.path)

    def verdict(self):
        if self.kept:
            return f"left at {self.old}: {self.kept}"
        if self.old is not None and self.old < self.least:
            return f"too low: {self.caller} calls it at {self.least}, which raises Program_Error"
        if self.old is not None and self.old > self.least:
            return f"higher than it needs: tasks from {self.least + 1} to {self.old} wait for its actions for nothing"
        return f"right: {self.caller} calls it at {self.least}"


class Refused(Exception):
    """A source that is refused, with its status and note."""


def needs_of(survey, trace):
    """Of each declared protected object that is entered, the level that it needs, the line and the caller."""
    world, needs, made = World(), {}, {}
    for line in lines_of(trace):
        if line.word == "enter":
            unit = survey.unit(world.names.get(line.rest[0], ""))
            level = world.levels.get(line.subject, 0)
            if world.deadlines.get(line.subject) is not None:
                level = max(level, world.bases.get(line.subject, 0))
            if unit is not None and level > needs.get(unit.path, (-1,))[0]:
                needs[unit.path] = (level, line.text, world.named(line.subject))
        world.follow(line)
    for who, level in world.ceilings.items():
        unit = survey.unit(world.names[who])
        if unit is not None:
            made.setdefault(unit.path, level)
    return needs, made


def run_lawful(runner, source, script, ticks):
    status, note, trace = runner.run(source, script, ticks)
    if status > 3:
        raise Refused(status, note)
    return trace


def least_ceilings(runner, source, script, ticks):
    """The ceilings, the source with them, its trace, and whether the search came to its end."""
    survey = Survey(source)
    old_trace = run_lawful(runner, source, script, ticks)
    made = needs_of(survey, old_trace)[1]
    units = [d for d in survey.declared if d.kind.startswith("protected")]
    free = [d for d in units if "interrupt_priority" not in d.aspects]
    wide = any(p.path == ("priority_range",) and p.old.lower() == "wide" for p in survey.places)
    settings = {d.path: HIGHEST_IF_WIDE if wide else HIGHEST for d in free}

    def with_ceilings(values):
        return replaced(source, [(survey.priority_of(d), str(values[d.path])) for d in free if d.path in values])

    changed = with_ceilings(settings)
    trace = run_lawful(runner, changed, script, ticks)
    faults, settled, needs = raised_in(trace).count("program_error"), False, {}
    for _ in range(ROUNDS):
        needs = needs_of(survey, trace)[0]
        wanted = {path: needs[path][0] if path in needs else made.get(path, level) for path, level in settings.items()}
        if wanted == settings:
            settled = True
            break
        tried = with_ceilings(wanted)
        tried_trace = run_lawful(runner, tried, script, ticks)
        if raised_in(tried_trace).count("program_error") > faults:
            break
        settings, changed, trace = wanted, tried, tried_trace
    return [ceiling_of(d, made, needs, free) for d in units], changed, trace, settled


def ceiling_of(unit, made, needs, free):
    here = Ceiling(unit.path, made.get(unit.path))
    if unit not in free:
        here.kept = "it has an Interrupt_Priority"
    elif unit.path not in needs:
        here.kept = "nobody called it in this run"
    else:
        here.least, here.line, here.caller = needs[unit.path]
    return here
