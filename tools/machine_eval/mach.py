"""The machine of `profile_machine`, run by its definitions, and the lines of its runs as text."""
import itertools
import os
import sys

sys.dont_write_bytecode = True
HERE = os.path.dirname(os.path.abspath(__file__))
sys.path[:0] = [HERE, os.path.dirname(HERE), os.path.join(os.path.dirname(HERE), "definitions")]
import antt
import image_by_front_end
import interpreter
from antt import Con, definition, in_large_stack, load    # noqa: F401

# the modules of the front end and the interpreter, where they are given
MODULES = {}


def start(front_end=None):
    """Reads the definitions, and takes the front end from its folder if it is given."""
    if front_end is not None:
        MODULES.update(image_by_front_end.modules_of(front_end))
    for name in ("Run", "WellFormed", "Releases"):
        load(f"profile_machine.specs.{name}")


def word(module, name):
    """A definition of the machine, as a function."""
    return definition(f"profile_machine.specs.{module}", name)


def image_of(source, script):
    """The image of a program and the items of its script, by the definitions."""
    image, refusal = interpreter.judged(source)
    if refusal is not None:
        raise ValueError(interpreter.refusal_text(refusal).decode().strip())
    items, fault = interpreter.items_of(script)
    if fault is not None:
        raise ValueError(interpreter.script_note(fault).decode().strip())
    return image, items


# ---------------------------------------------------------------- lines

def text_of(name):
    return bytes(name).decode("latin-1")


def number(x):
    return x.d["0"]


def who(w):
    return "agent" if w.n == "Agent" else f"t{number(w.a[0])}"


def kind(c):
    return c.n.lower()


def thing(c):
    """A task or an object, as a line names it."""
    return f"{'t' if c.n in ('Task', 'OfTask') else 'p'}{number(c.a[0])}"


def show(e):
    """An event as a line has it behind its tick."""
    a, n = e.a, e.n
    w = n.lower()
    if n == "New":
        return f"{thing(a[0])} new {text_of(a[1])} {a[2]}"
    if n == "Ready":
        return f"{who(a[0])} ready {a[1]} {kind(a[2])}" + ("" if a[3].n == "None" else f" {a[3].a[0]}")
    if n in ("Run", "Idle"):
        return "idle" if n == "Idle" else f"{who(a[0])} run"
    if n == "Block":
        return f"{who(a[0])} block {kind(a[1])}"
    if n in ("Base", "Deadline"):
        return f"t{number(a[0])} {w} {a[1]}"
    if n in ("Quantum", "Done", "Trigger"):
        return f"t{number(a[0])} {w}"
    if n in ("Raise", "Put"):
        return f"{who(a[0])} {w} {text_of(a[1])}"
    if n == "Call":
        return f"t{number(a[0])} call {number(a[1])} {thing(a[2])}.{text_of(a[2].a[1])} {a[3]}"
    if n == "Start":
        return f"{who(a[0])} start {number(a[1])}"
    if n == "Finish":
        how = text_of(a[2].a[0]) if a[2].n == "Raised" else kind(a[2])
        return f"{who(a[0])} finish {number(a[1])} {how}"
    if n in ("Cancel", "Gone"):
        return f"t{number(a[0])} {w} {number(a[1])}"
    if n in ("Enter", "Held"):
        return f"{who(a[0])} {w} p{number(a[1])} {kind(a[2])}"
    if n == "Exit":
        return f"{who(a[0])} exit p{number(a[1])}"
    if n == "Abort":
        return f"t{number(a[0])} abort t{number(a[1])}"
    if n == "Leave":
        return f"{who(a[0])} leave {number(a[1])} {kind(a[2])}"
    if n == "Init":
        return f"{who(a[0])} init {a[1]} {number(a[2])} {text_of(a[3])}"
    if n in ("Final", "Replace"):
        return f"{who(a[0])} {w} {a[1]}"
    if n == "Left":
        return f"{who(a[0])} left {number(a[1])}"
    if n == "Release":
        return f"release {a[0]} p{number(a[1])}.{text_of(a[2])}"
    if n in ("Serve", "Served"):
        return f"agent {w} {a[0]}"
    if n in ("Interrupt", "Mask", "Unmask", "Masked"):
        return f"{w} {a[0]}"
    if n == "Port":
        return f"port {a[0]} {a[1]}"
    assert n == "End", n
    return "end " + (f"exception {text_of(a[0].a[0])}" if a[0].n == "Exception" else kind(a[0]))


# ---------------------------------------------------------------- runs

def run(program, script, bound, check=False):
    """The lines of a run, one at a time; where `check` asks for it, also one for each world that is not well formed."""
    opening, instant, tock = word("Run", "opening"), word("Instant", "instant"), word("Run", "tock")
    stop, is_well_formed = word("Run", "stop"), word("WellFormed", "is_well_formed")

    def lines(tick, move):
        for e in move.d["1"]:
            yield f"{tick} {show(e)}"
        if check and not is_well_formed(program, move.d["0"]):
            yield f"{tick} !!! not well formed"

    move = opening(program, script)
    yield from lines(0, move)
    while True:
        tick = move.d["0"].d["time"]
        move = instant(program, move.d["0"])
        yield from lines(tick, move)
        why = stop(program, bound, move.d["0"])
        if why.n == "Some":
            yield f"{tick} {show(Con('End', (why.a[0],)))}"
            return
        move = tock(program, move.d["0"])
        yield from lines(tick, move)


def interpreted(source, script, bound):
    """The interpreter's trace of the same program."""
    tree = MODULES["front"].accept(source)
    items = MODULES["script"].script_of(script) if script else []
    k = MODULES["kernel"].Kernel(tree, items, bound)
    k.run()
    return k.out


def difference(wanted, lines):
    """None where the lines are those that are wanted, or a text that shows the first place where they are not."""
    done = 0
    for line in lines:
        if done == len(wanted) or line != wanted[done]:
            found = [line, *itertools.islice(lines, 9)]
            return f"behind:  {'/'.join(wanted[max(0, done - 12):done])}\n  wanted:  {'/'.join(wanted[done:done + 10])}" \
                   f"\n  machine: {'/'.join(found)}"
        done += 1
    return None if done == len(wanted) else f"the machine ends before {wanted[done]}"
