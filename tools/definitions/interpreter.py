"""The interpreter by the definitions of its crates: from the bytes of a source to its image, and on to the text of its run.

Each name here is a definition that a contract of the program names; this file only calls them, one behind the other.
"""
import os
import sys

sys.dont_write_bytecode = True
sys.path.insert(0, os.path.dirname(os.path.abspath(__file__)))
from antt import ROOT, Con, Rec, constant, definition, in_large_stack    # noqa: E402, F401
import table_tests    # noqa: E402


def content(path, missing=None):
    try:
        with open(path, "rb") as f:
            return f.read()
    except OSError:
        return missing


def default_ticks():
    """The bound of a run for which none is asked."""
    return constant(ROOT, "commands.specs.declared.requests.TheConstants", "DEFAULT_TICKS")


def asked_of(words):
    """What words ask for, or None."""
    option = definition("commands.specs.Asked", "asked_of")(tuple(Rec({"items": tuple(os.fsencode(w))}) for w in words))
    return option.a[0] if option.n == "Some" else None


def judged(source):
    """The image of a source, or its refusal: (image, None) or (None, refusal)."""
    r = definition("ada_verdicts.specs.Accepted", "judged")(tuple(source))
    return (r.a[0], None) if r.n == "Ok" else (None, r.a[0])


def sequences_fit(image):
    """Whether sequences with handlers begin in an image where the law of them asks it."""
    return definition("world_laws.specs.SequenceWorlds", "sequences_fit")(image)


def items_of(script):
    """The items of a script, or its fault: (items, None) or (None, fault)."""
    r = definition("event_script.specs.Script", "script_of")(tuple(script))
    return (r.a[0], None) if r.n == "Ok" else (None, r.a[0])


def refusal_text(refusal):
    return bytes(definition("commands.specs.Outcomes", "refusal_text")(refusal))


def script_note(fault):
    return bytes(definition("commands.specs.Outcomes", "script_note")(fault))


def text_of_run(image, items, ticks):
    """The text of a run, as the contract of the program says it."""
    return bytes(definition("commands.specs.Runs", "text_under")(items, image, ticks))


def texts_of_run(image, items, ticks):
    """The same line by line, by what a kernel shows: for runs of many ticks, since nothing here is as deep as they are many."""
    opened, advanced, written_of = (definition("machine_kernel.specs.Future", n) for n in ("opened", "advanced", "written_of"))
    shown = opened(image, items, ticks)
    while shown.d["stop"].n == "None" or shown.d["owed"]:
        yield bytes(written_of(shown.d["owed"]))
        shown = advanced(shown)


def status_of(outcome):
    return definition("commands.specs.Outcomes", "status_of")(outcome)


def note_of(outcome):
    note = definition("commands.specs.Outcomes", "note_of")(outcome)
    return bytes(note.a[0]) if note.n == "Some" else b""


def stop_of(text):
    """The stop of a run, by the last line of its text."""
    words = text.split(b"\n")[-2].split(b" ")[2:]
    return Con(words[0].decode().capitalize(), tuple(tuple(w) for w in words[1:]))


def load_text(tasks):
    """The source of a load of so many tasks."""
    return bytes(definition("load_runs.specs.Source", "load_text")(tasks))


def summary_of_run(image, items, ticks):
    """The summary of a run, as the contract of the program says it."""
    return bytes(definition("commands.specs.Runs", "summary_under")(items, image, ticks))


def performed(words, files, by_steps=False):
    """What is written to standard output and standard error for words, and the status; `files` gives a file's bytes by its
    name, or None."""
    out = []
    notes, status = perform(words, files, out.append, by_steps)
    return b"".join(out), notes, status


def perform(words, files, write, by_steps=True):
    """The same, where what goes to standard output is written piece by piece. A source is judged before its script is read."""
    asked = asked_of(words)
    if asked is None:
        return refused(Con("WordsRefused"))
    source = load_text(asked.a[0]) if asked.n == "LoadAsked" else files(os.fsdecode(bytes(asked.a[0])))
    if source is None:
        return refused(Con("ReadFault"))
    if asked.n == "TraceAsked":
        return traced(asked.a[1], tuple(source), write)
    if asked.n == "TableAsked":
        return tested(asked.a[1], source, write)
    image, refusal = judged(source)
    if refusal is not None:
        return refused(Con("SourceRefused", (refusal,)))
    if not sequences_fit(image):
        raise ValueError("the law of sequences with handlers does not speak of this image")
    items, ticks = (), None
    if asked.n == "ScriptAsked":
        script = files(os.fsdecode(bytes(asked.a[1])))
        if script is None:
            return refused(Con("ReadFault"))
        items, fault = items_of(script)
        if fault is not None:
            return refused(Con("ScriptRefused", (fault,)))
        ticks = asked.a[2]
    elif asked.n == "LoadAsked":
        text = summary_of_run(image, items, default_ticks())
        write(text)
        return b"", status_of(Con("Ended", (stop_of(text),)))
    elif asked.a[1].n == "Accept":
        write(b"accepted\n")
        return b"", status_of(Con("Accepted"))
    else:
        ticks = asked.a[1].a[0]
    last = b""
    for text in texts_of_run(image, items, ticks) if by_steps else (text_of_run(image, items, ticks),):
        write(text)
        last = text or last
    return b"", status_of(Con("Ended", (stop_of(last),)))


def traced(work, trace, write):
    """The laws or the report of a trace."""
    r = definition("commands.specs.Traces", "trace_answer")(work, trace)
    if r.n == "Err":
        return refused(Con("TraceRefused", r.a))
    text, broken = r.a[0].d["0"], r.a[0].d["1"]
    write(bytes(text))
    return b"", status_of(Con("Traced", (broken,)))


def table_of(table):
    """The duties of a table, or its fault: (duties, None) or (None, fault). A table is cut where the program cuts it."""
    most = constant(ROOT, "sched_tests.specs.declared.duties.TheConstants", "TABLE_BYTES") + 1
    r = definition("sched_tests.specs.Reading", "table_of")(tuple(table[:most]))
    return (r.a[0], None) if r.n == "Ok" else (None, r.a[0])


def as_duty(duty):
    """A duty of the definitions as `table_tests` has it."""
    return table_tests.Duty(bytes(duty.d["name"]).decode(), *(duty.d[f] for f in table_tests.Duty._fields[1:]))


def tested(test, table, write):
    """A test of a table. The definitions read it; what they say window by window is found by `table_tests`."""
    duties, fault = table_of(table)
    if fault is not None:
        return refused(Con("TableRefused", (fault,)))
    lines_of = table_tests.rta_lines if test.n == "ResponseTimes" else table_tests.demand_lines
    lines, failed = lines_of([as_duty(duty) for duty in duties])
    write("".join(line + "\n" for line in lines).encode())
    return b"", status_of(Con("Tested", (failed,)))


def refused(outcome):
    return note_of(outcome), status_of(outcome)
