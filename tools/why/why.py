#!/usr/bin/env python3
"""Says why annexd refuses something: the place, the rule, and what to write instead.

    ./annexd why SOURCE
    ./annexd why SOURCE SCRIPT
    ./annexd why WORD ..          the words of a command: why run a.adb --ticks 5x, why rta a.table

What is refused is told as the program tells it, and then explained; the status is that of the program. Of a source that
is accepted it says so, with warnings. ./annexd calls it behind the note of `run` and `accept` on a terminal:

    tools/why/why.py [--program PROGRAM] [--behind] WORD ..

PROGRAM is the built program, which is asked for the note; without it the definitions are. --behind writes the explanation
alone, to standard error.
"""
import os
import re
import subprocess
import sys
import tempfile

sys.dont_write_bytecode = True
FOLDER = os.path.dirname(os.path.abspath(__file__))
sys.path[:0] = [FOLDER, os.path.join(os.path.dirname(FOLDER), "definitions")]
import interpreter    # noqa: E402
import others    # noqa: E402
import sources    # noqa: E402

REFUSED = {"source": 4, "script": 5, "words": 6, "read": 7, "trace": 11, "table": 13}


class Program:
    """The built program, asked for notes."""

    def __init__(self, path):
        self.path = path

    def note(self, *words):
        """What the program notes of words; bytes among them are the content of a file."""
        with tempfile.TemporaryDirectory() as folder:
            names = [word if isinstance(word, str) else written(os.path.join(folder, str(i)), word)
                     for i, word in enumerate(words)]
            done = subprocess.run([self.path, *names], stdin=subprocess.DEVNULL, stdout=subprocess.DEVNULL,
                                  stderr=subprocess.PIPE, check=False)
        return done.stderr.decode("latin-1").strip()

    def of_source(self, source):
        return self.note("accept", source)

    def of_script(self, source, script):
        return self.note("run", source, script, "--ticks", "1")

    def of_table(self, table):
        return self.note("demand", table)

    def of_trace(self, trace):
        return self.note("laws", trace)


def written(path, data):
    with open(path, "wb") as file:
        file.write(data)
    return path


class Definitions:
    """The definitions, asked for the same."""

    def of_source(self, source):
        image, refusal = interpreter.judged(source)
        return "" if image is not None else interpreter.refusal_text(refusal).decode().strip()

    def of_script(self, source, script):
        items, fault = interpreter.items_of(script)
        return "" if fault is None else interpreter.script_note(fault).decode().strip()

    def of_table(self, table):
        read = interpreter.definition("sched_tests.specs.Reading", "table_of")(tuple(table))
        if read.n == "Ok":
            return ""
        return bytes(interpreter.definition("sched_tests.specs.Reports", "table_note")(read.a[0])).decode().strip()

    def of_trace(self, trace):
        question = interpreter.Con("Laws")
        return interpreter.traced(question, tuple(trace), lambda text: None)[0].decode().strip()


def command_of(words):
    """The command that words mean: their own, or that of a source alone or with a script."""
    is_command = bool(words) and words[0] in others.COMMANDS and (len(words) > 1 or not os.path.isfile(words[0]))
    if is_command or len(words) > 2:
        return words
    return ["run" if len(words) == 2 else "accept", *words]


def answer(words, asked):
    """The note on the words of a command and its explanation; both are empty where nothing is refused."""
    fault = others.words_fault(words)
    if fault:
        return "words refused", sources.wrapped(fault) + "\n"
    if words[0] == "load":
        return "", ""
    if others.unreadable(words[1]):
        return "read fault", others.file_missing(words)
    first = interpreter.content(words[1])
    if words[0] in ("rta", "demand"):
        return table_answer(first, asked.of_table(first))
    if words[0] in ("laws", "report"):
        return trace_answer(first, asked.of_trace(first))
    return source_answer(words, first, asked)


def source_answer(words, source, asked):
    note = asked.of_source(source)
    place = re.match(r"source refused (\d+):(\d+) (\w+)", note)
    if place:
        text = source.decode("latin-1")
        judge = lambda other: asked.of_source(other.encode("latin-1"))    # noqa: E731
        return note, sources.explained(text, int(place[1]), int(place[2]), place[3], judge)
    scripts = [name for kind, name in others.files_of(words) if kind == "SCRIPT"]
    if note or not scripts:
        return note, ""
    if others.unreadable(scripts[0]):
        return "read fault", others.file_missing(words)
    script = interpreter.content(scripts[0])
    note = asked.of_script(source, script)
    place = re.match(r"script refused (\d+) (\d+)", note)
    return note, others.script_explained(script.decode("latin-1"), int(place[1]), int(place[2])) if place else ""


def table_answer(table, note):
    place = re.match(r"table refused (\d+) (\d+)", note)
    return note, others.table_explained(table.decode("latin-1"), int(place[1]), int(place[2])) if place else ""


def trace_answer(trace, note):
    place = re.match(r"trace refused (\d+)", note)
    return note, others.trace_explained(trace.decode("latin-1"), int(place[1])) if place else ""


def accepted(words):
    """What is said where nothing is refused."""
    kinds = [kind.lower() for kind, _ in others.files_of(words)]
    said = {"source": "accepted\n"}.get(kinds[0] if kinds else "", "not refused\n")
    if kinds[:1] == ["source"]:
        said += sources.warnings(interpreter.content(words[1]).decode("latin-1"))
    return said


def main(arguments):
    for stream in (sys.stdout, sys.stderr):
        stream.reconfigure(errors="replace")
    asked, is_behind = Definitions(), False
    while arguments[:1] in (["--program"], ["--behind"]):
        if arguments[0] == "--behind":
            is_behind, arguments = True, arguments[1:]
        else:
            asked, arguments = Program(arguments[1]), arguments[2:]
    if not arguments and not is_behind:
        sys.stderr.write(__doc__)
        return REFUSED["words"]
    words = arguments if is_behind else command_of(arguments)
    note, explanation = answer(words, asked)
    if is_behind:
        sys.stderr.write(explanation)
    elif not note:
        sys.stdout.write(accepted(words))
    else:
        sys.stdout.write(f"{note}\n{explanation}")
    return REFUSED.get(note.split(" ")[0], 70) if note else 0


if __name__ == "__main__":
    if sys.argv[1:] == ["--help"]:
        print(__doc__, end="")
        sys.exit(0)
    sys.exit(interpreter.in_large_stack(lambda: main(sys.argv[1:])))
