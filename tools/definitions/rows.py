#!/usr/bin/env python3
"""Computes worked programs by the definitions, from the bytes of their sources to the text of their runs, and compares.

    tools/definitions/rows.py [--most TICKS] [--steps] [--verbose] [FOLDER|LESSON.adb|TRACE ..]

Without names all rows of tools/rows, tools/law_rows and check/worked are computed, the lessons of examples, and the
laws of the traces of examples and check/traces. What is written to standard output and standard error and the status are
compared with what is stored, and each image is asked whether the law of sequences with handlers speaks of it. Rows whose
stored run is longer than TICKS (12,000) or whose script has more items are left; each is named. The last line counts; the status is 1 where one is not the same. --steps takes each run step by step (see run.py), --verbose names each
row before it is run.
"""
import argparse
import glob
import os
import re
import sys
import time

sys.dont_write_bytecode = True
import interpreter
from interpreter import ROOT, content


class Row:
    """What is run: words, the files that they name, and what is to be written; `note` is that of a refused source."""

    def __init__(self, name, words, files, out, notes, status):
        self.name, self.words, self.files, self.out, self.notes, self.status = name, words, files, out, notes, status

    def last_tick(self):
        lines = self.out.split(b"\n")
        return int(lines[-2].split(b" ")[0]) if len(lines) > 1 and lines[-2].split(b" ")[0].isdigit() else 0

    def items(self):
        """How many items the repeated lines of the script have."""
        names = self.words[2:3] if self.words[:1] == ["run"] else []
        script = b"".join(self.files(n) or b"" for n in names).decode("latin-1")
        return sum(map(int, re.findall(r"^\d+ every \d+ (\d+) ", script, re.M)))


def by_names(folder):
    return lambda name: content(os.path.join(folder, name))


def of_trace(name, words, files, trace):
    """A row of which the trace is stored; the status is that of its stop."""
    return Row(name, words, files, trace, b"", interpreter.status_of(interpreter.Con("Ended", (interpreter.stop_of(trace),))))


def row_of(path):
    """The row of a folder, of a lesson by its source, or of a trace, which keeps the laws."""
    name, folder, file = os.path.relpath(path, ROOT), os.path.dirname(path), os.path.basename(path)
    if path.endswith(".trace"):
        lines = by_names(folder)(file).count(b"\n")
        return Row(name, ["laws", file], by_names(folder), b"lawful %d\n" % lines, b"", 0)
    if path.endswith(".adb"):
        lesson, folder = os.path.basename(path)[:-4], os.path.dirname(path)
        files = by_names(folder)
        words = ["run", lesson + ".adb"] + [lesson + ".script"] * (files(lesson + ".script") is not None)
        note = files(lesson + ".note")
        if note is not None:
            return Row(name, words, files, b"", note, 4)
        return of_trace(name, words, files, files(lesson + ".trace"))
    files = by_names(path)
    if files("words") is not None:
        return Row(name, os.fsdecode(files("words")).split(), files, files("out"), files("notes"), int(files("status")))
    words = ["run", "source"] + ["script"] * (files("script") is not None)
    if files("ticks") is not None:
        words += ["--ticks", os.fsdecode(files("ticks")).strip()]
    return of_trace(name, words, files, files("trace"))


def all_paths():
    for pattern in ("tools/rows/*", "tools/law_rows/*", "check/worked/*", "examples/*.adb", "check/traces/*.trace",
                    "examples/*.trace"):
        yield from sorted(glob.glob(os.path.join(ROOT, pattern)))


def difference(found, wanted):
    """The first line in which two texts differ."""
    found, wanted = found.split(b"\n"), wanted.split(b"\n")
    for n, (a, b) in enumerate(zip(found, wanted)):
        if a != b:
            return f"line {n + 1} is {a.decode('latin-1')!r} and not {b.decode('latin-1')!r}"
    return f"{len(found) - 1} lines and not {len(wanted) - 1}"


def main():
    words = argparse.ArgumentParser(description=__doc__, formatter_class=argparse.RawDescriptionHelpFormatter)
    words.add_argument("--most", type=int, default=12000)
    words.add_argument("--steps", action="store_true")
    words.add_argument("--verbose", action="store_true")
    words.add_argument("paths", nargs="*")
    a = words.parse_args()
    same, other, left, start = 0, 0, 0, time.process_time()
    for row in map(row_of, [os.path.abspath(p) for p in a.paths] or all_paths()):
        if max(row.last_tick(), row.items()) > a.most:
            left += 1
            print(f"{row.name}: left", flush=True)
            continue
        if a.verbose:
            print(f"{row.name} at {time.process_time() - start:.1f} s", flush=True)
        try:
            out, notes, status = interpreter.performed(row.words, row.files, a.steps)
        except Exception as e:
            print(f"{row.name}: fails: {e!r:.300}", flush=True)
            other += 1
            continue
        if (out, notes, status) == (row.out, row.notes, row.status):
            same += 1
        else:
            other += 1
            told = difference(out, row.out) if out != row.out else f"{notes!r}, status {status}, and not {row.notes!r}, {row.status}"
            print(f"{row.name}: {told}", flush=True)
    print(f"{same} the same, {other} not, {left} left; {time.process_time() - start:.0f} s")
    return int(other > 0)


if __name__ == "__main__":
    sys.exit(interpreter.in_large_stack(main))
