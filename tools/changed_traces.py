#!/usr/bin/env python3
"""Compares what the program says of changed traces with an independent reading of the laws.

    changed_traces.py --laws FOLDER [--count N] [--seed N] [--program FILE] TRACE..

Each of N traces (1,000 where nothing is said) is one of the given ones with one line changed, dropped, doubled or moved.
The program's `laws`, and `report` where it knows it, are compared with what the modules `laws` and `report` of FOLDER
answer: `laws.check_trace(bytes)` and `report.report_trace(bytes)` give the status, the lines of standard output and the
note. FOLDER is not in the repository. It ends with the counts of the answers, and status 1 where two differ.
"""
import argparse
import collections
import pathlib
import random
import subprocess
import sys
import tempfile

TOP = pathlib.Path(__file__).resolve().parent.parent


def other_number(text, rng):
    number = int(text)
    return str(rng.choice([n for n in (number - 1, number + 1, number + 2, 0, 1, 15) if n >= 0 and n != number]))


def changed(line, lines, rng):
    """The line with one of its words changed."""
    words = line.split(" ")
    place = rng.randrange(len(words))
    word = words[place]
    if word.isdigit():
        words[place] = other_number(word, rng)
    elif word[:1] in ("t", "p") and word[1:].isdigit():
        words[place] = word[0] + other_number(word[1:], rng)
    else:
        beside = [other.split(" ") for other in lines]
        choices = [other[place] for other in beside if len(other) > place and other[place] != word]
        words[place] = rng.choice(choices) if choices else word + "x"
    return " ".join(words)


def change(lines, rng):
    """The lines with one changed, dropped, doubled or moved, and how."""
    lines = list(lines)
    place = rng.randrange(len(lines))
    how = rng.choice(["changed", "dropped", "doubled", "moved"])
    if how == "changed":
        lines[place] = changed(lines[place], lines, rng)
    elif how == "dropped":
        del lines[place]
    elif how == "doubled":
        lines.insert(place, lines[place])
    else:
        line = lines.pop(place)
        lines.insert(rng.randrange(len(lines) + 1), line)
    return lines, how


def told(program, command, trace):
    run = subprocess.run([program, command, str(trace)], capture_output=True, check=False)
    return run.returncode, run.stdout.decode("ascii"), run.stderr.decode("ascii")


def wanted(answer):
    status, lines, note = answer
    return status, "".join(line + "\n" for line in lines), "" if note is None else note + "\n"


def main():
    parser = argparse.ArgumentParser()
    parser.add_argument("--laws", required=True)
    parser.add_argument("--count", type=int, default=1000)
    parser.add_argument("--seed", type=int, default=1)
    parser.add_argument("--program", default=str(TOP / "crates/annexd/out/annexd"))
    parser.add_argument("traces", nargs="+")
    given = parser.parse_args()
    sys.path.insert(0, given.laws)
    import laws
    import report

    rng = random.Random(given.seed)
    traces = [pathlib.Path(name).read_text(encoding="ascii").splitlines() for name in given.traces]
    traces = [lines for lines in traces if lines]
    commands = {"laws": laws.check_trace}
    if told(given.program, "report", given.traces[0])[0] != 6:
        commands["report"] = report.report_trace
    counts = collections.Counter()
    differ = 0
    with tempfile.TemporaryDirectory() as folder:
        trace = pathlib.Path(folder) / "trace"
        for number in range(given.count):
            lines, how = change(rng.choice(traces), rng)
            data = "".join(line + "\n" for line in lines).encode("ascii")
            trace.write_bytes(data)
            for command, oracle in commands.items():
                is_told, is_wanted = told(given.program, command, trace), wanted(oracle(data))
                word = is_wanted[1].split("\n")[0].split(" ")
                counts[(command, how, is_wanted[0], word[2] if is_wanted[0] == 10 else "")] += 1
                if is_told != is_wanted:
                    differ += 1
                    kept = pathlib.Path(f"changed_trace_{number}")
                    kept.write_bytes(data)
                    print(f"{command} of {kept}: told {is_told}, wanted {is_wanted}")
    for (command, how, status, law), count in sorted(counts.items()):
        print(f"{command} {how} status {status} {law} {count}")
    print(f"{given.count} traces, {differ} answers differ")
    return 1 if differ else 0


sys.exit(main())
