"""Tables of duties as people write them, and texts in aligned columns, for tables, table_program and jobs.

A table has a duty on each line, NAME C T D B P, with any spaces or tabs between the words, or commas (CSV). Empty lines and
comments that begin with `--` or `#` say nothing. The first line may name the columns, in any order and in either case, by these
letters or by the words name, cost, period, deadline, blocking and priority; then D may be left out, which makes it the period,
and B and P, which makes them 0. The ranges are those of docs/SCHEDULING.md.
"""
import csv
import io
import os
import re
import signal
import sys

sys.dont_write_bytecode = True
sys.path.insert(0, os.path.join(os.path.dirname(os.path.abspath(__file__)), "definitions"))
from table_tests import LONGEST, Duty    # noqa: E402

COLUMNS = {"name": "name", "c": "cost", "t": "period", "d": "deadline", "b": "blocking", "p": "priority"}
ORDER = list(COLUMNS.values())
NAME = re.compile(r"[A-Za-z0-9_]{1,80}")
NUMBER = re.compile(r"[0-9]{1,10}")
LEAST = {"cost": 1, "period": 1, "deadline": 1, "blocking": 0, "priority": 0}
MOST = {"cost": LONGEST, "period": LONGEST, "deadline": LONGEST, "blocking": LONGEST, "priority": 98}
MOST_DUTIES = 200


class Refused(Exception):
    """A table that is none; the message says which line, and why."""


def end_with_reader():
    """Ends a tool quietly where whoever reads its output has read enough, as head does."""
    signal.signal(signal.SIGPIPE, signal.SIG_DFL)


def rows_of(text):
    """The lines that say something, each as its number and its words."""
    for number, line in enumerate(text.splitlines(), 1):
        line = line.strip()
        if line and not line.startswith(("--", "#")):
            words = next(csv.reader(io.StringIO(line))) if "," in line else line.split()
            yield number, [word.strip() for word in words]


def header_of(words):
    """The columns that a line names, or None where it is no header."""
    names = [COLUMNS.get(word.lower(), word.lower()) for word in words]
    if "name" not in names or any(name not in ORDER for name in names):
        return None
    return names


def number_of(field, word):
    if not NUMBER.fullmatch(word):
        raise ValueError(f"{word!r} is no number")
    value = int(word)
    if not LEAST[field] <= value <= MOST[field]:
        raise ValueError(f"the {field} {value} is not from {LEAST[field]} to {MOST[field]}")
    return value


def duty_of(columns, words):
    """The duty that words say under their columns."""
    if len(words) != len(columns):
        raise ValueError(f"{len(words)} words, and not {len(columns)}: {' '.join(columns)}")
    fields = dict(zip(columns, words))
    if not NAME.fullmatch(fields["name"]):
        raise ValueError(f"{fields['name']!r} is no name: 1 to 80 letters, digits and underscores")
    fields.setdefault("deadline", fields["period"])
    fields.setdefault("blocking", "0")
    fields.setdefault("priority", "0")
    duty = Duty(fields["name"], *(number_of(f, fields[f]) for f in ORDER[1:]))
    if duty.deadline > duty.period:
        raise ValueError(f"the deadline {duty.deadline} is above the period {duty.period}")
    return duty


def table_of(text):
    """The duties of a table."""
    columns, duties = None, []
    for number, words in rows_of(text):
        try:
            if columns is None:
                columns = header_of(words)
                if columns is not None:
                    if len(set(columns)) != len(columns) or not {"cost", "period"} <= set(columns):
                        raise ValueError("the columns NAME, C and T are wanted, each column once")
                    continue
                columns = ORDER
            duty = duty_of(columns, words)
            if any(d.name == duty.name for d in duties):
                raise ValueError(f"the name {duty.name} stands above")
            if len(duties) == MOST_DUTIES:
                raise ValueError(f"there are {MOST_DUTIES} duties above")
            duties.append(duty)
        except ValueError as why:
            raise Refused(f"line {number}: {why}") from None
    if not duties:
        raise Refused("there is no duty")
    return duties


def read(path):
    """The text of a file, or of standard input where the path is `-`."""
    try:
        if path == "-":
            return sys.stdin.buffer.read().decode("utf-8-sig", "replace")
        with open(path, encoding="utf-8-sig", errors="replace") as f:
            return f.read()
    except OSError as why:
        raise Refused(f"{path}: {why.strerror}") from None


def aligned(rows, left=1):
    """Rows of cells as lines of columns; the first `left` columns stand to the left, the others to the right."""
    widths = [max(len(row[k]) for row in rows) for k in range(len(rows[0]))]
    lines = []
    for row in rows:
        cells = [cell.ljust(w) if k < left else cell.rjust(w) for k, (cell, w) in enumerate(zip(row, widths))]
        lines.append("  ".join(cells).rstrip())
    return lines


def in_csv(rows):
    """Rows of cells as lines of CSV."""
    out = io.StringIO()
    csv.writer(out, lineterminator="\n").writerows(rows)
    return out.getvalue().splitlines()


def identifiers(duties):
    """An identifier of Ada for each duty: its name, where it is one and no earlier duty's in either case."""
    taken, found = set(), []
    for duty in duties:
        name = re.sub("_+", "_", duty.name).strip("_") or "Duty"
        if not name[0].isalpha() or name.lower() in RESERVED:
            name = ("Duty_" + name)[:80].rstrip("_")
        base, count = name, 1
        while name.lower() in taken:
            count += 1
            end = f"_{count}"
            name = base[:80 - len(end)].rstrip("_") + end
        taken.add(name.lower())
        found.append(name)
    return found


# the reserved words of Ada 2012
ADA_WORDS = set("""abort abs abstract accept access aliased all and array at begin body case constant declare delay delta digits
do else elsif end entry exception exit for function generic goto if in interface is limited loop mod new not null of or others
out overriding package pragma private procedure protected raise range record rem renames requeue return reverse select separate
some subtype synchronized tagged task terminate then type until use when while with xor""".split())
# with the names that a program made from a table uses itself
RESERVED = ADA_WORDS | set("ada main next period job turn time time_span time_first microseconds".split())
