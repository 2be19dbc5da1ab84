"""Why words, files, scripts, tables and traces are refused."""
import os
import re

from source_text import shown_line
from sources import told_rule, wrapped

COMMANDS = {"run": "SOURCE [SCRIPT] [--ticks N]", "accept": "SOURCE", "load": "N", "rta": "TABLE", "demand": "TABLE",
            "laws": "TRACE", "report": "TRACE"}
MOST_TICKS, MOST_TASKS = 1_000_000_000, 200


# ---- words (status 6)

def words_fault(words):
    """Which word is refused and why, or None where the words are a command."""
    if not words:
        return "There is no word. The first one is a command: " + ", ".join(COMMANDS) + "."
    command, rest = words[0], words[1:]
    if command not in COMMANDS:
        return f"The word `{command}` is no command. The commands are {', '.join(COMMANDS)}."
    if command == "load":
        return load_fault(rest)
    return run_fault(rest) if command == "run" else one_file_fault(command, rest)


def form_of(command):
    return f"The form is `./annexd {command} {COMMANDS[command]}`."


def load_fault(rest):
    if not rest:
        return f"The number of tasks is missing behind `load`. {form_of('load')}"
    if number(rest[0], MOST_TASKS) is None:
        return f"`{rest[0]}` is no number of tasks: 1 to 200, in plain decimal. {form_of('load')}"
    return too_many("load", rest[1:])


def one_file_fault(command, rest):
    kind = COMMANDS[command]
    if not rest:
        return f"The {kind} is missing behind `{command}`. {form_of(command)}"
    return file_fault(kind, rest[0], command) or too_many(command, rest[1:])


def run_fault(rest):
    if not rest:
        return f"The SOURCE is missing behind `run`. {form_of('run')}"
    fault = file_fault("SOURCE", rest[0], "run")
    if fault:
        return fault
    rest = rest[1:]
    if rest and rest[0] != "--ticks":
        if rest[0].startswith("--ticks="):
            return f"`{rest[0]}` is one word: `--ticks` and its number are two. {form_of('run')}"
        if rest[0].startswith("--"):
            return f"There is no option `{rest[0]}`: `--ticks` is the only one. {form_of('run')}"
        fault = file_fault("SCRIPT", rest[0], "run")
        if fault:
            return fault
        rest = rest[1:]
    return ticks_fault(rest)


def ticks_fault(rest):
    if not rest:
        return None
    if rest[0] != "--ticks":
        return f"The word `{rest[0]}` has no place behind SOURCE and SCRIPT, where only `--ticks N` may stand. {form_of('run')}"
    if len(rest) == 1:
        return f"The number is missing behind `--ticks`. {form_of('run')}"
    if number(rest[1], MOST_TICKS) is None:
        return f"`{rest[1]}` is no number of ticks: 1 to 1,000,000,000, in plain decimal without leading zeros."
    return too_many("run", rest[2:])


def file_fault(kind, word, command):
    if not word:
        return f"The {kind} is an empty word. {form_of(command)}"
    if word.startswith("-"):
        return f"`{word}` stands where the {kind} stands, and a name does not begin with a hyphen; `./{word}` names the file. " \
               + form_of(command)
    return None


def too_many(command, rest):
    return f"The word `{rest[0]}` is one too many. {form_of(command)}" if rest else None


def number(word, most):
    """The number from 1 to `most` that a word is, or None."""
    return int(word) if re.fullmatch(r"[1-9][0-9]{0,11}", word) and int(word) <= most else None


# ---- files (status 7)

def files_of(words):
    """The files that the words of a command name, each with what it is."""
    kinds = re.findall(r"[A-Z]{5,}", COMMANDS[words[0]])
    return list(zip(kinds, words[1:2] + [w for w in words[2:3] if w != "--ticks"]))


def file_missing(words):
    """Which file cannot be read, and why; empty where all can."""
    for kind, name in files_of(words):
        why = unreadable(name)
        if why:
            return wrapped(f"The {kind} `{name}` {why}.") + "\n"
    return ""


def unreadable(name):
    if not os.path.lexists(name):
        return "is not there; a name that is no path from the root counts from the present folder, " + os.getcwd()
    if os.path.isdir(name):
        return "is a folder"
    if not os.path.isfile(name):
        return "is no ordinary file, and only such a one can be explained"
    try:
        with open(name, "rb") as file:
            file.read(1)
    except OSError as error:
        return f"cannot be read: {error.strerror}"
    return ""


# ---- scripts, tables and traces (status 5, 13 and 11)

def told_line(text, line, reason, rule, title):
    said = [shown_line(text, line)] if line else []
    if reason:
        said.append(wrapped(reason))
    said.append(told_rule(rule, title))
    return "\n".join(said) + "\n"


def line_in(text, line):
    lines = text.split("\n")
    whole = lines[line - 1] if 0 < line <= len(lines) else ""
    return whole[:-1] if whole.endswith("\r") and line < len(lines) else whole


def script_explained(text, line, kind):
    """What is to be said of a script that is refused."""
    whole = line_in(text, line)
    return told_line(text, line, script_reason(text, whole, kind), f"script {kind}", f"Kind {kind}")


def script_reason(text, whole, kind):
    words = whole.split(" ")
    if kind == 1:
        return spacing(whole) or script_form(text, words)
    if kind == 2:
        return script_number(words)
    if kind == 4:
        return f"`{words[-1] if words[-2:-1] == ['interrupt'] else words[2]}` is above 15."
    return ""


def spacing(whole):
    """What is wrong with the spaces of a line, or nothing."""
    if "\t" in whole:
        return "The line has a tab; words are apart by one space."
    if "\r" in whole:
        return "The line has a carriage return that stands before no line feed."
    if whole.startswith(" "):
        return "The line begins with a space."
    if whole.endswith(" "):
        return "The line ends with a space."
    if "  " in whole:
        return "Two spaces stand side by side; words are apart by one."
    return ""


def script_form(text, words):
    if words[:1] == ["version"]:
        return "`version 2` stands alone, in the first line of all."
    second = [w for w in words if w in ("every", "mask", "unmask")]
    if second and text.split("\n")[0].rstrip("\r") != "version 2":
        return f"`{second[0]}` is a word of the second version: the first line of all is then `version 2`."
    for word in words:
        if word != word.lower() and word.lower() in ("interrupt", "port", "every", "mask", "unmask"):
            return f"`{word}` is written in small letters."
    for word, count in (("interrupt", 3), ("port", 4)):
        if words[1:2] == [word] and len(words) != count:
            return f"A line with `{word}` has {count} words, and this one has {len(words)}."
    if len(words) > 1 and words[1] not in ("interrupt", "port", "every", "mask", "unmask"):
        return f"`{words[1]}` is neither `interrupt` nor `port`."
    return ""


def script_number(words):
    """Which word of a script's line is no number in its range."""
    if words[1] == "every":
        ranges = [("TICK", words[0], 0, MOST_TICKS), ("PERIOD", words[2], 1, MOST_TICKS), ("COUNT", words[3], 1, 100_000)]
    else:
        ranges = [("TICK", words[0], 0, MOST_TICKS)]
    if words[1] == "port":
        ranges.append(("VALUE", words[3], -2**31, 2**31 - 1))
    for name, word, low, high in ranges:
        if not re.fullmatch(r"0|[1-9][0-9]*|-[1-9][0-9]*", word):
            return f"{name}, `{word}`, is no plain decimal number."
        if not low <= int(word) <= high:
            return f"{name}, `{word}`, is not from {low:,} to {high:,}."
    last = words[2] if words[1] != "every" else words[5]
    if not re.fullmatch(r"0|[1-9][0-9]*", last):
        return f"N, `{last}`, is no plain decimal number."
    return "The last of these interrupts would come behind tick 1,000,000,000."


def table_explained(text, line, kind):
    """What is to be said of a table that is refused."""
    whole = line_in(text, line)
    return told_line(text, line, table_reason(whole, kind), f"table {kind}", f"Kind {kind}")


def table_reason(whole, kind):
    words = whole.split(" ")
    if kind == 1:
        return spacing(whole) or (f"A duty has six words, and this line has {len(words)}." if len(words) != 6 else
                                  f"`{words[0]}` is no name: 1 to 80 letters, digits and underscores.")
    if kind == 2:
        return table_number(words)
    return f"`{words[0]}` is the name of a duty above." if kind == 3 else ""


def table_number(words):
    ranges = [("C", 1, 10**7), ("T", 1, 10**7), ("D", 1, 10**7), ("B", 0, 10**7), ("P", 0, 98)]
    for (name, low, high), word in zip(ranges, words[1:]):
        if not re.fullmatch(r"0|[1-9][0-9]*", word):
            return f"{name}, `{word}`, is no plain decimal number."
        if not low <= int(word) <= high:
            return f"{name}, `{word}`, is not from {low:,} to {high:,}."
    return f"D, the deadline {words[3]}, is above T, the period {words[2]}."


def trace_explained(text, line):
    """What is to be said of a trace that is refused."""
    return told_line(text, line, "", "trace", "A trace")
