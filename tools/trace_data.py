#!/usr/bin/env python3
"""Writes trace files as definitions: trace_data.py MODULE NAME=FILE .. prints an antt module with one list of lines
for each file. A line that is no line of a trace is an error. `rt tidy` then drops the imports that a module does not use."""
import re
import sys

HEADER = """-- {title}. Written by tools/trace_data.py.
use Rattle.std.specs.Prelude.{{ℕ, ℤ, pos, negsuc, List, [], ◌∷◌, Option, Some, None, codes}}
use Rattle.ann_base.specs.declared.identities.TaskNo.{{TaskNo}}
use Rattle.ann_base.specs.declared.identities.ObjectNo.{{ObjectNo}}
use Rattle.ann_base.specs.declared.identities.CallNo.{{CallNo}}
use Rattle.ann_base.specs.declared.identities.RegionNo.{{RegionNo}}
use Rattle.trace_text.specs.declared.events.Who.{{Who}}
use Rattle.trace_text.specs.declared.events.Who.TheVariants as subject
use Rattle.trace_text.specs.declared.events.Created.TheVariants as created
use Rattle.trace_text.specs.declared.events.QueueEnd.TheVariants.{{Head, Tail}}
use Rattle.trace_text.specs.declared.events.Waits.TheVariants as waits
use Rattle.trace_text.specs.declared.events.Mode.TheVariants as mode
use Rattle.trace_text.specs.declared.events.Leaves.TheVariants as leaves
use Rattle.trace_text.specs.declared.events.EntryName.TheVariants.{{OfTask, OfObject}}
use Rattle.trace_text.specs.declared.events.Finished.TheVariants as finished
use Rattle.trace_text.specs.declared.events.Ended.TheVariants as ended
use Rattle.trace_text.specs.declared.events.Event.TheVariants as event
use Rattle.trace_text.specs.Queue.{{TraceLine}}
{more}"""

BASE = """
abbrev pub task : ℕ → TaskNo
task number = record { 0 = number }

abbrev pub object : ℕ → ObjectNo
object number = record { 0 = number }

abbrev pub call : ℕ → CallNo
call number = record { 0 = number }

abbrev pub region : ℕ → RegionNo
region number = record { 0 = number }

abbrev pub who : ℕ → Who
who number = subject.Task (task number)
"""


def signed(word):
    value = int(word)
    return f"(pos {value})" if value >= 0 else f"(negsuc {-value - 1})"


def text(word):
    return f'(codes "{word}")'


def numbered(word, kinds):
    if not re.fullmatch("[" + "".join(kinds) + "][0-9]+", word):
        raise ValueError(word)
    return kinds[word[0]], word[1:]


def subject(word):
    return "subject.Agent" if word == "agent" else "(who %s)" % numbered(word, {"t": ""})[1]


def part(word):
    owner, _, name = word.partition(".")
    kind, number = numbered(owner, {"t": "OfTask (task", "p": "OfObject (object"})
    return f"({kind} {number}) {text(name)})"


def title(word):
    return word.capitalize()


def event(words, line):
    """The term of an event whose words these are."""
    if words[0] == "idle":
        return "event.Idle"
    if words[0] in ("interrupt", "mask", "unmask", "masked"):
        return f"event.{title(words[0])} {words[1]}"
    if words[0] == "port":
        return f"event.Port {words[1]} {signed(words[2])}"
    if words[0] == "release":
        owner, _, name = words[2].partition(".")
        return f"event.Release {words[1]} (object {numbered(owner, {'p': ''})[1]}) {text(name)}"
    if words[0] == "end":
        if words[1] == "exception":
            return f"event.End (ended.Exception {text(words[2])})"
        return f"event.End ended.{title(words[1])}"
    word, rest = words[1], words[2:]
    if word == "new":
        kind, number = numbered(words[0], {"t": "created.Task (task", "p": "created.Object (object"})
        return f"event.New ({kind} {number})) {text(rest[0])} {rest[1]}"
    if word in ("serve", "served"):
        return f"event.{title(word)} {rest[0]}"
    if word in ("base", "deadline", "quantum", "done", "call", "cancel", "gone", "abort", "trigger"):
        who = "(task %s)" % numbered(words[0], {"t": ""})[1]
    else:
        who = subject(words[0])
    head = f"event.{title(word)} {who}"
    if word == "ready":
        deadline = f"(Some {signed(rest[2])})" if len(rest) == 3 else "None"
        return f"{head} {rest[0]} {title(rest[1])} {deadline}"
    if word == "block":
        return f"{head} waits.{title(rest[0])}"
    if word in ("run", "quantum", "done", "trigger"):
        return head
    if word == "base":
        return f"{head} {rest[0]}"
    if word == "deadline":
        return f"{head} {signed(rest[0])}"
    if word == "raise":
        return f"{head} {text(rest[0])}"
    if word == "put":
        return f"{head} {text(line.split(' put ', 1)[1])}"
    if word == "call":
        return f"{head} (call {rest[0]}) {part(rest[1])} {rest[2]}"
    if word in ("start", "cancel", "gone"):
        return f"{head} (call {rest[0]})"
    if word == "finish":
        how = f"finished.{title(rest[1])}" if rest[1] in ("ok", "requeue") else f"(finished.Raised {text(rest[1])})"
        return f"{head} (call {rest[0]}) {how}"
    if word in ("enter", "held"):
        return f"{head} (object {numbered(rest[0], {'p': ''})[1]}) mode.{title(rest[1])}"
    if word == "exit":
        return f"{head} (object {numbered(rest[0], {'p': ''})[1]})"
    if word == "abort":
        return f"{head} (task {numbered(rest[0], {'t': ''})[1]})"
    if word == "leave":
        return f"{head} (region {rest[0]}) leaves.{title(rest[1])}"
    if word == "init":
        return f"{head} {rest[0]} (region {rest[1]}) {text(rest[2])}"
    if word in ("final", "replace"):
        return f"{head} {rest[0]}"
    if word == "left":
        return f"{head} (region {rest[0]})"
    raise ValueError(line)


def main():
    module, pairs = sys.argv[1], [pair.split("=", 1) for pair in sys.argv[2:]]
    base = module.startswith("base:")
    print(HEADER.format(title=module.split(":", 1)[-1], more="" if base else "use Rattle.trace_rows.specs.Numbers.{task, object, call, region, who}\n"), end="")
    if base:
        print(BASE, end="")
    for name, file in pairs:
        print(f"\nunfoldable pub {name} : List TraceLine\n{name} =")
        for line in open(file, encoding="ascii").read().splitlines():
            tick, *words = line.split(" ")
            print(f"    ({tick}, {event(words, line)}) ∷")
        print("    []")


main()
