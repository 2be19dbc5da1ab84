#!/usr/bin/env python3
"""What the gate costs, crate by crate, from nothing.

    tools/gate_times.py watch FILE [GATE ..]
                                       while a gate runs: appends to FILE what each process of the prover used, with those that
                                       it began. GATE is the number of an `rt ci`, or the folder in which one runs: then only
                                       what these began counts, and the watch of numbers alone ends with them
    tools/gate_times.py table FILE     processor minutes of proof, tests and edits of each crate, the most memory that one
                                       process took, and the longest chain of crates that stand on one another
    tools/gate_times.py --write FILE.. writes docs/gate_times.tsv, the record of a gate from nothing: a line for each crate of
                                       crates.txt that the files tell
    tools/gate_times.py --add FILE..   the same, and keeps the lines of crates of which the files tell nothing. If they tell no
                                       proof of a crate, only what they tell of it changes
    tools/gate_times.py functions FOLDER [ROWS]
                                       seconds that the last check of a crate spent on each of its functions, and on which part
                                       of the proof: FOLDER is the crate's, after `rt check` from nothing. It goes by the moments
                                       at which the prover wrote its files, so it is told most by a check alone on the machine

FILE is what `watch` wrote; what `rt ci` prints tells no times. For a gate that did not come to its end, name what it printed
beside: then a proof counts if it says that the crate is proved. The record has processor seconds and megabytes. `watch` looks
once a second, so a process is counted up to its last whole second at most. It works on Linux, and reads /proc."""
import collections
import os
import pathlib
import re
import sys
import time

TOP = pathlib.Path(__file__).resolve().parent.parent
CRATES = TOP / "crates.txt"
RECORD = TOP / "docs" / "gate_times.tsv"
COLUMNS = "crate", "proof s", "edits s", "tests s", "memory MB"
KINDS = "proof", "edits", "tests"
TICKS = os.sysconf("SC_CLK_TCK")


def stat_of(process):
    """The fields of /proc/PROCESS/stat behind the name: the state, the parent and so on."""
    return pathlib.Path(f"/proc/{process}/stat").read_text().rsplit(")", 1)[1].split()


def is_gate(process, gate):
    """Is this the `rt ci` that is meant, by its number or by the folder in which it runs?"""
    if gate.isdigit():
        return process == gate
    words = pathlib.Path(f"/proc/{process}/cmdline").read_text().split("\0")
    # rt goes to a copy of the repository; the shell's variable keeps the folder in which it was begun
    begun_in = pathlib.Path(f"/proc/{process}/environ").read_text(errors="replace").split("\0")
    return "ci" in words and any(word.endswith("rt") for word in words) and f"PWD={os.path.abspath(gate)}" in begun_in


def is_begun_by(process, gate):
    try:
        while process != "0" and not is_gate(process, gate):
            process = stat_of(process)[1]
    except OSError:
        return False
    return process != "0"


def most_memory(process):
    """The most bytes that the process has held so far."""
    found = re.search(r"VmHWM:\s*(\d+) kB", pathlib.Path(f"/proc/{process}/status").read_text())
    return int(found[1]) * 1024 if found else 0


def prover_processes():
    """number -> (its parent, when it began, crate, kind, seconds of it and of its children that ended, bytes) of each process of
    the prover that works on a crate."""
    found = {}
    for entry in filter(str.isdigit, os.listdir("/proc")):
        try:
            words = pathlib.Path(f"/proc/{entry}/cmdline").read_text().split("\0")
            if not words[0].endswith("/rattle") or "--crate-name" not in words:
                continue
            folder, fields = os.readlink(f"/proc/{entry}/cwd"), stat_of(entry)
            kind = "edits" if "edit" in folder else "tests" if "--test" in words else "proof"
            seconds = sum(map(int, fields[11:15])) / TICKS
            found[entry] = fields[1], fields[19], words[words.index("--crate-name") + 1], kind, seconds, most_memory(entry)
        except (OSError, ValueError):
            continue
    return found


def with_children(processes):
    """(number, when it began) -> (crate, kind, seconds, bytes) of each process that no other of these began, with what those that
    it began have used."""
    used = {}
    for number in processes:
        first = number
        while processes[first][0] in processes:
            first = processes[first][0]
        _, began, crate, kind, _, _ = processes[first]
        *_, seconds, size = processes[number]
        _, _, others, most = used.get((first, began), (crate, kind, 0, 0))
        used[first, began] = crate, kind, others + seconds, max(most, size)
    return used


def watch(path, *gates):
    seen, meant = {}, {}
    with open(path, "a") as out:
        while True:
            now = with_children(prover_processes())
            for name in now:
                if name not in meant:
                    meant[name] = not gates or any(is_begun_by(name[0], gate) for gate in gates)
            for name in [name for name in seen if name not in now]:
                crate, kind, seconds, most = seen.pop(name)
                out.write(f"{crate}\t{kind}\t{seconds:.1f}\t{most}\n")
                out.flush()
            for name, (crate, kind, seconds, size) in now.items():
                if meant[name]:
                    _, _, before, most = seen.get(name, (crate, kind, 0, 0))
                    seen[name] = crate, kind, max(seconds, before), max(size, most)
            if gates and not seen and all(gate.isdigit() and not os.path.exists(f"/proc/{gate}") for gate in gates):
                return
            time.sleep(1)


def stands_on():
    """The crates below each crate."""
    below = {}
    for line in CRATES.read_text().splitlines():
        name, colon, rest = line.partition("#")[0].partition(":")
        if colon:
            below[name.strip()] = rest.split()
    return {name: [other for other in others if other in below] for name, others in below.items()}


def longest_chain(below, proof):
    """The chain of crates with the most minutes of proof, the lowest first."""
    chains = {}
    for name, others in sorted(below.items(), key=lambda item: len(closure(below, item[0]))):
        best = max((chains[other] for other in others), default=(0, ()), key=lambda chain: chain[0])
        chains[name] = best[0] + proof[name], best[1] + (name,)
    return max(chains.values(), key=lambda chain: chain[0])


def closure(below, name):
    found, ahead = set(), [name]
    while ahead:
        for other in below[ahead.pop()]:
            if other not in found:
                found.add(other)
                ahead.append(other)
    return found


def told(paths):
    """crate -> kind -> seconds, with the most bytes under `memory`, of what `watch` wrote into these files. A file with other lines
    is what a gate printed; if there is one, proofs count of those crates alone that it says are proved."""
    found, proved = collections.defaultdict(lambda: collections.defaultdict(float)), None
    for path in paths:
        lines = pathlib.Path(path).read_text(errors="replace").splitlines()
        rows = [line.split("\t") for line in lines]
        if any(len(row) != 4 for row in rows):
            proved = (proved or set()) | set(re.findall(r"^rt: (\w+) proved$", "\n".join(lines), re.MULTILINE))
            continue
        for crate, kind, seconds, size in rows:
            found[crate][kind] += float(seconds)
            found[crate]["memory"] = max(found[crate]["memory"], int(size))
    for crate in [] if proved is None else [crate for crate in found if crate not in proved]:
        found[crate].pop("proof", None)
        if not any(found[crate][kind] for kind in KINDS):
            del found[crate]
    return found


def rounded(of):
    """What the record has of a crate."""
    return tuple(round(of[kind]) for kind in KINDS) + (round(of["memory"] / 1000000),)


def read_record(text):
    """crate -> its numbers, of the text of a record."""
    rows = [line.split("\t") for line in text.splitlines()[1:]]
    return {crate: tuple(map(int, numbers)) for crate, *numbers in rows}


def joined(record, found, crates):
    """The record with what was found, of these crates alone. A crate whose proof was seen is told anew; of another only what was
    seen changes."""
    rows = {}
    for crate in crates:
        before, of = record.get(crate), found.get(crate)
        if of is None:
            if before is not None:
                rows[crate] = before
        elif before is None or of["proof"]:
            rows[crate] = rounded(of)
        else:
            seen = rounded(of)
            rows[crate] = tuple(new if new else old for new, old in zip(seen[:-1], before)) + (max(seen[-1], before[-1]),)
    return rows


def text_of(rows):
    lines = ["\t".join(COLUMNS)] + ["\t".join(map(str, (crate, *rows[crate]))) for crate in sorted(rows)]
    return "\n".join(lines) + "\n"


def write_record(paths, keep):
    crates = list(stands_on())
    record = read_record(RECORD.read_text()) if keep and RECORD.exists() else {}
    rows = joined(record, told(paths), crates)
    RECORD.write_text(text_of(rows))
    proof, edits, tests, _ = map(sum, zip(*rows.values())) if rows else (0, 0, 0, 0)
    print(f"{len(rows)} of {len(crates)} crates; minutes: proof {proof / 60:.0f}, edits {edits / 60:.0f}, tests {tests / 60:.0f}")
    lacking = [crate for crate in crates if crate not in rows]
    if lacking:
        print("nothing is known of", " ".join(lacking))


def table(path):
    found = told([path])
    minutes = {crate: {kind: of[kind] / 60 for kind in KINDS} for crate, of in found.items()}
    kinds = "proof", "tests", "edits"
    print("| crate | " + " | ".join(kinds) + " | memory, MB |\n|---|" + "---:|" * 4)
    for crate, of in sorted(minutes.items(), key=lambda item: -item[1]["proof"]):
        memory = int(found[crate]["memory"]) // 1000000
        print(f"| `{crate}` | " + " | ".join(f"{of[kind]:.1f}" for kind in kinds) + f" | {memory} |")
    print("| all | " + " | ".join(f"{sum(of[kind] for of in minutes.values()):.0f}" for kind in kinds) + " | |")
    proof = {crate: minutes[crate]["proof"] if crate in minutes else 0.0 for crate in stands_on()}
    length, chain = longest_chain(stands_on(), proof)
    print(f"\nThe longest chain, {length:.1f} minutes of proof: " + ", ".join(chain))


# The parts of a function's proof: what the borrow checker asks of it, the types that its signature reaches, its goals.
PARTS = {"Lts": "borrows", "Layout": "types", "Named": "types", "Kinds": "types", "Tie": "types", "Proof": "goals",
         "Answers": "goals", "Invariants": "goals"}
# A longer gap between two files is no work on the second: the machine did something else.
LONGEST_GAP = 600


def written_files(folder):
    """(moment, path of words) of each file that the prover wrote of the crate, the oldest first."""
    crate = pathlib.Path(folder).resolve().name
    front = f"Rattle-{crate}-"
    found = pathlib.Path(folder).glob(f"out/incremental/*/{front}*.oantt")
    return sorted((file.stat().st_mtime, file.name[len(front) : -len(".oantt")].split(".")) for file in found)


def functions(folder, rows=20):
    spent, last = collections.defaultdict(lambda: collections.defaultdict(float)), None
    for moment, words in written_files(folder):
        if last is not None and moment - last < LONGEST_GAP:
            part = next((PARTS[word] for word in reversed(words) if word in PARTS), "rest")
            name = "::".join(word for word in words if word not in PARTS and word != "proofs")
            spent[name][part] += moment - last
        last = moment
    if not spent:
        sys.exit(f"nothing is kept of {folder}: run rt check there first")
    in_all = collections.Counter()
    for parts in spent.values():
        in_all.update(parts)
    shown = lambda parts: ", ".join(f"{part} {seconds:.1f}" for part, seconds in sorted(parts.items(), key=lambda item: -item[1]))
    print(f"{sum(in_all.values()):.0f} s in all: {shown(in_all)}")
    for name, parts in sorted(spent.items(), key=lambda item: -sum(item[1].values()))[:rows]:
        print(f"{sum(parts.values()):8.1f}  {name}: {shown(parts)}")


if __name__ == "__main__":
    words = sys.argv[1:]
    if words[:1] == ["watch"] and len(words) > 1:
        watch(*words[1:])
    elif words[:1] == ["table"] and len(words) == 2:
        table(words[1])
    elif words[:1] in (["--write"], ["--add"]) and len(words) > 1:
        write_record(words[1:], keep=words[0] == "--add")
    elif words[:1] == ["functions"] and len(words) in (2, 3):
        functions(words[1], *map(int, words[2:]))
    else:
        sys.exit(__doc__)
