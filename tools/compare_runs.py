#!/usr/bin/env python3
"""Compares the machine's runs with those of an interpreter, over generated programs or given ones.

    tools/compare_runs.py --front-end FOLDER --work FOLDER [--size N] [--built K] [--most TICKS] SEED..
    tools/compare_runs.py --front-end FOLDER --work FOLDER --rows FOLDER NAME..

FOLDER of --front-end holds, beside the modules that tools/image_by_front_end.py needs, `annexd` (run) and `gen` (programs
by seed). The work folder becomes a throw-away repository with a copy of the crates and one more crate, in which each
program is one module with a law of its own, so that one that fails hides no other. The machine decides by `rt check`.
Programs whose trace goes on past the bound `most` are compared up to it.
"""
import argparse
import io
import os
import re
import shutil
import subprocess
import sys
import threading

sys.dont_write_bytecode = True
sys.path.insert(0, os.path.dirname(os.path.abspath(__file__)))
import image_by_front_end
import program_data

ROOT = os.path.dirname(os.path.dirname(os.path.abspath(__file__)))
CRATES = ("ann_base", "trace_text", "profile_machine")


def run_of(modules, program, script, bound):
    """The interpreter's trace up to a bound, as lines."""
    k = modules["kernel"].Kernel(program.tree, script, bound)
    k.run()
    return k.out


def case(modules, source, script_text, bound):
    program = image_by_front_end.Program(modules, source)
    script = modules["script"].script_of(script_text) if script_text else []
    fresh = image_by_front_end.Program(modules, source)
    return program, program_data.script_of(script_text), run_of(modules, fresh, script, bound)


def last_tick(trace):
    return int(trace[-1].split(" ")[0])


def prepare(work):
    os.makedirs(work, exist_ok=True)
    crates = os.path.join(work, "crates")
    for name in CRATES:
        target = os.path.join(crates, name)
        for part in ("src", "specs", "proofs"):
            here = os.path.join(ROOT, "crates", name, part)
            there = os.path.join(target, part)
            shutil.rmtree(there, ignore_errors=True)
            if os.path.isdir(here):
                shutil.copytree(here, there)
    if not os.path.isdir(os.path.join(work, ".git")):
        subprocess.run(["git", "init", "-q", work], check=True)
    compare = os.path.join(crates, "compare")
    for part in ("src", "specs"):
        shutil.rmtree(os.path.join(compare, part), ignore_errors=True)
        os.makedirs(os.path.join(compare, part))
    with open(os.path.join(compare, "src", "lib.rt"), "w") as f:
        f.write("#![tactic(auto)]\n\npub fn nothing() {}\n")
    with open(os.path.join(work, "crates.txt"), "w") as f:
        f.write("ann_base: thiserror\ntrace_text: ann_base\nprofile_machine: ann_base smallvec trace_text\n"
                "compare: ann_base trace_text profile_machine\n")
    return compare


def check(compare, names):
    """The names of the laws that do not hold, with what the check says."""
    for old in os.listdir(os.path.join(compare, "specs")):
        if old[:-5] not in names:
            os.remove(os.path.join(compare, "specs", old))
    with open(os.path.join(compare, "specs", "Lib.antt"), "w") as f:
        f.write("".join(f"pub mod {n}\n" for n in names))
    done = subprocess.run(["rt", "check", "--allow-holes"], cwd=compare, capture_output=True, text=True)
    log = done.stdout + done.stderr
    bad = {}
    if "crate compare:" not in log or "holes=" not in log:
        bad["?"] = "the check did not end: " + log[-500:]
    for m in re.finditer(r"\./specs/(\w+)\.antt:\d+:\d+: (error: .*)", log):
        bad.setdefault(m.group(1), m.group(2))
    return bad, log


def generated(gen, seed, size, built):
    """Source and script of a seed."""
    source, script, _ = gen.generate(seed, size, built)
    return source.encode("latin-1"), (script or "").encode("latin-1")


def main():
    words = argparse.ArgumentParser()
    words.add_argument("--front-end", required=True)
    words.add_argument("--work", required=True)
    words.add_argument("--size", type=int, default=1)
    words.add_argument("--built", type=int, default=17)
    words.add_argument("--most", type=int, default=400)
    words.add_argument("--batch", type=int, default=40)
    words.add_argument("--rows")
    words.add_argument("names", nargs="+")
    a = words.parse_args()
    modules = image_by_front_end.modules_of(a.front_end)
    if not a.rows:
        import gen
        modules["gen"] = gen
    compare = prepare(a.work)
    cases = []
    if a.rows:
        for n in a.names:
            folder = os.path.join(a.rows, n)
            with open(os.path.join(folder, "source"), "rb") as f:
                source = f.read()
            script = b""
            if os.path.exists(os.path.join(folder, "script")):
                with open(os.path.join(folder, "script"), "rb") as f:
                    script = f.read()
            with open(os.path.join(folder, "words")) as f:
                asked = f.read().split()
            with open(os.path.join(folder, "out")) as f:
                trace = f.read().split("\n")[:-1]
            bound = int(asked[asked.index("--ticks") + 1]) if "--ticks" in asked else last_tick(trace) + 1
            cases.append(("Row" + re.sub(r"\W", "_", n), source, script, bound, trace))
    else:
        for n in a.names:
            first, _, last = n.partition("..")
            for seed in range(int(first), int(last or first) + 1):
                cases.append((f"Seed{seed}", seed, None, a.most, None))
    total, failed = 0, []
    for start in range(0, len(cases), a.batch):
        names = []
        for name, source, script, bound, trace in cases[start:start + a.batch]:
            if isinstance(source, int):
                source, script = generated(modules["gen"], source, a.size, a.built)
            program, items, found = case(modules, source, script, bound)
            if trace is None:
                trace = found
            law = program_data.law("run", program, items, min(bound, last_tick(trace) + 1), trace, None)
            with open(os.path.join(compare, "specs", name + ".antt"), "w") as f:
                f.write(program_data.HEAD + "\n" + law)
            names.append(name)
        bad, log = check(compare, names)
        with open(os.path.join(a.work, f"log-{start}"), "w") as f:
            f.write(log)
        total += len(names)
        if "?" in bad:
            failed += names
        for n in names:
            if n in bad:
                failed.append(n)
                print(n, bad[n][:300], flush=True)
        for n in bad:
            if n not in names:
                print("?", n, bad[n][:300], flush=True)
    print(f"{total - len(failed)} agree, {len(failed)} do not")
    return 1 if failed else 0


if __name__ == "__main__":
    sys.setrecursionlimit(1000000)
    threading.stack_size(512 * 1024 * 1024)
    result = []
    thread = threading.Thread(target=lambda: result.append(main()))
    thread.start()
    thread.join()
    sys.exit(result[0] if result else 70)
