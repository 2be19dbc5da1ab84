"""What the tests of the tools share: they run a tool as a user does, and compare what it says with what was worked out."""
import os
import select
import shutil
import signal
import subprocess
import sys
import tempfile
import time

from . import interrupts
from .runs import TOP

PATIENCE = 60  # seconds in which something has to happen that takes a moment

# a stand-in for the program: it answers what a program of one task would print. A run of a source or script in which ENDLESS
# stands writes its folder to the file endless, and does not end.
STAND_IN = """#!/bin/sh
at=$(dirname "$0")
case $1 in
    run)
        if [ -n "$ENDLESS" ] && cat source script 2>/dev/null | grep -q -e "$ENDLESS"; then
            pwd >> "$at/endless"
            exec sleep 300
        fi
        printf '0 t0 new main 15\\n0 t0 ready 15 tail\\n0 t0 run\\n9 t0 done\\n9 end completed\\n' ;;
    report) printf 't0 main jobs 1 worst 9 sum 9 run 9 preempted 0 lower 0 longest 0\\nagent run 0\\nidle 0\\nticks 9\\n' ;;
    laws) printf 'lawful 5\\n' ;;
esac
"""

# the program by the definitions; what `rta` prints stands in the file rta beside it
BY_DEFINITIONS = f"""#!/bin/sh
[ "$1" != rta ] || exec cat "$(dirname "$0")/rta"
exec python3 {TOP}/tools/definitions/perform.py "$@"
"""


class Trial:
    def __init__(self, tool):
        self.tool = os.path.join(TOP, "tools", tool)
        self.folder = tempfile.mkdtemp()
        self.passed = self.failed = 0
        self.stand_in = self.file("program", STAND_IN)
        self.by_definitions = self.file("by-definitions", BY_DEFINITIONS)
        for program in (self.stand_in, self.by_definitions):
            os.chmod(program, 0o700)

    def file(self, name, text):
        path = os.path.join(self.folder, name)
        with open(path, "w", encoding="latin-1") as f:
            f.write(text)
        return path

    def read(self, name):
        with open(os.path.join(self.folder, name), encoding="latin-1") as f:
            return f.read()

    def run(self, *words, program="definitions"):
        done = subprocess.run(
            [self.tool, *words, "--program", program, "--jobs", "2"], cwd=self.folder, capture_output=True, text=True, stdin=subprocess.DEVNULL
        )
        return done.returncode, done.stdout, done.stderr

    def expect(self, name, condition, told=""):
        if condition:
            self.passed += 1
        else:
            self.failed += 1
            print(f"{os.path.basename(self.tool)}, {name}: not as worked out\n{told}")

    def says(self, name, words, status, out=(), notes=(), program="definitions"):
        """The tool ends with this status, and says each of these lines; spaces count once."""
        ended, said, noted = self.run(*words, program=program)
        lines, note_lines = ([" ".join(line.split()) for line in text.splitlines()] for text in (said, noted))
        there = all(line in lines for line in out) and all(any(line in noted for noted in note_lines) for line in notes)
        self.expect(name, ended == status and there, f"{said}{noted}status {ended}")
        return said

    def same_by_program(self, name, words):
        """A program that answers by the definitions makes the tool say what it says without a program."""
        one, other = self.run(*words), self.run(*words, program=self.by_definitions)
        self.expect(name, one[:2] == other[:2], f"{one}\n{other}")

    def interrupted(self, name, words, endless, until, out, notes):
        """One run of the tool, that in which `endless` stands, does not end. When the tool has told of all others by a progress
        line that begins with `until`, if there is one, it is interrupted. It says each of these lines, ends with 130 though its
        run has not ended, and neither a process nor a folder of its runs is left. So by SIGINT, and by SIGTERM."""
        for number in (signal.SIGINT, signal.SIGTERM):
            status, said, noted, is_left = self.after(number, words, endless, until)
            lines = [" ".join(line.split()) for line in said.splitlines()]
            there = all(line in lines for line in out) and (out or not lines) and notes in noted
            self.expect(f"{name}, {number.name}", there and (status, is_left) == (interrupts.INTERRUPTED, False) and "Traceback" not in noted,
                        f"{said}{noted}status {status}, {'something' if is_left else 'nothing'} is left")

    def after(self, number, words, endless, until):
        """Its status, what it said and noted when it got this signal, and whether something of it is left."""
        folders = self.file("endless", "")
        terminal, notes_to = os.openpty()
        alive, held = os.pipe()  # as long as a process of it runs, it holds one end
        process = subprocess.Popen(
            [self.tool, *words, "--program", self.stand_in, "--jobs", "2"], cwd=self.folder, env=dict(os.environ, ENDLESS=endless),
            stdin=subprocess.DEVNULL, stdout=subprocess.PIPE, stderr=notes_to, text=True, pass_fds=[held],
        )
        os.close(notes_to)
        os.close(held)
        noted = self.noted(terminal, until) if until else ""
        self.wait_for(lambda: self.read("endless"))
        process.send_signal(number)
        process.send_signal(number)  # (the second one changes nothing)
        try:
            said, _ = process.communicate(timeout=PATIENCE)
        except subprocess.TimeoutExpired:
            process.kill()
            said = "it did not end\n"
        is_left = not select.select([alive], [], [], PATIENCE)[0] or any(map(os.path.exists, self.read("endless").split()))
        noted += self.noted(terminal)
        os.close(terminal)
        os.close(alive)
        os.remove(folders)
        return process.returncode, said, noted, is_left

    def wait_for(self, there):
        """Waits until this is so, as long as it may take."""
        end = time.monotonic() + PATIENCE
        while not there() and time.monotonic() < end:
            time.sleep(0.01)

    def noted(self, terminal, until=None):
        """What is written to a terminal, up to this, or to its end."""
        noted = ""
        while until is None or until not in noted:
            if not select.select([terminal], [], [], PATIENCE)[0]:
                break
            try:
                noted += os.read(terminal, 1000).decode()
            except OSError:  # (nobody has it open)
                break
        return noted

    def end(self):
        shutil.rmtree(self.folder, ignore_errors=True)
        print(f"{self.passed} passed, {self.failed} failed")
        sys.exit(int(self.failed != 0 or self.passed == 0))
