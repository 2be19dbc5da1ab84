"""Runs of variants, on all processors: by the built program, or by the definitions where none is built.

A runner does what `run`, `report` and `laws` of the program do. `Workers` hands jobs to worker processes and gives their
results as they come.
"""
import argparse
import itertools
import os
import pickle
import select
import shutil
import signal
import sys
import tempfile
import time

from . import interrupts
from .traces import counted, lines_of, report_text

TOP = os.path.dirname(os.path.dirname(os.path.dirname(os.path.abspath(__file__))))
BUILT = os.path.join(TOP, "crates", "annexd", "out", "annexd")
DEFAULT_TICKS = 1_000_000
SCRIPT_NAME, SOURCE_NAME, TRACE_NAME, ANSWER, NOTES = b"script", b"source", b"trace", b"answer", b"notes"


class Failed(Exception):
    """The program gave no answer."""


def is_built():
    """Is the program built, and none of its sources newer? As the script annexd asks it."""
    if not os.access(BUILT, os.X_OK):
        return False
    since = os.stat(BUILT).st_mtime
    crates = os.path.join(TOP, "crates")
    folders = [os.path.join(crates, name, part) for name in os.listdir(crates) for part in ("src", "specs")]
    files = (os.path.join(at, name) for folder in folders for at, _, names in os.walk(folder) for name in names)
    return os.stat(os.path.join(TOP, "crates.txt")).st_mtime <= since and all(os.stat(f).st_mtime <= since for f in files)


def runner_for(program):
    """The runner that `--program` asks for; without it the built program, or else the definitions."""
    if program == "definitions":
        return ByDefinitions()
    if program:
        return ByProgram(program)
    return ByProgram(BUILT) if is_built() else ByDefinitions()


class ByProgram:
    """Runs the program in a folder of its own for each worker; its output goes to files there."""

    def __init__(self, program):
        self.program = os.fsencode(os.path.abspath(program))
        self.name = program

    def prepare(self, source):
        pass

    def begin(self, folder):
        """Called once in each worker: its files are opened once, and each process appends to what was cut to nothing."""
        os.chdir(folder)
        self.script = None
        self.environment = dict(os.environb)
        self.files = {name: os.open(name, os.O_RDWR | os.O_CREAT | os.O_APPEND, 0o600)
                      for name in (SOURCE_NAME, SCRIPT_NAME, TRACE_NAME, ANSWER, NOTES)}

    def write(self, name, content):
        os.ftruncate(self.files[name], 0)
        while content:
            content = content[os.write(self.files[name], content) :]

    def read(self, name):
        file, parts = self.files[name], []
        size = os.fstat(file).st_size
        while size > 0:
            parts.append(os.pread(file, size, sum(map(len, parts))))
            size = size - len(parts[-1]) if parts[-1] else 0
        return b"".join(parts)

    def ask(self, *words, out):
        for name in (out, NOTES):
            os.ftruncate(self.files[name], 0)
        actions = [(os.POSIX_SPAWN_DUP2, self.files[out], 1), (os.POSIX_SPAWN_DUP2, self.files[NOTES], 2)]
        try:
            process = os.posix_spawn(self.program, [self.program, *words], self.environment, file_actions=actions)
        except OSError as why:
            raise Failed(f"{self.name}: {why.strerror}")
        status = os.waitstatus_to_exitcode(os.waitpid(process, 0)[1])
        if status < 0:
            raise Failed(f"{self.name} {words[0].decode()}: ended by signal {-status}")
        return status

    def run(self, source, script, ticks):
        """The status of a run, its note and its trace, which stays where report and laws find it."""
        self.write(SOURCE_NAME, source)
        words = [b"run", SOURCE_NAME]
        if script is not None:
            if script is not self.script:
                self.write(SCRIPT_NAME, script)
                self.script = script
            words.append(SCRIPT_NAME)
        status = self.ask(*words, b"--ticks", b"%d" % ticks, out=TRACE_NAME)
        if status > 3:
            return status, self.read(NOTES).decode("latin-1").strip(), b""
        return status, "", self.read(TRACE_NAME)

    def report(self, trace=None):
        return self.of_trace(b"report", trace)

    def laws(self, trace=None):
        return self.of_trace(b"laws", trace)

    def response_times(self, table):
        """What `rta` prints of a table."""
        write_file(b"table", table)
        self.ask(b"rta", b"table", out=ANSWER)
        return (self.read(ANSWER) or self.read(NOTES)).decode("latin-1")

    def of_trace(self, word, trace):
        """What the program says of the trace of the last run, or of this one."""
        if trace is not None:
            self.write(TRACE_NAME, trace)
        status = self.ask(word, TRACE_NAME, out=ANSWER)
        return status, (self.read(ANSWER) or self.read(NOTES)).decode("latin-1")


class ByDefinitions:
    """Computes the same from the definitions, in this process; the report alone is counted by tools/bench/traces.py."""

    name = "the definitions"

    def prepare(self, source):
        """Reads the definitions before the workers begin, so that they share them."""
        sys.path.insert(0, os.path.join(TOP, "tools", "definitions"))
        import interpreter

        self.interpreter = interpreter
        self.in_large_stack(lambda: interpreter.judged(source))

    def begin(self, folder):
        os.chdir(folder)

    def in_large_stack(self, job):
        answers = []

        def kept():
            try:
                answers.append((job(), None))
            except Exception as why:  # told by the thread that asked
                answers.append((None, why))
            return 0

        self.interpreter.in_large_stack(kept)
        answer, why = answers[0]
        if why is not None:
            raise Failed(f"the definitions gave no answer: {type(why).__name__} {why}")
        return answer

    def response_times(self, table):
        """None: the definitions of the test count time tick by tick."""
        return None

    def performed(self, words, files):
        out, notes, status = self.in_large_stack(lambda: self.interpreter.performed(words, files.get, by_steps=True))
        return status, out, notes

    def run(self, source, script, ticks):
        words = ["run", "source"] + (["script"] if script is not None else []) + ["--ticks", str(ticks)]
        status, self.trace, notes = self.performed(words, {"source": source, "script": script})
        return status, notes.decode("latin-1").strip(), self.trace

    def report(self, trace=None):
        """Counted from the lines: the definitions of a report take minutes for some hundred of them."""
        try:
            return 0, report_text(counted(lines_of(self.trace if trace is None else trace)))
        except (ValueError, IndexError, KeyError):
            return 11, "trace refused"

    def laws(self, trace=None):
        status, out, notes = self.performed(["laws", "trace"], {"trace": self.trace if trace is None else trace})
        return status, (out or notes).decode("latin-1")


def write_file(path, content):
    with open(path, "wb", 0) as f:
        f.write(content)


# ---- many at a time

MOST_IN_CHUNK = 16  # jobs that a worker is handed at a time
MOST_KEPT = 0.05  # seconds of work that a worker keeps to itself, and that an interrupt may lose


class Worker:
    """A process that is handed lists of numbered jobs and gives their results, as they come or a few at a time. It has a group
    of its own, so that what it runs can be ended with it, and an interrupt from a terminal ends neither."""

    def __init__(self, others, folder, runner, evaluate):
        (asked, ask), (told, tell) = os.pipe(), os.pipe()
        self.owed = 0  # how many results are to come
        self.process = os.fork()
        if self.process == 0:
            for pipe in (ask, told, *(pipe for other in others for pipe in (other.to.fileno(), other.answers.fileno()))):
                os.close(pipe)
            serve(open(asked, "rb"), open(tell, "wb"), folder, runner, evaluate)
        try:
            os.setpgid(self.process, self.process)  # (whichever comes first of the two)
        except OSError:  # (it has a group, or has ended)
            pass
        os.close(asked)
        os.close(tell)
        self.to, self.answers = open(ask, "wb"), open(told, "rb")

    def hand(self, jobs):
        """Hands jobs over, which another list may follow when their results are there."""
        try:
            pickle.dump(jobs, self.to)
            self.to.flush()
            self.owed = len(jobs)
        except BrokenPipeError:
            raise Failed("a worker has ended")

    def results(self):
        try:
            found = pickle.load(self.answers)
        except (EOFError, pickle.UnpicklingError):
            raise Failed("a worker has ended")
        self.owed -= len(found)
        return found

    def end(self):
        """Ends the process and what it runs."""
        os.killpg(self.process, signal.SIGKILL)
        os.waitpid(self.process, 0)
        for pipe in (self.to, self.answers):
            try:
                pipe.close()
            except OSError:  # (what was interrupted is not handed over)
                pass


def serve(asked, told, folder, runner, evaluate):
    """What a worker does until nobody asks."""
    status = 1
    try:
        os.setpgid(0, 0)
        interrupts.on_interrupt(signal.SIG_DFL)
        signal.pthread_sigmask(signal.SIG_UNBLOCK, interrupts.SIGNALS)
        os.mkdir(folder)
        runner.begin(folder)
        while True:
            answer(pickle.load(asked), told, runner, evaluate)
    except (EOFError, BrokenPipeError):
        status = 0
    except BaseException:
        sys.excepthook(*sys.exc_info())
    finally:
        os._exit(status)


def answer(jobs, told, runner, evaluate):
    """Tells the results of a list of jobs."""
    found, told_at = [], time.monotonic()
    for place, (number, job) in enumerate(jobs, 1):
        found.append((number, *work(runner, evaluate, job)))
        if place == len(jobs) or time.monotonic() - told_at > MOST_KEPT:
            pickle.dump(found, told)
            told.flush()
            found, told_at = [], time.monotonic()


def work(runner, evaluate, job):
    """The result of a job, or why there is none."""
    try:
        return evaluate(runner, job), None
    except Failed as why:
        return None, str(why)


class Workers:
    """Worker processes that evaluate jobs: `evaluate(runner, job)` gives the result of one. They are there within a `with`."""

    def __init__(self, runner, evaluate, source, count, expected=1):
        """So many workers, for about so many jobs; the source is one like those that will run."""
        if isinstance(runner, ByDefinitions):
            print("annexd: computed from the definitions; .ci/run proves and builds the program", file=sys.stderr)
        runner.prepare(source)
        self.runner, self.evaluate, self.count, self.expected = runner, evaluate, count, expected
        self.folder, self.workers = None, []

    def __enter__(self):
        try:
            with interrupts.held():
                self.begin()
        except BaseException:
            self.end()
            raise
        return self

    def __exit__(self, *why):
        self.end()

    def begin(self):
        memory = "/dev/shm" if os.access("/dev/shm", os.W_OK) else None
        self.folder = tempfile.mkdtemp(prefix="annexd-bench-", dir=memory)
        for number in range(self.count):
            self.workers.append(Worker(self.workers, os.path.join(self.folder, str(number)), self.runner, self.evaluate))

    def end(self):
        with interrupts.held():
            for worker in self.workers:
                worker.end()
            self.workers = []
            if self.folder:
                shutil.rmtree(self.folder, ignore_errors=True)

    def chunks(self, jobs):
        """Lists of numbered jobs, which become short towards the end, so that all workers end at about the same time."""
        left, numbered = self.expected, enumerate(jobs)
        while chunk := list(itertools.islice(numbered, max(1, min(MOST_IN_CHUNK, left // (len(self.workers) * 4))))):
            left -= len(chunk)
            yield chunk

    def results(self, jobs):
        """The results of jobs, each as (place, result) when it is there; Failed where the program gives no answer."""
        chunks, busy = self.chunks(jobs), {}
        for worker in self.workers:
            hand_next(worker, chunks, busy)
        while busy:
            for pipe in select.select(list(busy), [], [])[0]:
                worker = busy[pipe]
                found = worker.results()
                if not worker.owed:
                    del busy[pipe]
                    hand_next(worker, chunks, busy)
                for number, result, fault in found:
                    if fault is not None:
                        raise Failed(fault)
                    yield number, result


def hand_next(worker, chunks, busy):
    """Hands a worker the next jobs, if there are more; then it is busy."""
    chunk = next(chunks, None)
    if chunk:
        worker.hand(chunk)
        busy[worker.answers.fileno()] = worker


# ---- what the tools share

class Parser(argparse.ArgumentParser):
    """A parser whose errors are one line, and status 2."""

    def __init__(self, name, text):
        super().__init__(prog=name, description=text, formatter_class=argparse.RawDescriptionHelpFormatter)

    def error(self, message):
        print(f"{self.prog}: {message}", file=sys.stderr)
        sys.exit(2)


def add_options(parser):
    """The options that all tools have which run something."""
    parser.add_argument("--ticks", type=ticks, default=DEFAULT_TICKS, metavar="N", help="run up to this tick (1,000,000)")
    parser.add_argument("--jobs", type=positive, default=os.cpu_count() or 1, metavar="N", help="how many at a time (one on each processor)")
    parser.add_argument("--program", metavar="FILE", help="the program that runs, or the word definitions")


def ticks(text):
    number = positive(text)
    if number > 1_000_000_000:
        raise ValueError
    return number


def positive(text):
    number = int(text)
    if number < 1:
        raise ValueError
    return number


def content(parser, path):
    """The bytes of a file that a tool is given, or its end with status 2."""
    try:
        with open(path, "rb") as f:
            return f.read()
    except OSError as why:
        parser.error(f"{path}: {why.strerror}")


class Progress:
    """A line on a terminal that tells how far it is."""

    def __init__(self, what, total):
        self.what, self.total, self.shown = what, total, sys.stderr.isatty()

    def tell(self, done, more=""):
        if self.shown:
            sys.stderr.write(f"\r{done} of {self.total} {self.what}{more}\033[K")
            sys.stderr.flush()

    def end(self):
        if self.shown:
            sys.stderr.write("\r\033[K")
            sys.stderr.flush()


def picture(trace, path, first, last):
    """Draws these ticks of a trace by tools/timeline."""
    import subprocess  # here, since a run of variants begins sooner without it

    words = [sys.executable, os.path.join(TOP, "tools", "timeline"), "-", "--from", str(first), "--to", str(last)]
    with open(path, "wb") as out:
        # apart from the terminal's group, so that an interrupt is told by this tool alone
        subprocess.run(words, input=trace, stdout=out, check=True, start_new_session=True)
