"""Interrupts: a tool that gets SIGINT (control-C) or SIGTERM ends at once, tells what it has, and has the status INTERRUPTED.

The first of them raises KeyboardInterrupt, and those behind it count no more, so that what is there can be told.
"""
import contextlib
import os
import signal
import sys

INTERRUPTED = 130
SIGNALS = (signal.SIGINT, signal.SIGTERM)


def on_interrupt(do):
    for number in SIGNALS:
        signal.signal(number, do)


def end_at_once():
    """Until a tool has begun its work, an interrupt ends it with no more than a line."""
    on_interrupt(lambda number, frame: end_process(f"{os.path.basename(sys.argv[0])}: interrupted"))


def end_process(note=""):
    """Ends here, whatever other threads do: the definitions are read by one."""
    try:
        if note:
            print(note, file=sys.stderr)
        sys.stdout.flush()
        sys.stderr.flush()
    except OSError:
        pass
    os._exit(INTERRUPTED)


def raise_once():
    """From here on the first interrupt raises KeyboardInterrupt."""
    def raise_first(number, frame):
        on_interrupt(signal.SIG_IGN)
        raise KeyboardInterrupt

    on_interrupt(raise_first)


@contextlib.contextmanager
def held():
    """An interrupt that comes within waits until the end."""
    before = signal.pthread_sigmask(signal.SIG_BLOCK, SIGNALS)
    try:
        yield
    finally:
        signal.pthread_sigmask(signal.SIG_SETMASK, before)


def ended(tool, main):
    """The status of a tool, also where it is interrupted, or its output takes no more."""
    raise_once()
    try:
        status = main()
        sys.stdout.flush()
        on_interrupt(signal.SIG_IGN)  # (all is told)
    except KeyboardInterrupt:
        end_process(f"{tool}: interrupted")
    except BrokenPipeError:
        os.dup2(os.open(os.devnull, os.O_WRONLY), sys.stdout.fileno())
        return 8
    except OSError as why:
        print(f"{tool}: {why.filename or 'output'}: {why.strerror}", file=sys.stderr)
        return 8
    if status == INTERRUPTED:
        end_process()
    return status
