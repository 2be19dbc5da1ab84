#!/usr/bin/env python3
"""Does by the definitions what the program does with these arguments.

    tools/definitions/perform.py run SOURCE [SCRIPT] [--ticks N]
    tools/definitions/perform.py accept SOURCE
    tools/definitions/perform.py laws TRACE
    tools/definitions/perform.py report TRACE
    tools/definitions/perform.py load N
    tools/definitions/perform.py rta TABLE
    tools/definitions/perform.py demand TABLE

What is written, the note and the status are those of the program, also where standard output or standard error takes no
more; the lines of a run are written as they come. The windows of rta and demand are found by table_tests.py, since the
definitions count them one by one. With ANNEXD_PATIENCE=SECONDS in the environment a line on standard error says after so
many seconds how the proved program is got.
"""
import os
import sys
import threading

sys.dont_write_bytecode = True
import interpreter    # noqa: E402

WRITE_FAULT = interpreter.refused(interpreter.Con("WriteFault"))
WORDS_REFUSED = interpreter.refused(interpreter.Con("WordsRefused"))
LONG = b"annexd: this takes long by the definitions; ./annexd --prove builds the proved program, once, which may take an hour\n"


class Unwritten(Exception):
    """An output takes no more."""


def write_to(output, text):
    if output is None:
        # it was closed when this script began
        if text:
            raise Unwritten
        return
    try:
        output.buffer.write(text)
        output.flush()
    except OSError:
        # what the output still holds is not tried again when this script ends
        os.dup2(os.open(os.devnull, os.O_WRONLY), output.fileno())
        raise Unwritten


def are_utf8(words):
    """Are the words UTF-8? A byte of one that is not stands in it as a lone surrogate."""
    try:
        "".join(words).encode()
    except UnicodeEncodeError:
        return False
    return True


def performed():
    if not are_utf8(sys.argv[1:]):
        return WORDS_REFUSED
    try:
        return interpreter.perform(sys.argv[1:], interpreter.content, lambda text: write_to(sys.stdout, text))
    except Unwritten:
        return WRITE_FAULT


def say_that_it_takes_long():
    """Says so after the seconds that the caller has patience for; it keeps nobody waiting."""
    seconds = os.environ.get("ANNEXD_PATIENCE", "")
    if seconds.isdigit():
        timer = threading.Timer(int(seconds), os.write, (2, LONG))
        timer.daemon = True
        timer.start()


def main():
    say_that_it_takes_long()
    notes, status = performed()
    try:
        write_to(sys.stderr, notes)
    except Unwritten:
        return WRITE_FAULT[1]
    return status


if __name__ == "__main__":
    if len(sys.argv) < 2:
        sys.exit(__doc__)
    sys.exit(interpreter.in_large_stack(main))
