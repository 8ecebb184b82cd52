"""Turns any logs into one log of sentences with tag blocks, sorted by time, on standard output.

Without LOG it reads standard input. docs/SOURCES.md lists the kinds of logs and the forms of time that it reads. It
reports on standard error how it read each line, and which lines it could not read. With --now each sentence of standard
input gets the time at which it arrives, and is written at once:

    colregs-tagged --now < LOG >> TAGGED

Exit status: 0 if sentences with times are written, 1 if no sentence is found or a log cannot be read, 2 if the command
line is wrong.
"""
import argparse
import functools
import os
import shutil
import sys
import tempfile
import time
from collections.abc import Sequence

from colregs.cli.arguments import add_reading, parser_of, reading_of
from colregs.errors import DONE, FAILED, end, report
from colregs.io.packing import LONGEST
from colregs.io.sources import gather, stamped


def parser() -> argparse.ArgumentParser:
    """Returns the parser of the command line."""
    words = parser_of(__doc__, "tagged")
    words.add_argument("logs", nargs="*", metavar="LOG")
    add_reading(words)
    words.add_argument("--now", action="store_true", help="stamp the sentences of standard input as they arrive")
    return words


def stamp_now() -> int:
    """Writes each sentence of standard input with the time at which it arrives, and other lines as they are."""
    while line := sys.stdin.buffer.readline(LONGEST):
        sys.stdout.buffer.write(stamped(line.rstrip(b"\r\n"), int(time.time())) + b"\n")
        sys.stdout.buffer.flush()
    return DONE


def gather_once(given: argparse.Namespace, folder: str) -> int:
    """Writes the sentences of the logs, or of standard input."""
    logs = given.logs
    if not logs:
        logs = [os.path.join(folder, "standard input")]
        with open(logs[0], "wb") as out:
            shutil.copyfileobj(sys.stdin.buffer, out)
    made = os.path.join(folder, "log")
    gathered = gather(logs, made, mmsi=given.mmsi, reading=reading_of(given))
    with open(made, "rb") as source:
        shutil.copyfileobj(source, sys.stdout.buffer)
    sys.stdout.buffer.flush()
    for words in gathered.words():
        report("tagged", words)
    return DONE if gathered.sentences else FAILED


def main(arguments: Sequence[str] | None = None) -> int:
    """Writes the tagged log."""
    words = parser()
    given = words.parse_args(arguments)
    if given.now and (given.logs or given.mmsi or given.offset):
        words.error("--now reads standard input, and goes with nothing else")
    if given.now:
        return stamp_now()
    with tempfile.TemporaryDirectory() as folder:
        return gather_once(given, folder)


command = functools.partial(end, "tagged", main)       # runs the command, and leaves with its status
