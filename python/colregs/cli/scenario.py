"""Writes a scenario to start from, for a log with tag blocks, to standard output.

It guesses the window, the tick and the reference from the positions in the log, and says on standard error how. The
other numbers are those of the worked encounters, whatever the log: in a real case its investigator has to choose them.
Without LOG it reads standard input.

Exit status: 0 if the scenario is written, 1 if it is not, 2 if the command line is wrong.
"""
import argparse
import functools
import shutil
import sys
import tempfile
from collections.abc import Sequence

from colregs.cli.arguments import add_program, parser_of
from colregs.errors import DONE, end, report
from colregs.model.guess import suggested
from colregs.run.program import found


def parser() -> argparse.ArgumentParser:
    """Returns the parser of the command line."""
    words = parser_of(__doc__, "scenario")
    words.add_argument("log", nargs="?", metavar="LOG")
    add_program(words)
    return words


def main(arguments: Sequence[str] | None = None) -> int:
    """Writes the scenario, and how its numbers were chosen."""
    given = parser().parse_args(arguments)
    with tempfile.NamedTemporaryFile() as out:
        if given.log is None:
            shutil.copyfileobj(sys.stdin.buffer, out)
            out.flush()
        text, reasons = suggested(given.log or out.name, found(given.program))
    for words in reasons:
        report("scenario", words)
    sys.stdout.write(text)
    return DONE


command = functools.partial(end, "scenario", main)       # runs the command, and leaves with its status
