"""Finds mistakes in a scenario, a log and a report that the program accepts silently.

Each finding is one line, which begins with its name; docs/SOURCES.md describes them.

Exit status: 0 if it finds nothing, 1 if it finds something, 2 if the files cannot be examined.
"""
import argparse
import functools
from collections.abc import Sequence

from colregs.cli.arguments import add_program, add_window, parser_of
from colregs.errors import DONE, FAILED, USAGE, end
from colregs.model.doctor import findings
from colregs.run.program import found, window_options


def parser() -> argparse.ArgumentParser:
    """Returns the parser of the command line."""
    words = parser_of(__doc__, "doctor")
    words.add_argument("scenario", metavar="SCENARIO")
    words.add_argument("log", metavar="LOG")
    words.add_argument("report", metavar="REPORT", nargs="?", help="a report of `audit`, `points` or `plan`")
    add_program(words)
    add_window(words, "as they were given to the program for the report")
    return words


def main(arguments: Sequence[str] | None = None) -> int:
    """Prints the findings."""
    given = parser().parse_args(arguments)
    found_ones = findings(given.scenario, given.log, given.report, found(given.program),
                          window_options(given.start, given.ticks))
    for finding in found_ones:
        print(f"{finding.name}: {finding.words}")
    return FAILED if found_ones else DONE


command = functools.partial(end, "doctor", main, USAGE)       # runs the command, and leaves with its status
