"""What the commands' parsers share: the form of a help page and of a refusal, and common arguments."""
import argparse
import datetime
import sys
from collections.abc import Callable
from typing import IO, NoReturn

from colregs.errors import USAGE, Fault, report
from colregs.io.forms import Reading, zone_seconds
from colregs.io.tables import columns_of
from colregs.model.log_checks import form_of
from colregs.run.program import found, report_of, window_options

REQUIRES = "It needs Python 3.11 or later."


class Parser(argparse.ArgumentParser):
    """A parser that refuses arguments in the form of every other fault: `NAME: what is wrong` on standard error."""

    def print_help(self, file: IO[str] | None = None) -> None:
        """Writes the help page; argparse would hide that it cannot be written."""
        (file or sys.stdout).write(self.format_help())

    def error(self, message: str) -> NoReturn:
        """Reports what is wrong with the command line, and leaves with status 2."""
        command, _, kind = self.prog.partition(" ")
        report(command.removeprefix("colregs-"),
               f"{message}; `{command}{' ' + kind if kind else ''} --help` lists the arguments")
        self.exit(USAGE)


def parser_of(doc: str | None, name: str | None = None) -> argparse.ArgumentParser:
    """Returns the parser of the command `name`; its help page is the docstring of the command's module."""
    return Parser(prog=f"colregs-{name}" if name else None, description=f"{doc}\n{REQUIRES}",
                  formatter_class=argparse.RawDescriptionHelpFormatter)


def add_program(parser: argparse.ArgumentParser) -> None:
    """Adds --program."""
    parser.add_argument(
        "--program", metavar="PROGRAM",
        help="the program to run (default: COLREGS_PROGRAM, or that of this clone, beside the tool, or on PATH)")


def add_window(parser: argparse.ArgumentParser, why: str) -> None:
    """Adds --start and --ticks; `why` says what they are for."""
    parser.add_argument("--start", type=int, metavar="SECONDS",
                        help=f"the window's start, s since the Unix epoch: {why}")
    parser.add_argument("--ticks", type=int, metavar="N", help=f"the window's ticks: {why}")


def reports_on_log(given: argparse.Namespace, *modes: str) -> list[str]:
    """Returns the program's report of each mode on the log that is given; refuses a log that it would read as one
    without a sentence, as a compressed one."""
    for finding in form_of(given.log):
        raise Fault(f"{given.log}: {finding.words}")
    program, options = found(given.program), window_options(given.start, given.ticks)
    return [report_of(program, mode, given.scenario, given.log, (0, 1) if mode == "plan" else (0,), options)
            for mode in modes]


def offset(word: str) -> int:
    """Returns how many seconds times without a zone are ahead of UTC."""
    if word[:1] not in ("+", "-") or not word[1:].replace(":", "").isdigit() or len(word) not in (3, 5, 6):
        raise argparse.ArgumentTypeError("an offset is written as --offset=+01:00")
    return zone_seconds(word)


def day(word: str) -> datetime.date:
    """Returns a date."""
    try:
        return datetime.date.fromisoformat(word)
    except ValueError:
        raise argparse.ArgumentTypeError("a date is written as 2023-11-14") from None


def add_reading(parser: argparse.ArgumentParser) -> None:
    """Adds how logs are read beyond what their lines say."""
    parser.add_argument("--mmsi", type=ship,
                        help="own ship's MMSI, if a receiver's own places (RMC, TPV, GPX) are hers")
    parser.add_argument("--offset", type=offset, default=0, metavar="+HH:MM",
                        help="how far times without a zone are ahead of UTC (default: 0)")
    parser.add_argument("--date", type=day, metavar="YYYY-MM-DD",
                        help="the date of the first time of day in logs that have no dates; its year is that of dates "
                             "without one, as in syslog")
    parser.add_argument("--day-first", action="store_true", help="the day stands first in dates such as 3/4/2023")
    parser.add_argument("--columns", metavar="NAME=HEAD,..",
                        help="heads of a table's columns: mmsi, time, latitude, longitude, speed, course, ..")
    parser.add_argument("--align", action="store_true",
                        help="set receivers' clocks right by messages that two of them heard")


def reading_of(given: argparse.Namespace) -> Reading:
    """Returns how logs are read."""
    return Reading(given.offset, given.date, given.day_first,
                   tuple(columns_of(given.columns)) if given.columns else (), given.align)


def ship(word: str) -> int:
    """Returns the MMSI of a ship."""
    if not word.isdigit() or not 200000000 <= int(word) <= 799999999:
        raise argparse.ArgumentTypeError("a ship's MMSI has nine digits, from 200000000 to 799999999")
    return int(word)


def at_least(least: int, most: int = 9999999999) -> Callable[[str], int]:
    """Returns a reader of numbers from `least` to `most`."""
    def number(word: str) -> int:
        if not word.isdecimal() or not least <= int(word) <= most:
            raise argparse.ArgumentTypeError(f"a number from {least} to {most}")
        return int(word)
    return number
