"""Draws an audit, or a plan, as pictures in SVG.

    colregs-draw SCENARIO OUT --log LOG [--program PROGRAM] [--plan]
    colregs-draw SCENARIO OUT --points POINTS --audit AUDIT
    colregs-draw SCENARIO OUT --points POINTS --plan PLAN
    colregs-draw CASE OUT

For an audit, OUT.svg shows the tracks on the plane of the scenario: each vessel's name and a mark every few minutes,
the moment at which two vessels that met were nearest, and, along the track of the vessel that a rule binds, the
stretches at which it was broken or stayed open. OUT_times.svg shows the same by time for each ordered pair. For a plan,
OUT.svg shows the tracks up to now, own ship's planned legs, and the domains of the targets along their predicted
motion. The reports are those of `points`, `audit` and `plan` (docs/REPORT.md), read from files, from runs of the
program on the log, or from the folder of a case.

The window is the scenario's, or with --start and --ticks that of the run; the folder of a case has its own. A report
that does not fit it is refused. --pair draws two vessels alone, each given by MMSI or name; --from and --to draw a part
of the time, in UTC (22:13:20, 2023-11-14T22:13:20Z or 1700000000).

Exit status: 0 if the pictures are written, 1 if they are not, 2 if the command line is wrong.
"""
import argparse
import functools
import os
from collections.abc import Sequence

from colregs.case.folder import reports_in
from colregs.cli.arguments import add_program, add_window, parser_of, reports_on_log
from colregs.errors import DONE, end
from colregs.io.files import read_text
from colregs.model.reports import Case
from colregs.model.rules import moment
from colregs.page.planned import Planned, planned
from colregs.page.times import times
from colregs.page.tracks import tracks


def parser() -> argparse.ArgumentParser:
    """Returns the parser of the command line."""
    words = parser_of(__doc__, "draw")
    words.add_argument("scenario", metavar="SCENARIO", help="a scenario, or the folder of a case")
    words.add_argument("out", metavar="OUT", help="the pictures' name, without .svg")
    words.add_argument("--log", metavar="LOG", help="the log that the program is run on")
    add_program(words)
    words.add_argument("--points", metavar="POINTS", help="a report of `points`")
    words.add_argument("--audit", metavar="AUDIT", help="a report of `audit`")
    words.add_argument("--plan", metavar="PLAN", nargs="?", const="",
                       help="draw a plan: a report of `plan`, or with --log nothing")
    words.add_argument("--pair", nargs=2, metavar="VESSEL", help="draw two vessels alone, by MMSI or name")
    words.add_argument("--from", dest="begin", metavar="TIME", help="draw the steps from a time on")
    words.add_argument("--to", dest="end", metavar="TIME", help="draw the steps up to a time")
    add_window(words, "those of the run, if it had others than the scenario's")
    words.add_argument("--title", help="the title of the pictures")
    return words


def parsed(arguments: Sequence[str] | None) -> argparse.Namespace:
    """Returns the arguments; ends with a message if they do not go together."""
    words = parser()
    given = words.parse_args(arguments)
    if not os.path.isdir(given.scenario) and not given.log and not (given.points and (given.audit or given.plan)):
        words.error("give --log, or --points and --audit or --plan, or the folder of a case")
    if given.plan is not None and (given.pair or given.begin or given.end):
        words.error("--pair, --from and --to are of an audit")
    return given


def reports_of(given: argparse.Namespace, mode: str) -> tuple[str, str, str]:
    """Returns the scenario, and the texts of the two reports."""
    if os.path.isdir(given.scenario):
        return reports_in(given.scenario)
    if not given.log:
        return given.scenario, read_text(given.points), read_text(given.audit or given.plan)
    points, report = reports_on_log(given, "points", mode)
    return given.scenario, points, report


def narrow(case: Case, given: argparse.Namespace) -> None:
    """Keeps what --pair, --from and --to ask for."""
    pair = [case.vessel(word) for word in given.pair] if given.pair else None
    begin, last = (moment(word, case.start) if word else None for word in (given.begin, given.end))
    if pair or begin is not None or last is not None:
        case.narrow(pair, begin, last)


def pictures(given: argparse.Namespace) -> list[tuple[str, str]]:
    """Returns the end of the name of each picture, and its text."""
    mode = "audit" if given.plan is None else "plan"
    scenario, points, report = reports_of(given, mode)
    name = os.path.basename(given.scenario.rstrip("/"))
    title = given.title or name.rsplit(".", 1)[0].replace("_", " ").capitalize()
    if mode == "plan":
        return [(".svg", planned(Planned(scenario, points, report, given.start, given.ticks), title))]
    case = Case(scenario, points, report, given.start, given.ticks)
    narrow(case, given)
    return [(".svg", tracks(case, title)), ("_times.svg", times(case, title))]


def main(arguments: Sequence[str] | None = None) -> int:
    """Writes the pictures."""
    given = parsed(arguments)
    for suffix, picture in pictures(given):
        with open(given.out + suffix, "w", encoding="utf-8") as out:
            out.write(picture)
    return DONE


command = functools.partial(end, "draw", main)       # runs the command, and leaves with its status
