"""Writes GeoJSON (RFC 7946) of the reports of a log to standard output.

    colregs-geojson SCENARIO POINTS [AUDIT] > OUT.geojson
    colregs-geojson SCENARIO --log LOG [--program PROGRAM] > OUT.geojson
    colregs-geojson CASE > OUT.geojson

Each report is a point, with MMSI, name, time, speed in knots and course in degrees; each track is a line, broken where
two reports lie more than the scenario's gap apart, with its two ends. With a report of `audit` each meeting and each
stretch of a verdict is a line too, along the track of its subject, and the nearest place of each meeting is a point,
with a line to the other vessel. Rows have both MMSIs and names, steps, times, and which vessel is at rest. Positions
are those of the log, in degrees of latitude and longitude. If a log crosses the date line, longitudes continue past
180.

Exit status: 0 if all is written, 1 if it is not, 2 if the command line is wrong.
"""
import argparse
import functools
import os
import sys
from collections.abc import Sequence

from colregs.case.folder import reports_in
from colregs.cli.arguments import add_program, add_window, parser_of, reports_on_log
from colregs.errors import DONE, end
from colregs.io.files import read_text
from colregs.model.reports import Case
from colregs.page.maps import geojson


def parser() -> argparse.ArgumentParser:
    """Returns the parser of the command line."""
    words = parser_of(__doc__, "geojson")
    words.add_argument("scenario", metavar="SCENARIO", help="a scenario, or the folder of a case")
    words.add_argument("reports", nargs="*", metavar="REPORT", help="a report of `points`, and one of `audit`")
    words.add_argument("--log", metavar="LOG", help="the log that the program is run on")
    add_program(words)
    add_window(words, "those of the run, if it had others than the scenario's")
    return words


def case_of(given: argparse.Namespace) -> Case:
    """Returns the case of a folder, of a run, or of reports."""
    if os.path.isdir(given.scenario):
        return Case(*reports_in(given.scenario))
    texts = reports_on_log(given, "points", "audit") if given.log else [read_text(name) for name in given.reports]
    return Case(given.scenario, texts[0], texts[1] if len(texts) > 1 else None, given.start, given.ticks)


def main(arguments: Sequence[str] | None = None) -> int:
    """Writes the map."""
    words = parser()
    given = words.parse_args(arguments)
    if sum([os.path.isdir(given.scenario), bool(given.log), 1 <= len(given.reports) <= 2]) != 1:
        words.error("give one or two reports, or --log, or the folder of a case")
    sys.stdout.writelines(geojson(case_of(given)))
    return DONE


command = functools.partial(end, "geojson", main)       # runs the command, and leaves with its status
