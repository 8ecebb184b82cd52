"""Makes the folder of a case from any logs.

The folder gets case.log, the logs as sentences with their times; scenario.toml, the one that is given or one that is
guessed from the log; points.csv and report.csv, the reports of the program; case.html, a page with map, charts and
tables that needs no network; case.geojson for a map, case.db for SQLite, and case.json with window, options, commands,
version and the SHA-256 of every file. The command ends with a summary in plain words. Logs may be packed. If it fails
it says why, and leaves no folder. The map of the page needs Leaflet, from Debian's libjs-leaflet.

Exit status: 0 if the case is made, 1 if it is not, 2 if the command line is wrong.
"""
import argparse
import functools
import os
from collections.abc import Sequence

from colregs.cli.arguments import add_program, add_reading, add_window, at_least, parser_of, reading_of
from colregs.case.folder import PAGE
from colregs.errors import DONE, end
from colregs.page import making
from colregs.run.program import found


def parser() -> argparse.ArgumentParser:
    """Returns the parser of the command line."""
    words = parser_of(__doc__, "case")
    words.add_argument("logs", metavar="LOG", nargs="+",
                       help="a log of any form that docs/SOURCES.md lists; or one folder of an earlier case, whose log "
                            "is taken again")
    words.add_argument("-o", "--out", metavar="CASE", required=True, help="the folder, which does not exist yet")
    words.add_argument("--scenario", metavar="FILE", help="a scenario instead of one that is guessed")
    add_program(words)
    add_window(words, "instead of the scenario's")
    words.add_argument("--from", dest="begin", metavar="TIME",
                       help="where the window begins, in UTC: 22:13, 2023-11-14T22:13:20Z or seconds")
    words.add_argument("--to", dest="end", metavar="TIME", help="where the window ends")
    words.add_argument("--vessel", action="append", default=[], metavar="VESSEL",
                       help="audit only pairs with this vessel, by name or MMSI; may be repeated")
    words.add_argument("--area", metavar="AREA",
                       help="audit only vessels that were in a box, --area=SOUTH,WEST,NORTH,EAST in degrees, or in the "
                            "polygons of a GeoJSON file")
    words.add_argument("--all", action="store_true",
                       help="audit pairs of vessels that both lie still all the time, too")
    words.add_argument("--sweep", metavar="KEY=FIRST..LAST:STEP",
                       help="audit with each of these values of a number of the scenario, too, as ta=60..360:60, and "
                            "show which verdicts stand at which value")
    words.add_argument("--full", action="store_true",
                       help="put all reports of a long log into page and map, not only those that a screen shows")
    words.add_argument("--jobs", type=at_least(1, 64), default=min(4, os.cpu_count() or 1), metavar="N",
                       help="how many runs of the program at a time, if one does not take all pairs "
                            "(default: %(default)s)")
    add_reading(words)
    words.add_argument("--without-times", action="store_true",
                       help="take a log in which no line has a time, with one report of each vessel")
    words.add_argument("--chart", metavar="FILE.geojson", help="a coast for the map of the page")
    words.add_argument("--title", help="the title of the page")
    return words


def main(arguments: Sequence[str] | None = None) -> int:
    """Makes the case, and prints its summary."""
    words = parser()
    given = words.parse_args(arguments)
    if (given.begin or given.end) and (given.start is not None or given.ticks is not None):
        words.error("--from and --to go without --start and --ticks")
    summary, doubts = making.make(given, reading_of(given), found(given.program))
    print("\n".join(summary))
    if doubts:
        print("\nWhat is doubtful:\n" + "\n".join("- " + line for line in doubts))
    print(f"\n{given.out.rstrip('/')}/{PAGE} is the page to open.")
    return DONE


command = functools.partial(end, "case", main)       # runs the command, and leaves with its status
