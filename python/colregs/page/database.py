"""A case as an SQLite database: one table per kind of row, in metres, knots, degrees and UTC (docs/ROWS.md)."""
import sqlite3
from collections.abc import Iterator
from typing import Any

from colregs.errors import Fault
from colregs.model import narrative
from colregs.model.earth import Earth, iso
from colregs.model.marks import TESTS, Marks
from colregs.model.reports import Case
from colregs.model.rows import Stretch, Total
from colregs.model.ships import type_words
from colregs.model.tracks import NONE

TABLES = """
create table about (key text primary key, value text);
create table file (name text primary key, sha256 text, bytes integer);
create table point (mmsi integer, time integer, utc text, east real, north real, latitude real, longitude real,
  speed real, course real);
create table vessel (mmsi integer primary key, name text, ship_type integer, length integer, reports integer,
  type_in_words text);
create table mark (name text primary key, test text);
create table meeting (id integer primary key, subject integer, other integer, encounter text, first integer,
  last integer, begins text, ends text, least real, nautical_miles real, nearest text, at_rest text,
  contact_lost text, if_both_went_on real, if_both_went_on_at text,
  alongside integer, in_tow integer, fishing integer, pilot integer, subject_is text, other_is text,
  in_words text);
create table verdict (id integer primary key, subject integer, other integer, rule text, value text, first integer,
  last integer, begins text, ends text, at_rest text, alongside integer, in_tow integer, fishing integer,
  pilot integer, subject_is text, other_is text);
create table total (rule text primary key, positions integer, yes integer, no integer, open integer, broken integer);
create table lines (outcome text primary key, count integer);
create index point_of on point (mmsi, time);
"""


COLUMNS = "alongside", "in tow or escort", "fishing", "pilot"       # the marks that have a column with 0 or 1


def seen(value: int) -> float | None:
    """Returns a speed or course of a report, or None if the report has none."""
    return None if value == NONE else value / 10


def points(case: Case) -> Iterator[tuple[Any, ...]]:
    """Yields the rows of the table `point`."""
    earth = Earth(case.reference)
    moments: dict[int, str] = {}
    for mmsi, track in case.tracks.items():
        for time, x, y, speed, course in zip(track.times, track.xs, track.ys, track.speeds, track.courses):
            if time not in moments:
                moments[time] = iso(case.start + time)
            longitude, latitude = earth.degrees(x, y)
            yield mmsi, case.start + time, moments[time], x, y, latitude, longitude, seen(speed), seen(course)


def ends(case: Case, row: Stretch) -> tuple[str, str]:
    """Returns when a row begins and ends."""
    return iso(case.moment(row.first)), iso(case.moment(row.last + 1))


def lost_fields(case: Case, row: Stretch) -> tuple[str | None, float | None, str | None]:
    """Returns when contact was lost at the end of a meeting, and the least distance in metres and its time on the
    assumption that both kept course and speed."""
    found = case.lost(row)
    if found is None or found.ahead is None:
        return iso(case.start + found.at) if found else None, None, None
    return iso(case.start + found.at), round(found.ahead.least, 1), iso(round(case.start + found.ahead.at))


def marked(marks: Marks, row: Stretch) -> tuple[Any, ...]:
    """Returns the fields of a row's marks, and the subject's and the other vessel's kind by type and status."""
    found = set(marks.of(row))
    return (*(int(name in found) for name in COLUMNS), *(marks.words(mmsi, row.last) for mmsi in row.pair))


def meetings(case: Case, marks: Marks) -> Iterator[tuple[Any, ...]]:
    """Yields the rows of the table `meeting`."""
    rules = narrative.by_pair(case)
    for number, row in enumerate(case.meetings, 1):
        nearest = iso(round(case.start + case.nearest(row)[0])) if case.tracks else None
        yield (number, *row.pair, row.encounter, row.first, row.last, *ends(case, row), row.metres,
               round(row.metres / 1852, 4), nearest, case.rest(row), *lost_fields(case, row), *marked(marks, row),
               narrative.sentence(case, row, rules))


def verdicts(case: Case, marks: Marks) -> Iterator[tuple[Any, ...]]:
    """Yields the rows of the table `verdict`."""
    for number, row in enumerate(case.verdicts, 1):
        yield number, *row.pair, row.rule, row.value, row.first, row.last, *ends(case, row), case.rest(row), *marked(
            marks, row)


def vessels(case: Case) -> Iterator[tuple[Any, ...]]:
    """Yields the rows of the table `vessel`."""
    for mmsi in sorted(set(case.vessels) | set(case.tracks)):
        vessel, reports = case.vessels.get(mmsi), len(case.tracks[mmsi].times) if mmsi in case.tracks else 0
        told = (vessel.name, vessel.ship_type, vessel.length) if vessel else (None, None, None)
        yield mmsi, *told, reports, type_words(vessel.ship_type) if vessel else ""


def total_fields(total: Total) -> tuple[str, int, int, int, int, int]:
    """Returns the row of the table `total`."""
    return total.rule, total.positions, total.yes, total.no, total.open, total.broken


def write(path: str, case: Case, marks: Marks, about: dict[str, str], files: list[tuple[str, str, int]]) -> None:
    """Writes the database; `about` has texts by keys, `files` the name, hash and size of each file."""
    totals = (total_fields(case.totals[rule]) for rule in case.rules if rule in case.totals)
    rows: dict[str, Any] = {
        "about": about.items(), "file": files, "point": points(case), "vessel": vessels(case), "meeting": meetings(
            case, marks), "verdict": verdicts(case, marks), "mark": TESTS.items(), "total": totals,
        "lines": case.lines.items()
    }
    try:
        with sqlite3.connect(path) as base:
            base.executescript(TABLES)
            for table, found in rows.items():
                width = len(base.execute(f"select * from {table}").description)
                base.executemany(f"insert into {table} values ({','.join('?' * width)})", found)
        base.close()
    except sqlite3.Error as error:
        raise Fault(f"{path}: {error}") from None
