"""The page of a case: one HTML file that needs no network. It embeds Leaflet from Debian's package libjs-leaflet.

The page contains the accepted reports, the rows of the audit and their texts as JSON, and its own JavaScript draws map,
charts and tables from these. It judges nothing: each verdict is a row of the report.
"""
import html
import itertools
import json
import os
import re
from collections.abc import Iterable, Mapping, Sequence
from typing import Any

from colregs.case.sweep import Line, Sweep
from colregs.errors import Fault
from colregs.io.files import read_text
from colregs.io.sentences import NO_HEADING
from colregs.model import narrative
from colregs.model.earth import Earth, iso
from colregs.model.marks import TESTS, Marks
from colregs.model.reports import Case
from colregs.model.rows import Meeting
from colregs.model.rules import BOUND, ENCOUNTERS, OUTCOMES, colour, date, duty, meaning
from colregs.model.ships import Said, type_words
from colregs.page.thinning import Kept

HERE = os.path.join(os.path.dirname(os.path.abspath(__file__)), "web")
LEAFLET = "/usr/share/javascript/leaflet"
SCRIPTS = ("state.js", "playback.js", "map.js", "charts.js", "times.js", "tables.js", "page.js")
NO_MAP = "the page has no map: Leaflet is missing; install Debian's package libjs-leaflet and make the page again"


def leaflet(folder: str = LEAFLET) -> tuple[str, str]:
    """Returns the script of Leaflet, and its style without the pictures that the page does not use. Returns two empty
    texts if Leaflet is not installed."""
    try:
        with open(os.path.join(folder, "leaflet.min.js"), encoding="utf-8") as script, \
                open(os.path.join(folder, "leaflet.css"), encoding="utf-8") as style:
            return re.sub(r"(?m)^//# sourceMappingURL=.*$", "", script.read()), re.sub(
                r"url\([^)]*\)", "none", style.read()
            )
    except OSError:
        return "", ""


def deltas(values: Iterable[int]) -> list[int]:
    """Returns the first value, and then the difference of each value from the one before, which makes a short text."""
    before, found = 0, []
    for value in values:
        found.append(value - before)
        before = value
    return found


def vessels(case: Case, kept: Kept, said: Said) -> list[dict[str, Any]]:
    """Returns the vessels, with their remaining reports column by column, and the index of the first report of each
    part of a track."""
    found = []
    for mmsi in sorted(set(case.tracks) | set(case.vessels)):
        vessel, track = case.vessels.get(mmsi), case.tracks.get(mmsi)
        parts = kept.get(mmsi, [])
        chosen = [k for part in parts for k in part]
        columns: list[Iterable[int]] = (
            []
            if track is None
            else [
                (track.times[k] for k in chosen),
                (round(10 * track.xs[k]) for k in chosen),
                (round(10 * track.ys[k]) for k in chosen),
                (track.speeds[k] for k in chosen),
                (track.courses[k] for k in chosen),
            ]
        )
        found.append({
            "mmsi": mmsi, "name": case.name(mmsi), "type": vessel.ship_type if vessel else 0,
            "kind": type_words(vessel.ship_type) if vessel else "",
            "length": vessel.length if vessel else 0, "count": len(track.times) if track else 0, "parts": list(
                itertools.accumulate(map(len, parts[:-1]))), "hull": said.hulls.get(mmsi), "headings": [
                    deltas(column) for column in headings(case, said.headings.get(mmsi, []))
                ], "reports": [deltas(column) for column in columns]
        })
    return found


def headings(case: Case, told: Sequence[tuple[int, int]]) -> list[list[int]]:
    """Returns times after the window's start, and the heading from each on; -1 for none."""
    return [[at - case.start for at, _ in told], [-1 if heading == NO_HEADING else heading for _, heading in told]]


def meetings(case: Case, marks: Marks, numbers: Mapping[int, int]) -> list[dict[str, Any]]:
    """Returns one entry per two vessels and stretch, with its kind for each of the two, in the order of the first
    steps."""
    found: dict[tuple[int, int, int, int], list[Meeting]] = {}
    for row in case.meetings:
        found.setdefault((*row.both, row.first, row.last), []).append(row)
    entries, rules = [], narrative.by_pair(case)
    for key in sorted(found, key=lambda key: (key[2], key[3], key[:2])):
        rows = found[key]
        kinds = {row.subject: ENCOUNTERS.get(row.encounter, row.encounter) for row in rows}
        seconds, one, two = case.nearest(rows[0])
        places = [one, two] if rows[0].subject == key[0] else [two, one]
        entries.append({
            "pair": [numbers[mmsi] for mmsi in key[:2]], "kinds": [kinds.get(mmsi, "") for mmsi in key[:2]],
            "first": key[2], "last": key[3], "least": round(rows[0].metres, 1), "nearest": round(seconds),
            "places": [[round(value, 1) for value in place] for place in places], "rest": resting(case, rows, key),
            "lost": case.lost_words(rows[0]), "ahead": ahead(case, rows[0]), "told": narrative.sentence(
                case, rows[0],
                rules), "marks": list(marks.of(rows[0])), "what": [marks.words(mmsi, key[3]) for mmsi in key[:2]]
        })
    return entries


def ahead(case: Case, row: Meeting) -> float | None:
    """Returns the least distance in metres on the assumption that both kept course and speed after contact was lost.
    Returns None if contact was not lost or the distance is unknown."""
    found = case.lost(row)
    return round(found.ahead.least, 1) if found and found.ahead else None


def resting(case: Case, rows: Sequence[Meeting], key: tuple[int, ...]) -> list[int]:
    """Returns the indices of the vessels of an entry that are at rest: 0, 1 or both."""
    still: set[int] = set()
    for row in rows:
        who: dict[str, tuple[int, ...]] = {"subject": (row.subject,), "other": (row.other,), "both": row.pair}
        still.update(key.index(mmsi) for mmsi in who.get(case.rest(row), ()))
    return sorted(still)


def verdicts(
    case: Case, marks: Marks, numbers: Mapping[int, int], entries: list[dict[str, Any]]
) -> list[dict[str, Any]]:
    """Returns the verdicts, each with the number of the meeting that it overlaps, if any."""
    by_pair: dict[tuple[int, ...], list[tuple[int, int, int]]] = {}
    rules = {rule: k for k, rule in enumerate(case.rules)}
    for number, entry in enumerate(entries):
        by_pair.setdefault(tuple(entry["pair"]), []).append((entry["first"], entry["last"], number))
    found = []
    for row in case.verdicts:
        pair = [numbers[mmsi] for mmsi in row.pair]
        near = [
            number for first, last, number in by_pair.get(tuple(sorted(pair)), [])
            if first <= row.last and row.first <= last
        ]
        found.append({
            "pair": pair, "rule": rules[row.rule], "broken": row.value == "broken", "first": row.first,
            "last": row.last, "meeting": near[0] if near else None, "rest": case.rest(row), "marks": list(
                marks.of(row, False)), "what": [marks.words(mmsi, row.last) for mmsi in row.pair]
        })
    return sorted(found, key=lambda row: (row["first"], row["last"]))


def coast(path: str | None) -> Any:
    """Returns the coast of a GeoJSON file, or None without a file."""
    if path is None:
        return None
    try:
        found = json.loads(read_text(path))
        if found["type"] in ("FeatureCollection", "Feature", "GeometryCollection", "Polygon", "MultiPolygon",
                             "LineString", "MultiLineString"):
            return found
    except (ValueError, TypeError, KeyError):
        pass
    raise Fault(f"{path}: this file is not a GeoJSON map of lines or areas")


def words_of(case: Case, rule: str) -> str:
    """Returns what a rule requires; for a formula of the scenario, its text."""
    formulas = case.values.get("formula")
    for entry in formulas if isinstance(formulas, list) else []:
        if isinstance(entry, dict) and entry.get("name") == rule:
            return f"the scenario's formula: {entry.get('text')}"
    return duty(rule)


def total_words(case: Case, rule: str) -> list[int] | None:
    """Returns the counts of a rule for the page."""
    total = case.totals.get(rule)
    return [total.positions, total.yes, total.no, total.open, total.broken] if total else None


def content(case: Case, marks: Marks, kept: Kept, said: Said, about: Mapping[str, Any]) -> dict[str, Any]:
    """Returns the whole content of the page. `about` has title, summary, findings, reasons, scenario, sources, files,
    commands, version and chart."""
    listed, earth = vessels(case, kept, said), Earth(case.reference)
    numbers = {vessel["mmsi"]: k for k, vessel in enumerate(listed)}
    entries = meetings(case, marks, numbers)
    rules = [{
        "name": rule, "colour": colour(rule), "short": meaning(rule), "words": words_of(case, rule),
        "total": total_words(case, rule)
    } for rule in case.rules]
    lines = [[name, count, OUTCOMES.get(name, "")] for name, count in case.lines.items()]
    return {
        **about, "start": case.start, "tick": case.tick, "steps": case.steps, "gap": case.gap, "plane": [
            earth.longitude, earth.latitude, earth.east, earth.north
        ], "vessels": listed, "meetings": entries, "rules": rules, "verdicts": verdicts(case, marks, numbers, entries),
        "lines": lines, "marks": TESTS, "duties": {ENCOUNTERS[kind]: words
                                                   for kind, words in BOUND.items()}, "early": early(case)
    }


def sweep_of(case: Case, sweep: Sweep | None, lines: Sequence[Line]) -> dict[str, Any] | None:
    """Returns the table of a sweep, or None without a sweep."""
    if sweep is None:
        return None
    rows = [[case.name(line.subject),
             case.name(line.other), line.rule, line.first, line.last, *line.found] for line in lines]
    return {"key": sweep.key, "values": sweep.values, "rows": rows, "changing": sum(line.changes for line in lines)}


def early(case: Case) -> int:
    """Returns how many seconds after a meeting's start action still counts as early in this scenario."""
    rules = case.values.get("rules")
    value = rules.get("ta") if isinstance(rules, dict) else None
    return value if isinstance(value, int) else 0


def window_words(case: Case) -> str:
    """Returns the window as text."""
    begin, end = case.moment(0), case.moment(case.steps)
    day = "" if date(begin) == date(end) else f"{date(end)}, "
    return f"{date(begin)}, {iso(begin)[11:19]} to {day}{iso(end)[11:19]} UTC"


def page(case: Case, marks: Marks, kept: Kept, said: Said, about: Mapping[str, Any], folder: str = LEAFLET) -> str:
    """Returns the text of the page."""
    script, style = leaflet(folder)
    about = {**about, "noMap": "" if script else NO_MAP, "window": window_words(case)}
    held = json.dumps(content(case, marks, kept, said, about), separators=(",", ":"), ensure_ascii=False).replace(
        "<", "\\u003c").replace("\u2028", "\\u2028").replace("\u2029", "\\u2029")
    parts: dict[str, str] = {
        "title": html.escape(about["title"]), "style": style + read_text(os.path.join(HERE, "page.css")),
        "leaflet": script, "case": held, "script": "\n".join(read_text(os.path.join(HERE, name)) for name in SCRIPTS)
    }
    return re.sub(r"\{\{(\w+)\}\}", lambda found: parts[found[1]], read_text(os.path.join(HERE, "page.html")))
