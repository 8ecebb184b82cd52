"""A sweep: the audit of a case with other values of one number of its scenario, and which verdicts stand at which
value.

Verdicts of one pair and rule that overlap in time, or lie at most ten minutes apart, count as one, since their steps
move with the number.
"""
import csv
import io
import os
import re
import tempfile
from collections.abc import Iterator, Sequence
from dataclasses import dataclass, replace
from typing import Any

from colregs.case import audit
from colregs.case.folder import SWEEP
from colregs.case.progress import Bar
from colregs.errors import Fault
from colregs.model import keys
from colregs.model.reports import Case
from colregs.model.rows import Verdict, row_of
from colregs.model.scenario import Scenario, values_of
from colregs.words import count

TABLES = ("detect", "act", "rules")             # a number elsewhere changes what is read
SPEC = re.compile(r"([a-z0-9_.]+)=(?:(-?\d+)\.\.(-?\d+):(\d+)|(-?\d+(?:,-?\d+)*))")
MOST = 100                                      # values of a sweep
APART = 600                                     # s between two verdicts that count as one


@dataclass(frozen=True)
class Sweep:
    """A number of the scenario, as `rules.ta`, and the values that it takes."""

    key: str
    values: tuple[int, ...]

    def words(self, lines: Sequence["Line"]) -> Iterator[str]:
        """Yields how many verdicts depend on the number."""
        changing, every = sum(line.changes for line in lines), count(len(lines), "verdict")
        yield (f"With {self.key} from {self.values[0]} to {self.values[-1]}, {changing:,} of {every} "
               f"{'depends' if changing == 1 else 'depend'} on the number ({SWEEP}, and the page's table of the "
               "sweep).")


@dataclass(frozen=True)
class Line:
    """A verdict over all values: pair and rule, its first and last second after the window's start, and `broken`,
    `open` or nothing for each value."""

    subject: int
    other: int
    rule: str
    first: int
    last: int
    found: tuple[str, ...]

    @property
    def changes(self) -> bool:
        """Returns whether the verdict depends on the number."""
        return len(set(self.found)) > 1


def sweep_of(word: str) -> Sweep:
    """Returns what `ta=60..360:60` or `rules.ta=60,120` asks; raises a Fault if it is none."""
    found = SPEC.fullmatch(word)
    if found is None:
        raise Fault(f"--sweep {word}: write a number of the scenario with its values, as ta=60..360:60 or "
                    "rules.ta=60,120,300")
    names = [key for key in keys.units() if key.split(".")[0] in TABLES and found[1] in (key, key.split(".")[-1])]
    if len(names) != 1:
        raise Fault(f"--sweep {word}: `{found[1]}` is no number of {', '.join(TABLES)}"
                    if not names else f"--sweep {word}: say which of {', '.join(names)}")
    if found[5]:
        values = tuple(int(value) for value in found[5].split(","))
    else:
        first, last, each = (int(part) for part in found.group(2, 3, 4))
        values = tuple(range(first, last + 1, each)) if each else ()
    if not 2 <= len(values) <= MOST:
        raise Fault(f"--sweep {word}: a sweep has 2 to {MOST} values")
    return Sweep(names[0], values)


def with_number(scenario: Scenario, key: str, value: int) -> str:
    """Returns the scenario's text with another value of a number, and nothing else changed."""
    table, name = key.split(".")
    wanted: dict[str, Any] = {**scenario.values, table: {**scenario.values.get(table, {}), name: value}}
    for found in re.finditer(rf"(?<![\w.]){name}(\s*=\s*)-?\d+", scenario.text):
        text = f"{scenario.text[:found.start()]}{name}{found[1]}{value}{scenario.text[found.end():]}"
        if values_of(scenario.path, text) == wanted:
            return text
    raise Fault(f"{scenario.path}: `{key}` is not there as a number, so it cannot be swept")


def verdicts_of(report: str) -> list[Verdict]:
    """Returns the verdicts of a report."""
    rows = (row_of(fields) for fields in csv.reader(io.StringIO(report)) if fields and fields[0] == "verdict")
    return [row for row in rows if isinstance(row, Verdict)]


def swept(sweep: Sweep, place: audit.Place, case: Case, is_all: bool) -> list[Line]:
    """Audits the case at each value, and returns the verdicts over all of them, those that change first."""
    scenario = Scenario(place.path(place.scenario))
    bar, reports = Bar(f"case: auditing with {sweep.key}", len(sweep.values)), []
    for value in sweep.values:
        with tempfile.TemporaryDirectory(dir=place.folder, prefix=".sweep-") as folder:
            os.symlink(os.path.abspath(place.path(place.log)), os.path.join(folder, place.log))
            audit.write(os.path.join(folder, place.scenario), with_number(scenario, sweep.key, value))
            reports.append(verdicts_of(audit.audit(replace(place, folder=folder), case, is_all).text))
        bar.step()
    return lines_of(reports, case.tick)


def lines_of(reports: Sequence[Sequence[Verdict]], tick: int) -> list[Line]:
    """Returns the verdicts of reports, one report for each value, put together."""
    every: dict[tuple[int, int, str], list[tuple[int, int, int, str]]] = {}
    for number, rows in enumerate(reports):
        for row in rows:
            every.setdefault((*row.pair, row.rule), []).append(
                (row.first * tick, (row.last + 1) * tick, number, row.value))
    found = []
    for (subject, other, rule), parts in every.items():
        for first, last, values in clusters(sorted(parts)):
            told = tuple("broken" if "broken" in values.get(k, ()) else "open" if k in values else ""
                         for k in range(len(reports)))
            found.append(Line(subject, other, rule, first, last, told))
    return sorted(found, key=lambda line: (not line.changes, line.first, line.subject, line.other, line.rule))


def clusters(parts: list[tuple[int, int, int, str]]) -> list[tuple[int, int, dict[int, set[str]]]]:
    """Returns the stretches of time that overlap or lie near to each other, each with the values of the verdicts in
    it."""
    found: list[tuple[int, int, dict[int, set[str]]]] = []
    for first, last, number, value in parts:
        if found and first <= found[-1][1] + APART:
            begin, end, values = found.pop()
        else:
            begin, end, values = first, last, {}
        values.setdefault(number, set()).add(value)
        found.append((begin, max(end, last), values))
    return found


def table(sweep: Sweep, lines: Sequence[Line], case: Case) -> str:
    """Returns the sweep as CSV; a name that a spreadsheet would take for a formula begins with an apostrophe."""
    out = io.StringIO()
    rows = csv.writer(out, lineterminator="\n")
    rows.writerow([
        "subject", "name", "other", "other_name", "rule", "begins", "ends",
        *(f"{sweep.key}={value}" for value in sweep.values)
    ])
    for line in lines:
        rows.writerow([line.subject, safe(case.name(line.subject)), line.other, safe(case.name(line.other)), line.rule,
                       case.start + line.first, case.start + line.last, *line.found])
    return out.getvalue()


def safe(cell: str) -> str:
    """Returns a cell that no spreadsheet takes for a formula."""
    return "'" + cell if cell[:1] in ("=", "+", "-", "@", "\t", "\r") else cell
