"""Makes a case: the log, the scenario and the reports, then map, database and page, and case.json with the hashes of
all files."""
import argparse
import json
import platform
from typing import Any

from colregs.case import audit, sweep
from colregs.case.chosen import absent_words, choose
from colregs.case.commands import case_command, report_commands
from colregs.case.folder import (ABOUT, DATABASE, LOG, MAP, PAGE, POINTS, REPORT, SCENARIO, SWEEP, Folder, Sums,
                                 new_folder)
from colregs.case.logs import read_logs
from colregs.case.points import points as points_of
from colregs.errors import Fault
from colregs.io.files import sum_of
from colregs.io.forms import Reading
from colregs.model import doctor, ships, summaries
from colregs.model.earth import iso
from colregs.model.marks import Marks
from colregs.model.reports import Case
from colregs.model.scenario_checks import Finding
from colregs.page import database, maps, page, thinning
from colregs.run.program import known_run, programs_of, version_of, window_options


class Making:
    """A case in the making: the arguments, the folder, and the results so far."""

    def __init__(self, given: argparse.Namespace, reading: Reading, program: str, folder: Folder) -> None:
        self.given, self.program, self.folder, self.version = given, program, folder, version_of(program)
        self.sweep = sweep.sweep_of(given.sweep) if given.sweep else None
        self.logs = read_logs(given, reading, folder)
        self.chosen = choose(given, folder, program)
        self.place = audit.Place(folder.place, LOG, SCENARIO, program, self.chosen.start, self.chosen.ticks, given.jobs)
        self.case, self.audited = self.run_program()
        self.swept = sweep.swept(self.sweep, self.place, self.case, given.all) if self.sweep else []
        self.said = ships.read_log(folder.path(LOG))
        for vessel in self.said.completed(self.case.vessels.values()):
            self.case.take_vessel(vessel)
        self.marks = Marks(self.case, self.said.statuses)
        self.summary = [
            *summaries.summary(self.case, self.logs.gathered, self.marks), *self.logs.cuts, *self.chosen.cuts,
            *self.audited.words(), *(self.sweep.words(self.swept) if self.sweep else ())
        ]
        self.doubts = [*self.chosen.doubts, *summaries.doubts(self.case, self.logs.gathered, self.findings())]
        self.commands = [
            case_command(given, self.logs.sums, self.chosen),
            *report_commands(self.chosen, self.audited.shares > 0)
        ]

    def run_program(self) -> tuple[Case, audit.Audited]:
        """Writes the two reports of the program, and reads them."""
        points = points_of(self.place)
        self.folder.write(POINTS, [points])
        case = Case(self.folder.path(SCENARIO), points, start=self.chosen.start, ticks=self.chosen.ticks)
        if not case.tracks:
            raise Fault(" ".join(summaries.summary(case, self.logs.gathered)))
        self.chosen.doubts += absent_words(self.chosen, case.tracks)
        audited = audit.audit(self.place, case, self.given.all)
        self.folder.write(REPORT, [audited.text])
        case.joined |= audited.shares > 0
        case.take_all(audited.text, "the report")
        case.check()
        return case, audited

    def findings(self) -> list[Finding]:
        """Returns the findings of the doctor."""
        known = known_run(self.audited.text), known_run(self.folder.text(POINTS))
        return doctor.findings(self.folder.path(SCENARIO), self.folder.path(LOG), self.folder.path(REPORT),
                               self.program, window_options(self.chosen.start, self.chosen.ticks), known)

    def made_files(self) -> list[str]:
        """Returns the names of the log, the scenario and the reports."""
        shares, swept = [audit.JOBS, audit.SCENARIO], [SWEEP]
        return [LOG, SCENARIO, POINTS, REPORT, *(shares if self.audited.shares else ()),
                *(swept if self.sweep else ())]

    def draw(self) -> None:
        """Writes the map, the database and the page."""
        is_full = self.given.full
        kept = thinning.kept(self.case, is_full)
        self.folder.write(MAP, maps.geojson(self.case, self.marks, thinning.kept(self.case, is_full, False), kept))
        if self.sweep:
            self.folder.write(SWEEP, [sweep.table(self.sweep, self.swept, self.case)])
        first = self.folder.sums(self.made_files())
        about = {
            "title": self.title(), "version": self.version, "start": str(self.case.start), "tick": str(self.case.tick),
            "ticks": str(self.case.steps)
        }
        database.write(self.folder.path(DATABASE), self.case, self.marks, about, first)
        given = [("given: " + name, total, size) for name, total, size in self.logs.sums]
        shown = self.page_words(given + first + self.folder.sums((MAP, DATABASE)))
        self.folder.write(PAGE, [page.page(self.case, self.marks, kept, self.said, shown)])
        if not page.leaflet()[0]:
            self.doubts.append(page.NO_MAP + ".")

    def page_words(self, files: Sums) -> dict[str, Any]:
        """Returns what the page shows in addition to the case itself."""
        return {
            "title": self.title(), "summary": self.summary, "doubts": self.doubts, "reasons": self.chosen.reasons,
            "scenario": self.folder.text(SCENARIO), "sources": list(self.logs.gathered.words()), "files": files,
            "commands": self.commands, "version": f"{self.version}, on Python {platform.python_version()}",
            "chart": page.coast(self.given.chart), "sweep": page.sweep_of(self.case, self.sweep, self.swept)
        }

    def title(self) -> str:
        """Returns the title that the user gave, or the names of the logs."""
        return self.given.title or "Case of " + ", ".join(name for name, _, _ in self.logs.sums)

    def about(self) -> dict[str, Any]:
        """Returns the content of case.json."""
        case, audited = self.case, self.audited
        return {
            "title": self.title(), "version": self.version,
            "program_sha256": sum_of(programs_of(self.program)[-1])[0], "python": platform.python_version(),
            "window": {"start": case.start, "tick": case.tick, "ticks": case.steps,
                       "begins": iso(case.start), "ends": iso(case.moment(case.steps))},
            "options": {"start": self.chosen.start, "ticks": self.chosen.ticks, "mmsi": self.given.mmsi,
                        "offset": self.given.offset}, "commands": self.commands,
            "given": listed(self.logs.sums), "read": self.logs.gathered.as_json(), "log_cuts": self.logs.cuts,
            "files": {name: {"sha256": total, "bytes": size}
                      for name, total, size in self.folder.sums([*self.made_files(), PAGE, MAP, DATABASE])},
            "shares": audited.shares, "left_out": {"vessels_at_rest": audited.still, "pairs": audited.left_out},
            "share_doubts": audited.doubts, "lines": case.lines, "summary": self.summary, "doubts": self.doubts,
            "scenario_reasons": self.chosen.reasons,
        }


def listed(sums: Sums) -> list[dict[str, Any]]:
    """Returns the hashes of files as values of JSON."""
    return [{"name": name, "sha256": total, "bytes": size} for name, total, size in sums]


def make(given: argparse.Namespace, reading: Reading, program: str) -> tuple[list[str], list[str]]:
    """Makes the folder of a case; returns its summary and its warnings."""
    page.coast(given.chart)         # fails early if the file is not a chart
    with new_folder(given.out) as folder:
        making = Making(given, reading, program, folder)
        making.draw()
        folder.write(ABOUT, [json.dumps(making.about(), indent=1, ensure_ascii=False), "\n"])
    return making.summary, making.doubts
