"""Audits a window of a stream with more vessels than one run allows. After its lines are over, it audits the window by
areas, like colregs-many does with such a share (colregs/shares/runs.py)."""
import os
import tempfile
import threading

from colregs.errors import Fault, reason
from colregs.model.scenario import Scenario
from colregs.run.limits import STATUS
from colregs.shares.jobs import Job, Kept
from colregs.shares.runs import Room, whole_report
from colregs.stream.day_files import DayFiles, Mark
from colregs.stream.runs import Rows, Window, WindowRun


class AreaRun(WindowRun):
    """The audit of a window by areas, which begins after its lines are over."""

    def __init__(self, window: Window, scenario: Scenario, ticks: int, program: str,
                 files: DayFiles) -> None:
        super().__init__(window, "audit", None)
        self.scenario, self.ticks, self.program, self.files = scenario, ticks, program, files
        self.found: Rows = [], None                     # all of it, from the end of the audit on

    def end_at(self, place: Mark, clock: int, cut: bool) -> None:
        """Begins the audit. If the stream continues later, a later run of the tool does it."""
        super().end_at(place, clock, cut)
        threading.Thread(target=self.audit, daemon=True).start()

    def work(self) -> Rows:
        """Returns the rows at the end of the audit."""
        return self.found

    def audit(self) -> None:
        """Stores the rows, or why there are none."""
        self.status, rows, words = 0, list[str](), ""
        try:
            rows = [] if self.cut else self.audited()
        except Fault as fault:
            self.status, words = STATUS, str(fault)
        except OSError as error:
            self.status, words = STATUS, f"{error.filename}: {reason(error)}"
        self.found = rows, words

    def audited(self) -> list[str]:
        """Returns the rows of the window."""
        with tempfile.TemporaryDirectory() as folder:
            log, scenario, room = (os.path.join(folder, name) for name in ("log", "scenario.toml", "room"))
            with open(log, "wb") as out:
                out.write(self.window.types)
                out.writelines(self.files.blocks(self.window.place, lambda: self.limit))
            with open(scenario, "w", encoding="utf-8") as text:
                text.write(self.scenario.text)
            os.mkdir(room)
            job = Job([log], scenario, self.window.start, self.ticks)
            report = whole_report(Room(room, job, Kept(folder, self.program), self.program))
        return [
            row for row in report.decode("utf-8", "replace").splitlines() if row.startswith(("meeting,", "verdict,"))
        ]

    def stop(self) -> None:
        """Does nothing: its processes end with the tool (colregs/run/children.py)."""
