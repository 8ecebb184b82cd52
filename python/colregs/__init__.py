"""The tools around the program `colregs`: they read logs, call the program, and show its rows. They judge no encounter.

`colregs.report("plan", scenario, log)` gives a report with typed rows.
"""
import sys

if sys.version_info >= (3, 11):         # an older Python gets as far as `colregs.start`, which says what is needed
    from colregs.library import Options, Report, report
    from colregs.model.rows import Alarm, Meeting, PlanLeg, Point, Reason, Total, Verdict, Vessel

VERSION = "0.1.0"

__all__ = [
    "Alarm", "Meeting", "Options", "PlanLeg", "Point", "Reason", "Report", "Total", "VERSION", "Verdict", "Vessel",
    "report",
]
