"""The log of a case: made of the logs that are given, or taken from an earlier case; without the vessels that an area
leaves out."""
import argparse
import os
import shutil
from dataclasses import dataclass, field
from typing import Any

from colregs.case import region
from colregs.case.folder import ABOUT, LOG, Folder, Sums
from colregs.errors import Fault
from colregs.io import sources
from colregs.io.files import sum_of
from colregs.io.forms import Reading
from colregs.model.reports import case_file

NO_TIMES = ("no line has a time, so nobody knows who met whom when. Record again with times: `tools/colregs-tagged "
            "--now` stamps sentences as they arrive, "
            "or have the receiver write tag blocks or times (docs/SOURCES.md). --without-times takes each vessel's "
            "first report alone")


@dataclass(frozen=True)
class Earlier:
    """An earlier case whose log is taken again: its folder, what case.json says of its log, and the sums of the logs
    that it was made from."""

    folder: str
    log_sum: str
    read: dict[str, Any]
    sums: Sums
    cuts: list[str]

    def take_log(self, path: str) -> sources.Gathered:
        """Copies the log, and returns what came of the logs that it was made from; refuses a log that was changed."""
        shutil.copyfile(os.path.join(self.folder, LOG), path)
        if sum_of(path)[0] != self.log_sum:
            raise Fault(f"{os.path.join(self.folder, LOG)} is not the log of this case any more: its SHA-256 is not "
                        f"that of {ABOUT}")
        return sources.Gathered.of_json(self.read)


def earlier_case(logs: list[str]) -> Earlier | None:
    """Returns the earlier case that is given instead of logs, or None if logs are given."""
    if not any(os.path.isfile(os.path.join(name, ABOUT)) for name in logs):
        return None
    if len(logs) > 1:
        raise Fault("the folder of an earlier case stands for its logs: give it alone")
    about = case_file(logs[0])
    try:
        sums = [(entry["name"], entry["sha256"], entry["bytes"]) for entry in about["given"]]
        found = Earlier(logs[0], about["files"][LOG]["sha256"], about["read"], sums, about["log_cuts"])
        sources.Gathered.of_json(found.read)
    except (KeyError, TypeError, AttributeError):
        raise Fault(f"{os.path.join(logs[0], ABOUT)} is of another version of this tool: make the case again from its "
                    "logs") from None
    return found


def sum_of_given(name: str) -> tuple[str, int]:
    """Returns the sum and size of a log."""
    if os.path.exists(name) and not os.path.isfile(name):
        raise Fault(f"{name} is no file: a case records the sum of each log, so give no folder, pipe or device")
    return sum_of(name)


@dataclass
class Logs:
    """What came of the logs: sums of those that were given, what was read, and in words what the case's log lacks."""

    sums: Sums
    gathered: sources.Gathered
    cuts: list[str] = field(default_factory=list)


def read_logs(given: argparse.Namespace, reading: Reading, folder: Folder) -> Logs:
    """Writes the log of the case from the logs that are given, or takes that of an earlier case."""
    earlier = earlier_case(given.logs)
    if earlier:
        found = Logs(earlier.sums, earlier.take_log(folder.path(LOG)), list(earlier.cuts))
    else:
        sums = [(os.path.basename(name), *sum_of_given(name)) for name in given.logs]
        found = Logs(sums, sources.gather(given.logs, folder.path(LOG), mmsi=given.mmsi, reading=reading))
    gathered = found.gathered
    if not gathered.sentences and not gathered.untimed:
        raise Fault("no sentence and no row was read. " + "; ".join(gathered.words()))
    if gathered.first is None and not given.without_times:
        raise Fault(NO_TIMES)
    if given.area:
        found.cuts.append(leave_out(folder.path(LOG), given.area))
    return found


def leave_out(log: str, area: str) -> str:
    """Leaves out the vessels that were never in the area that is asked for; returns how many in words."""
    inside, outside = region.keep_only(log, region.region_of(area))
    if not inside:
        raise Fault(f"--area={area}: no vessel of the log was in it")
    told = "1 other was" if outside == 1 else f"{outside:,} others were"
    return (f"As asked, only vessels that were at some time in --area={os.path.basename(area)} were audited: "
            f"{inside:,}; {told} left out.")
