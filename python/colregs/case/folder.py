"""The folder of a case: the names of its files, a new one that appears once it is complete, and the reports of one that
is there."""
import contextlib
import os
import shutil
import tempfile
from collections.abc import Iterable, Iterator
from dataclasses import dataclass

from colregs.errors import Fault, reason
from colregs.io.files import read_text, sum_of
from colregs.model.reports import case_file

LOG, SCENARIO, POINTS, REPORT = "case.log", "scenario.toml", "points.csv", "report.csv"
ABOUT, PAGE, MAP, DATABASE, SWEEP = "case.json", "case.html", "case.geojson", "case.db", "sweep.csv"
Sums = list[tuple[str, str, int]]       # name, SHA-256 and bytes of files


@dataclass(frozen=True)
class Folder:
    """The folder of a case that is being made."""

    place: str

    def path(self, name: str) -> str:
        """Returns the path of a file of the case."""
        return os.path.join(self.place, name)

    def write(self, name: str, texts: Iterable[str]) -> None:
        """Writes a file of the case."""
        with open(self.path(name), "w", encoding="utf-8", newline="") as out:
            out.writelines(texts)

    def text(self, name: str) -> str:
        """Returns the text of a file of the case."""
        return read_text(self.path(name))

    def sums(self, names: Iterable[str]) -> Sums:
        """Returns the name, sum and size of files of the case."""
        return [(name, *sum_of(self.path(name))) for name in names]


@contextlib.contextmanager
def new_folder(path: str) -> Iterator[Folder]:
    """Makes a folder that appears at the path once it is complete; if something fails, nothing is left."""
    if os.path.lexists(path) and (not os.path.isdir(path) or os.listdir(path)):
        raise Fault(f"{path} exists already: give another folder")
    parent = os.path.dirname(os.path.abspath(path))
    if not os.path.isdir(parent):
        raise Fault(f"{parent}: there is no such folder")
    try:
        place = tempfile.mkdtemp(dir=parent, prefix=".case-")
    except OSError as error:
        raise Fault(f"{path} cannot be made: {reason(error)}") from None
    try:
        os.chmod(place, 0o755)
        yield Folder(place)
        os.rename(place, path)
    except Fault as fault:
        raise Fault(str(fault).replace(place + os.sep, "").replace(place, path)) from None
    finally:
        shutil.rmtree(place, ignore_errors=True)


def reports_in(folder: str) -> tuple[str, str, str]:
    """Returns the path of a case's scenario, and the texts of its two reports."""
    if not os.path.exists(os.path.join(folder, ABOUT)):
        raise Fault(f"{folder}: no folder of a case, for it has no {ABOUT}")
    case_file(folder)
    scenario, points, report = (os.path.join(folder, name) for name in (SCENARIO, POINTS, REPORT))
    return scenario, read_text(points), read_text(report)
