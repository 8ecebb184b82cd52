"""Finds the program, runs it on a scenario and a log, and reads the rows that it writes."""
import os
import shutil
import subprocess
import sys
import tempfile
from collections.abc import Container, Sequence
from typing import NamedTuple

from colregs.errors import Fault, reason
from colregs.run.limits import next_step

# a clone, a tarball, or another folder
TOP = os.path.dirname(os.path.dirname(os.path.dirname(os.path.dirname(os.path.abspath(__file__)))))
BUILT = os.path.join(TOP, "crates", "colregs", "out", "colregs")      # what ./colregs runs in a clone
VARIABLE = "COLREGS_PROGRAM"


def is_program(path: str) -> bool:
    """Returns whether a path is an executable file."""
    return os.path.isfile(path) and os.access(path, os.X_OK)


def on_path() -> str | None:
    """Returns the program in the absolute folders of PATH, which excludes the current folder."""
    folders = [folder for folder in os.environ.get("PATH", os.defpath).split(os.pathsep) if os.path.isabs(folder)]
    return shutil.which("colregs", path=os.pathsep.join(folders))


def beside() -> str | None:
    """Returns the path of a program next to the tool. Returns None if the tool is not a file, because that would search
    the current folder."""
    tool = os.path.realpath(sys.argv[0])
    is_file = not sys.argv[0].startswith("-") and os.path.isfile(tool)
    return os.path.join(os.path.dirname(tool), "colregs") if is_file else None


def built(path: str) -> str:
    """Returns the path itself, or, if it is the command at the top of a clone, the program that this command runs.

    The command first builds the program without proofs if necessary, and shows its progress on standard error. Raises
    Fault if the build fails.
    """
    if not os.path.exists(os.path.join(os.path.dirname(os.path.realpath(path)), "dev", "start")):
        return os.path.abspath(path)
    done = subprocess.run([os.path.abspath(path), "--path"], stdin=subprocess.DEVNULL, stdout=subprocess.PIPE,
                          text=True)
    if done.returncode:
        raise Fault(f"cannot build the program: {path} --path ended with status {done.returncode}")
    return done.stdout.rstrip("\n")


def found(given: str | None = None) -> str:
    """Returns the program: from `given`, from COLREGS_PROGRAM, in this clone, next to the tool, or on PATH, in this
    order."""
    named = given or os.environ.get(VARIABLE)
    if named:
        if not is_program(named):
            raise Fault(f"{named} is not an executable file")
        return built(named)
    for path in (os.path.join(TOP, "colregs"), BUILT, beside(), on_path()):
        if path and is_program(path):
            return built(path)
    raise Fault("cannot find the program: give --program, or set COLREGS_PROGRAM")


def programs_of(program: str) -> list[str]:
    """Returns the files of a program: itself, and for the command at the top of a clone also the one that it runs."""
    at_top = os.path.realpath(program) == os.path.realpath(os.path.join(TOP, "colregs"))
    return [program] + ([BUILT] if at_top and os.path.exists(BUILT) else [])


def version_of(program: str) -> str:
    """Returns the program's version."""
    try:
        done = subprocess.run([program, "--version"], stdin=subprocess.DEVNULL, stdout=subprocess.PIPE,
                              stderr=subprocess.PIPE)
    except OSError as error:
        raise Fault(f"{program}: {reason(error)}") from None
    return done.stdout.decode(errors="replace").strip() or "unknown"


class Columns(NamedTuple):
    """The points of a run by column: places in 1/10000 metre; speeds and courses as bytes, which may be empty."""

    ships: list[int]
    times: list[int]
    easts: list[int]
    norths: list[int]
    speeds: list[bytes]
    courses: list[bytes]


class Run:
    """A run of the program: its status, its output, and its line on standard error."""

    def __init__(self, program: str, mode: str, scenario: str, log: str, options: Sequence[str] = ()) -> None:
        try:
            with open(log, "rb") as source:
                done = subprocess.run([os.path.abspath(program), mode, scenario, *options], stdin=source,
                                      stdout=subprocess.PIPE, stderr=subprocess.PIPE)
        except OSError as error:
            raise Fault(f"cannot open {error.filename}: {reason(error)}") from None
        self.status, self.text = done.returncode, done.stdout
        self.words = done.stderr.decode("utf-8", "replace").strip()

    def fault(self, mode: str) -> Fault:
        """Returns why there is no report of a mode: the status, the line on standard error, and what to do."""
        step = next_step(self.status, self.words) or "; docs/ROWS.md says what to do at each status"
        return Fault(f"`{mode}` ended with status {self.status}, {self.words}{step}")

    def rows(self, kind: str) -> list[list[bytes]]:
        """Returns the fields of each row of a kind; only a vessel's name may contain a comma."""
        head = kind.encode() + b","
        return [line.split(b",") for line in self.text.split(b"\n") if line.startswith(head)]

    def columns(self) -> Columns:
        """Returns the columns of all points."""
        begin = self.text.find(b"lines,")
        fields = self.text[:begin].replace(b"\n", b",").split(b",")
        ships, times, easts, norths = (list(map(int, fields[k:-1:7])) for k in (1, 2, 3, 4))
        return Columns(ships, times, easts, norths, fields[5:-1:7], fields[6:-1:7])

    def counts(self) -> dict[str, int]:
        """Returns the number of lines of each outcome."""
        return {fields[1].decode(): int(fields[2]) for fields in self.rows("lines")}


def known_run(text: str) -> Run:
    """Returns a successful run with this output, for reports that exist already."""
    run = Run.__new__(Run)
    run.status, run.text, run.words = 0, text.encode(), ""
    return run


def run_text(program: str, mode: str, text: str, log: str) -> Run:
    """Runs the program with a scenario from a text."""
    with tempfile.NamedTemporaryFile("w", suffix=".toml", encoding="utf-8") as out:
        out.write(text)
        out.flush()
        return Run(program, mode, out.name, log)


def report_of(program: str, mode: str, scenario: str, log: str, good: Container[int] = (0,),
              options: Sequence[str] = ()) -> str:
    """Returns the report of the program. Raises Fault with its line on standard error unless its status is in `good`.
    """
    done = Run(program, mode, scenario, log, options)
    if done.status not in good:
        raise done.fault(mode)
    return done.text.decode()


def window_options(start: int | None = None, ticks: int | None = None) -> list[str]:
    """Returns the program's options for a window."""
    return [f"{name}={value}" for name, value in (("--start", start), ("--ticks", ticks)) if value is not None]
