"""Runs shares: each is a `colregs audit` over its part of the files, in this thread or in several."""
import concurrent.futures
import dataclasses
import json
import os
import resource
import shlex
import shutil
import socket
import subprocess
import tempfile
import time
from collections.abc import Callable, Iterator
from contextlib import contextmanager
from dataclasses import dataclass

from colregs.errors import Fault, reason
from colregs.io.files import read_bytes
from colregs.run.children import CHILDREN
from colregs.run.limits import STATUS, limit_of, next_step
from colregs.run.pipes import Ended, module, piped, reader
from colregs.shares.cuts import write_cut
from colregs.shares.cutter import Cut
from colregs.shares.jobs import Job, Kept, Need
from colregs.shares.places import Points
from colregs.shares.results import by_tiles, merged, of_vessels, rows_of, text_of, vessels_of

FIRST_GROUP = 64        # subjects of the first groups into which a share with too many pairs is split
STALE = 24 * 3600       # s: if the folder of a run on another machine did not change for so long, that run is dead
WAKE = 1.0              # s after which a wait looks for signals
Done = concurrent.futures.Future[bool]


@dataclass
class Room:
    """The folder of one run, with the share's log if the log is cut."""

    folder: str
    job: Job
    kept: Kept
    program: str

    def path(self, name: str) -> str:
        """Returns the path of a file in the folder."""
        return os.path.join(self.folder, name)

    def source(self) -> str:
        """Returns the shell command that writes the share's log. If the log is cut, this cuts it once, into a file."""
        cut = self.job.cut(self.kept.scenario(self.job))
        if cut is None:
            return reader(self.job.files)
        write_cut(self.job.files, cut, self.folder, self.path("log"), self.job.words(),
                  self.job.reads if self.job.sums else None)
        return "cat -- " + shlex.quote(self.path("log"))

    def audited(self, source: str, subjects: list[int] | None) -> Ended:
        """Runs `audit` with these subjects into the file report.csv."""
        with open(self.path("scenario.toml"), "w", encoding="utf-8") as out:
            out.write(self.kept.scenario(self.job).with_subjects(subjects))
        return self.run(source, "audit", "report.csv")

    def run(self, source: str, mode: str, name: str) -> Ended:
        """Runs a mode over the log into a file. Raises Fault if the log was not read to its end."""
        with open(self.path(name), "wb") as out, open(self.path("error"), "w+b") as error:
            done = piped(source, [self.program, mode, self.path("scenario.toml"), *self.job.options()], out, error)
        if done.status == 0 and not done.whole:
            raise Fault(f"{self.job.words()}: cannot read its files to the end: {done.words}")
        return done

    def report(self) -> bytes:
        """Returns the report of the last run."""
        return read_bytes(self.path("report.csv"))


def run_one(job: Job, kept: Kept, program: str) -> bool:
    """Runs a job if it has no result yet; returns whether it ran. Raises Fault if the run has no complete result."""
    if kept.has(job):
        return False
    begin = time.monotonic()
    with run_folder(kept.folder) as folder:
        report = whole_report(Room(folder, job, kept, program))
        kept.keep(job, report + need(time.monotonic() - begin).line())
    return True


def whole_report(room: Room) -> bytes:
    """Returns the report of a share, with the rows for a join. If the share exceeds a limit of the program, this splits
    it, and splits its parts again if necessary."""
    source, job = room.source(), room.job
    done = room.audited(source, job.subjects)
    if done.status == STATUS and limit_of(done.words) == "pairs":
        return split(room, source, done) + seen(room, source)
    if done.status == STATUS and limit_of(done.words) in ("vessels", "log"):
        return by_places(room, done)
    if done.status != 0:
        raise failed(job, done)
    return room.report() + seen(room, source)


def failed(job: Job, done: Ended) -> Fault:
    """Returns why a share has no report."""
    return Fault(f"{job.words()} ended with status {done.status}, {done.words}{next_step(done.status, done.words)}")


def by_places(room: Room, done: Ended) -> bytes:
    """Returns the report of a share with too many vessels or bytes, from a report of the vessels near one half of the
    plane and one of those near the other half."""
    scenario, job = room.kept.scenario(room.job), room.job
    lines = job.lines(scenario)
    cut = job.cut(scenario) or Cut(*lines, *lines, scenario.slack)
    points = Points(job.files, scenario, cut, job.window(), room.program, job.reads if job.sums else None)
    vessels = points.within(*lines)
    halves_ = points.halves(vessels, lines, scenario.watch + 1)
    if not halves_ or max(map(len, halves_)) >= len(vessels):
        raise failed(job, done)
    parts = []
    for number, half in enumerate(halves_):
        folder = room.path(f"half{number}")
        os.mkdir(folder)
        text = whole_report(Room(folder, dataclasses.replace(job, vessels=half, tile=None), room.kept, room.program))
        parts.append(of_vessels(rows_of(text.decode("utf-8", "replace")), set(half)))
        shutil.rmtree(folder)
    return text_of(by_tiles(parts, job.words())).encode()


def need(seconds: float) -> Need:
    """Returns the resources that a job needed. The memory is that of the largest child process so far, which may belong
    to another job."""
    return Need(round(seconds) + 1, resource.getrusage(resource.RUSAGE_CHILDREN).ru_maxrss)


@contextmanager
def run_folder(kept: str) -> Iterator[str]:
    """Makes the folder of a run, named by its machine and process, and removes it at the end. Raises Fault with the
    folder if it is not writable."""
    try:
        with tempfile.TemporaryDirectory(dir=kept, prefix=f"run.{socket.gethostname()}.{os.getpid()}.") as folder:
            yield folder
    except OSError as error:
        raise Fault(f"cannot write {error.filename or kept}: {reason(error)}") from None


def seen(room: Room, source: str) -> bytes:
    """Returns the rows that the join of windows needs: accepted reports about the beginnings of windows, and who lay
    still."""
    scenario = room.kept.scenario(room.job)
    if not room.job.is_part(scenario):
        return b""
    words = shlex.join(module("shares.seen", json.dumps([room.job.checks(), scenario.slack])))
    command = shlex.join([room.program, "points", room.path("scenario.toml"), *room.job.options()])
    done = CHILDREN.run(["bash", "-c", f"set -o pipefail; {source} | {command} | {words}"], stdin=subprocess.DEVNULL,
                        stdout=subprocess.PIPE, stderr=subprocess.PIPE)
    if done.returncode:
        said = done.stderr.decode("utf-8", "replace").strip()
        raise Fault(f"{room.job.words()}: `points` ended with status {done.returncode}, {said}")
    return done.stdout


def split(room: Room, source: str, done: Ended) -> bytes:
    """Returns the report of a share with too many pairs, from runs with groups of its subjects. It halves a group that
    still has too many pairs."""
    scenario, job = room.kept.scenario(room.job), room.job
    own = job.subjects or scenario.subjects
    subjects = sorted(own or heard(room, source))
    groups = [subjects[k:k + FIRST_GROUP] for k in range(0, len(subjects), FIRST_GROUP)]
    if own:
        groups = halves(subjects)
    reports = []
    while groups:
        group = groups.pop(0)
        done = room.audited(source, group)
        if done.status == STATUS and limit_of(done.words) == "pairs" and len(group) > 1:
            groups = halves(group) + groups
        elif done.status != 0:
            raise failed(job, done)
        else:
            reports.append((group, room.report().decode("utf-8", "replace")))
    return merged(reports, bool(own), job.words()).encode()


def halves(group: list[int]) -> list[list[int]]:
    """Returns the two halves of a group; a group of one vessel stays whole."""
    middle = -(-len(group) // 2)
    return [half for half in (group[:middle], group[middle:]) if half]


def heard(room: Room, source: str) -> list[int]:
    """Returns the vessels of a share's log, from an audit with one subject that no vessel has as MMSI."""
    done = room.audited(source, [799999999])
    if done.status != 0:
        raise failed(room.job, done)
    return vessels_of(room.report().decode("utf-8", "replace"))


def clear(folder: str) -> None:
    """Removes the folders of killed runs: of this machine if their process is gone, and of other machines if nothing
    changed in them for a day."""
    for name in os.listdir(folder):
        path = os.path.join(folder, name)
        if name.startswith("run.") and os.path.isdir(path) and is_dead(name, path):
            shutil.rmtree(path, ignore_errors=True)


def is_dead(name: str, path: str) -> bool:
    """Returns whether the run of a folder is over."""
    host, _, process = name.removeprefix("run.").rpartition(".")[0].rpartition(".")
    if host == socket.gethostname() and process.isdecimal():
        return not os.path.exists(f"/proc/{process}") if os.path.isdir("/proc/self") else False
    try:
        return time.time() - max(os.stat(one).st_mtime
                                 for one in [path, *(entry.path for entry in os.scandir(path))]) > STALE
    except OSError:
        return False                                        # another process is removing it


def run_all(jobs: list[Job], kept: Kept, program: str, processes: int) -> tuple[int, list[str]]:
    """Runs the jobs without a result, `processes` at a time. Returns the number that ran, and why others failed."""
    clear(kept.folder)
    faults, ran = [], 0

    def take(done: Done) -> None:
        nonlocal ran
        try:
            ran += done.result()
        except Fault as fault:
            faults.append(str(fault))

    run_each(jobs, kept, program, processes, take)
    return ran, faults


def run_each(jobs: list[Job], kept: Kept, program: str, processes: int, take: Callable[[Done], None]) -> None:
    """Runs the jobs without a result, `processes` at a time, and gives each that is done to `take`. If that raises, or
    the user interrupts it, it kills its children."""
    pool = concurrent.futures.ThreadPoolExecutor(processes)
    try:
        for done in [pool.submit(run_one, job, kept, program) for job in jobs]:
            # a signal may come to another thread of the process, and is handled once this one wakes
            while not concurrent.futures.wait([done], WAKE).done:
                pass
            take(done)
    except BaseException:
        pool.shutdown(wait=False, cancel_futures=True)
        CHILDREN.kill()
        raise
    finally:
        pool.shutdown()
