"""Runs the jobs of a list on other engines: GNU parallel, a Slurm array, or Dask. Each engine runs `colregs-many one`
per job without a result."""
import concurrent.futures
import importlib
import os
import re
import shlex
import shutil
import subprocess
import time
from collections.abc import Iterable, Iterator
from dataclasses import dataclass
from typing import Any

from colregs.errors import Fault
from colregs.run.children import CHILDREN
from colregs.run.pipes import TOOL
from colregs.shares.jobs import Job, Kept, Need

MOST_TASKS = 1000                       # tasks of an array: MaxArraySize is 1001 by default
MEMORY, MINUTES = 512, 240              # MB and minutes of a job before one was measured
TERMINATED = 0.5                        # s between two signals to GNU parallel
SCHEDULER = 10                          # s: the time limit for a Dask scheduler to answer
SPARE = 64                              # MB for the tool itself; memory requests are multiples of it
MAX_ARRAY_SIZE = re.compile(r"^MaxArraySize\s*=\s*(\d+)", re.M)


@dataclass(frozen=True)
class Commands:
    """The commands that run one job of a list each, on any machine that sees the files under the same names."""

    path: str
    kept: str
    program: str

    def words(self, number: str) -> list[str]:
        """Returns the command for the job of a number."""
        return [
            TOOL, "one",
            os.path.abspath(self.path), number, "--kept",
            os.path.abspath(self.kept), "--program", self.program
        ]

    def lines(self, numbers: Iterable[int]) -> list[str]:
        """Returns the commands for these jobs, as lines of the shell."""
        return [shlex.join(self.words(str(number))) for number in numbers]


def without_result(jobs: list[Job], kept: Kept) -> list[int]:
    """Returns the numbers of the jobs without a result, counted from 1."""
    return [number for number, job in enumerate(jobs, 1) if not kept.has(job)]


def by_parallel(lines: list[str], log: str, processes: int, hosts: str | None) -> None:
    """Runs commands with GNU parallel, which writes those that ended to the file `log`. That log does not decide which
    jobs run; only their results do."""
    if not shutil.which("parallel"):
        raise Fault("GNU parallel is not installed (Debian package parallel); without --parallel the jobs run in "
                    "threads")
    words = ["parallel", "--joblog", log, "--jobs", str(processes), *(["--sshlogin", hosts] if hosts else [])]
    child = CHILDREN.started(words, stdin=subprocess.PIPE)
    try:
        child.communicate("".join(line + "\n" for line in lines).encode())
    except KeyboardInterrupt:
        # the first signal stops it from starting jobs, and the second ends the running ones
        for _ in range(2):
            child.terminate()
            time.sleep(TERMINATED)
        raise
    finally:
        child.wait()
        CHILDREN.ended(child)


def by_dask(commands: Commands, numbers: list[int], address: str) -> list[str]:
    """Runs jobs on the workers of a Dask scheduler; returns why jobs failed. If a worker dies, another one runs its
    job.

    Workers do not need this package: each runs the command of a job as a process.
    """
    try:
        distributed: Any = importlib.import_module("distributed")
    except ImportError:
        raise Fault("Dask is not installed (Debian package python3-distributed)") from None
    try:
        client = distributed.Client(address, timeout=SCHEDULER)
    except (OSError, ValueError) as error:
        raise Fault(f"the Dask scheduler {address} does not answer: {error}") from None
    with client:
        futures = {
            client.submit(subprocess.run, commands.words(str(number)), capture_output=True, pure=False): number
            for number in numbers
        }
        return [fault for future in distributed.as_completed(futures) for fault in faults_of(future, futures[future])]


def faults_of(future: Any, number: int) -> Iterator[str]:
    """Yields why a job failed on Dask, if it did."""
    try:
        done = future.result()
    except (Exception, concurrent.futures.CancelledError) as error:
        yield f"job {number} failed to start: {type(error).__name__}: {error}"
        return
    if done.returncode:
        said = done.stderr.decode("utf-8", "replace").strip().splitlines()
        yield (said[-1] if said else f"job {number} ended with status {done.returncode}").removeprefix("many: ")


@dataclass(frozen=True)
class Limits:
    """The resources that Slurm gives each task, and the greatest number of tasks in an array."""

    megabytes: int
    minutes: int
    tasks: int


def limits_of(needs: Iterable[Need], tasks: int | None) -> Limits:
    """Returns limits from the needs of jobs so far: twice the memory and four times the seconds. `tasks` is None for
    the cluster's own number."""
    known = list(needs)
    if not known:
        return Limits(MEMORY, MINUTES, tasks or most_tasks())
    megabytes = 2 * max(need.kilobytes for need in known) // 1000 + SPARE
    return Limits(-(-megabytes // SPARE) * SPARE, 10 + 4 * max(need.seconds for need in known) // 60, tasks
                  or most_tasks())


def most_tasks() -> int:
    """Returns the greatest number of tasks in an array of this cluster, or Slurm's default without a cluster."""
    if not shutil.which("scontrol"):
        return MOST_TASKS
    try:
        done = subprocess.run(["scontrol", "show", "config"], stdin=subprocess.DEVNULL, stdout=subprocess.PIPE,
                              stderr=subprocess.DEVNULL, text=True, timeout=20)
    except (OSError, subprocess.TimeoutExpired):
        return MOST_TASKS
    found = MAX_ARRAY_SIZE.search(done.stdout)
    return max(1, int(found[1]) - 1) if found else MOST_TASKS


def slurm(commands: Commands, numbers: list[int], limits: Limits) -> str:
    """Returns a script that submits these jobs to Slurm in arrays of at most `limits.tasks` tasks, one job each."""
    task = shlex.join(commands.words("NUMBER")).replace(" NUMBER ", ' "$((SLURM_ARRAY_TASK_ID + $1))" ')
    parts: dict[int, list[int]] = {}
    for number in numbers:
        first = (number - 1) // limits.tasks * limits.tasks
        parts.setdefault(first, []).append(number - first)
    arrays = [f'  sbatch --array={ranges(places)} "$0" {first} || exit' for first, places in parts.items()]
    return "\n".join([
        "#!/bin/sh", "# Run this script with `sh` or `sbatch`: it submits its jobs to Slurm in arrays.",
        "#SBATCH --job-name=colregs", "#SBATCH --cpus-per-task=1", f"#SBATCH --mem={limits.megabytes}M",
        f"#SBATCH --time={limits.minutes}", "#SBATCH --requeue", "#SBATCH --open-mode=append",
        f"#SBATCH --output={os.path.join(os.path.abspath(commands.kept), 'slurm.out')}",
        'if [ -z "$SLURM_ARRAY_TASK_ID" ]; then', *arrays, "  exit", "fi", f"exec {task}", ""
    ])


def ranges(numbers: list[int]) -> str:
    """Returns ascending numbers in Slurm's notation, such as 1-5,8."""
    found: list[list[int]] = []
    for number in numbers:
        if found and found[-1][1] == number - 1:
            found[-1][1] = number
        else:
            found.append([number, number])
    return ",".join(str(first) if first == last else f"{first}-{last}" for first, last in found)
