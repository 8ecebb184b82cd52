"""Runs many trials in parallel, and yields their results in the order of their seeds."""
from __future__ import annotations

import sys
import time
from collections.abc import Iterable, Iterator, Sequence
from concurrent.futures import ProcessPoolExecutor
from dataclasses import dataclass

from colregs.pilot.runner import ClosingRunner, runner_of
from colregs.pilot.scenario import PilotScenario
from colregs.trials.trial import Result, Setting, Trial

BAR = 30               # characters of the progress bar
SHOWN_EVERY = 0.5      # s between two drawings of it


@dataclass(frozen=True)
class Job:
    """One run: its setting, its seed, and whether to record its tracks."""

    setting: Setting
    seed: int
    pictured: bool = False


class Worker:
    """The state of each worker process: the scenario, and a runner of the program."""

    scenario: PilotScenario
    runner: ClosingRunner


def begin_worker(path: str, program: str | None) -> None:
    """Reads the scenario and makes the runner, once per process."""
    Worker.scenario, Worker.runner = PilotScenario.read(path), runner_of(program)


def run_job(job: Job) -> Result:
    """Runs one trial."""
    return Trial(Worker.scenario, Worker.runner, job.setting, job.seed, job.pictured).run()


def run_all(path: str, program: str | None, jobs: Sequence[Job], processes: int) -> Iterator[Result]:
    """Yields the result of each job, in order. Without a program it uses the library, if that is installed."""
    if processes == 1:
        begin_worker(path, program)
        yield from map(run_job, jobs)
        Worker.runner.close()
        return
    with ProcessPoolExecutor(processes, initializer=begin_worker, initargs=(path, program)) as pool:
        yield from pool.map(run_job, jobs)


def with_progress(results: Iterable[Result], count: int, name: str) -> Iterator[Result]:
    """Yields the results, and draws a progress bar on standard error if that is a terminal."""
    begin, shown = time.monotonic(), 0.0
    for done, result in enumerate(results, 1):
        now = time.monotonic()
        if sys.stderr.isatty() and (now - shown > SHOWN_EVERY or done == count):
            shown, filled = now, BAR * done // count
            left = (now - begin) / done * (count - done)
            print(f"\r{name}: [{'#' * filled}{'.' * (BAR - filled)}] {done} of {count} runs, {left:.0f} s left ",
                  end="", file=sys.stderr, flush=True)
        yield result
    if sys.stderr.isatty():
        print(file=sys.stderr)
