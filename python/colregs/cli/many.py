"""Runs the shares of a long audit on one machine or many, stores each result, and joins them.

    colregs-many plan SCENARIO FILE .. [--ticks-each N] [--overlap S] [--group N] [--tiles CxR] > JOBS
    colregs-many JOBS [--jobs N] [--parallel [--hosts H1,H2]] [--dask ADDRESS]
    colregs-many join JOBS > REPORT
    colregs-many commands JOBS
    colregs-many slurm JOBS > SCRIPT

JOBS has one job per line, as JSON: the files (packed or not), the scenario, the window, perhaps subjects and a tile,
and what ties the window to the whole audit. A result is stored in the folder JOBS.kept under the sum (SHA-256) of its
inputs, so a run that was killed continues from there. `join` writes each row once, and marks in a further field the
rows that no window can know; JOBS.kept/doubts.csv says why, and JOBS.kept/moored.csv lists the meetings of vessels that
both lie still. It refuses shares that are missing or do not cover. docs/TRAFFIC_SERVICE.md describes the whole.

Exit status: 0 if all is done, 1 if something failed, 2 if the command line is wrong.
"""
import argparse
import functools
import json
import os
import re
import signal
import sys
from collections.abc import Callable, Sequence

from colregs.cli.arguments import add_program, at_least, parser_of
from colregs.errors import DONE, FAILED, Fault, end, report
from colregs.io.files import replace
from colregs.model.scenario import Scenario
from colregs.run.program import found
from colregs.shares import engines, join, plans, runs
from colregs.shares.jobs import Job, Kept, read_job, read_jobs
from colregs.words import count


def write_plan(given: argparse.Namespace) -> int:
    """Writes the list of jobs."""
    program = found(given.program) if given.group or given.tiles else None
    wanted = plans.Wanted(given.start, given.ticks, given.every, given.overlap, given.group, given.tiles, given.index)
    for job in plans.plan(given.files, wanted, Scenario(given.scenario), program):
        print(json.dumps(job))
    return DONE


def kept_of(given: argparse.Namespace) -> tuple[Kept, str]:
    """Returns the folder of results, and the program."""
    program = found(given.program)
    return Kept(given.kept or given.list + ".kept", program), program


def run_jobs(given: argparse.Namespace) -> int:
    """Runs the jobs whose results are not stored."""
    # so that the children end, and the folders of runs go
    signal.signal(signal.SIGTERM, signal.default_int_handler)
    jobs, (kept, program) = read_jobs(given.list), kept_of(given)
    if given.parallel or given.dask:
        ran, faults = run_elsewhere(given, jobs, kept, engines.Commands(given.list, kept.folder, program))
    else:
        ran, faults = runs.run_all(jobs, kept, program, given.jobs)
    for words in faults:
        report("many", words)
    before = len(jobs) - ran - len(faults)
    report("many", f"{count(len(jobs), 'job')}: {before} were cached, {ran} ran, {len(faults)} failed")
    return FAILED if faults else DONE


def run_elsewhere(given: argparse.Namespace, jobs: list[Job], kept: Kept,
                  commands: engines.Commands) -> tuple[int, list[str]]:
    """Runs the jobs without a result by GNU parallel or on Dask; returns how many have one now, and why others have
    none."""
    numbers, faults = engines.without_result(jobs, kept), list[str]()
    if numbers and given.dask:
        faults = engines.by_dask(commands, numbers, given.dask)
    elif numbers:
        engines.by_parallel(commands.lines(numbers), os.path.join(kept.folder, "joblog"), given.jobs, given.hosts)
    left = engines.without_result(jobs, kept)
    lacking = [f"job {number} has no result" for number in left]
    return len(numbers) - len(left), (faults + lacking)[:max(len(left), len(faults))]


def run_one(given: argparse.Namespace) -> int:
    """Runs the job of a number."""
    signal.signal(signal.SIGTERM, signal.default_int_handler)
    job, (kept, program) = read_job(given.list, given.number), kept_of(given)
    runs.run_one(job, kept, program)
    return DONE


def write_commands(given: argparse.Namespace) -> int:
    """Writes one command per job."""
    commands = engines.Commands(given.list, given.kept or given.list + ".kept", found(given.program))
    print("\n".join(commands.lines(range(1, len(read_jobs(given.list)) + 1))))
    return DONE


def write_slurm(given: argparse.Namespace) -> int:
    """Writes a script for Slurm with the jobs that have no result."""
    jobs, (kept, program) = read_jobs(given.list), kept_of(given)
    numbers = engines.without_result(jobs, kept)
    limits = engines.limits_of((need for job in jobs if (need := kept.need(job))), given.tasks)
    limits = engines.Limits(given.memory or limits.megabytes, given.minutes or limits.minutes, limits.tasks)
    print(engines.slurm(engines.Commands(given.list, kept.folder, program), numbers, limits), end="")
    report("many", f"{len(numbers)} of {len(jobs)} jobs have no result: each gets {limits.megabytes} MB and "
                   f"{limits.minutes} minutes")
    return DONE


def one_scenario(jobs: list[Job], kept: Kept) -> Scenario:
    """Returns the scenario of all jobs."""
    scenarios = {kept.scenario(job).text: kept.scenario(job) for job in jobs}
    if len(scenarios) > 1:
        raise Fault(f"the jobs have {len(scenarios)} different scenarios")
    return next(iter(scenarios.values()))


def write_joined(given: argparse.Namespace) -> int:
    """Writes the joined report, and beside the results the doubts and the meetings at rest."""
    jobs, (kept, _) = read_jobs(given.list), kept_of(given)
    missing = [job for job in jobs if not kept.has(job)]
    if missing:
        raise Fault(f"{len(missing)} of {len(jobs)} jobs have no result yet, as {missing[0].words()}: run the jobs "
                    "again")
    summary = join.Summary()
    sys.stdout.writelines(line + "\n" for line in join.joined(jobs, kept, one_scenario(jobs, kept), summary))
    for name, text in (("doubts.csv", summary.doubts_text()), ("moored.csv", summary.moored_text())):
        replace(os.path.join(kept.folder, name), text.encode())
    tell(summary, kept.folder)
    return DONE


def tell(summary: join.Summary, folder: str) -> None:
    """Says what a reader of the joined rows has to know."""
    if summary.marked:
        marks = ", ".join(f"{rows} `{mark}`" for mark, rows in sorted(summary.marked.items()))
        report("many", f"{sum(summary.marked.values())} of {summary.rows} rows are marked ({marks}), of those of "
                       f"vessels under way {summary.marked_under_way} of {summary.under_way}")
    if summary.doubts:
        report("many", f"{count(len(summary.doubts), 'doubt')}: {os.path.join(folder, 'doubts.csv')} says where rows "
                       "may be wrong or missing, and why")
    if summary.moored:
        report("many", f"{count(len(summary.moored), 'meeting is', 'meetings are')} of vessels that both lie still: "
                       f"{os.path.join(folder, 'moored.csv')} lists them")


def tiles(word: str) -> tuple[int, int]:
    """Parses columns and rows such as 4x3."""
    sides = re.fullmatch(r"([1-9]\d?)x([1-9]\d?)", word)
    if not sides:
        raise argparse.ArgumentTypeError("tiles are columns x rows, as 4x3")
    return int(sides[1]), int(sides[2])


def add_plan(words: argparse.ArgumentParser) -> None:
    """Adds the arguments of `plan`."""
    words.add_argument("scenario", metavar="SCENARIO")
    words.add_argument("files", nargs="+", metavar="FILE", help="a log with tag blocks, packed or not")
    words.add_argument("--start", type=at_least(0), metavar="SECONDS",
                       help="of the first window, instead of the scenario's")
    words.add_argument("--ticks", type=at_least(1), metavar="N",
                       help="of all windows together (default: up to the files' last time)")
    words.add_argument("--ticks-each", dest="every", type=at_least(1, 20000), metavar="N",
                       help="from a window's start to the next one's (default: 10000, half of what a run takes)")
    words.add_argument("--overlap", type=at_least(0, 1200000), metavar="SECONDS",
                       help="how far a window runs on into the next (default: as long as --ticks-each)")
    words.add_argument("--group", type=at_least(1, 64), metavar="N",
                       help="subjects of a share at most (default: all pairs are in one)")
    words.add_argument("--tiles", type=tiles, metavar="CxR", help="columns and rows, as 4x3")
    words.add_argument("--index", metavar="DIR",
                       help="store what is read of the files here, so that the next plan reads only those that changed")
    add_program(words)


def add_jobs(words: argparse.ArgumentParser, kind: str) -> None:
    """Adds the arguments of a kind of command that reads a list of jobs."""
    words.add_argument("list", metavar="JOBS")
    words.add_argument("--kept", metavar="DIR", help="the folder of the results (default: JOBS.kept)")
    add_program(words)
    if kind == "run":
        words.add_argument("--jobs", type=at_least(1), default=os.cpu_count(), metavar="N",
                           help="runs at a time (default: one per processor)")
        words.add_argument("--parallel", action="store_true", help="run the jobs by GNU parallel")
        words.add_argument("--hosts", help="with --parallel: where to log in by ssh, as host1,host2")
        words.add_argument("--dask", metavar="ADDRESS",
                           help="run the jobs on the workers of this Dask scheduler, as tcp://host:8786")
    elif kind == "one":
        words.add_argument("number", type=at_least(1), metavar="NUMBER", help="the number of a job, from 1 on")
    elif kind == "slurm":
        words.add_argument("--memory", type=at_least(1), metavar="MB",
                           help="of each job (default: twice what the largest so far needed; 512 before any ran)")
        words.add_argument("--minutes", type=at_least(1), metavar="N",
                           help="of each job (default: ten and four times the longest so far; 240 before any ran)")
        words.add_argument("--tasks", type=at_least(1), metavar="N",
                           help="of an array at most (default: one less than the cluster's MaxArraySize)")


def parser() -> argparse.ArgumentParser:
    """Returns the parser of the command line."""
    whole = parser_of(__doc__, "many")
    kinds = whole.add_subparsers(dest="kind", required=True, metavar="COMMAND")
    add_plan(kinds.add_parser("plan", help="write the list of jobs"))
    for kind, does in (("run", "run the jobs that have no result; `run` may be left out"), ("one", "run one job"),
                       ("commands", "write one command per job"), ("slurm", "write a script for sbatch"),
                       ("join", "write the joined report")):
        add_jobs(kinds.add_parser(kind, help=does), kind)
    return whole


WORK: dict[str, Callable[[argparse.Namespace], int]] = {
    "plan": write_plan, "run": run_jobs, "one": run_one, "commands": write_commands, "slurm": write_slurm,
    "join": write_joined
}


def main(arguments: Sequence[str] | None = None) -> int:
    """Does what the first word asks, which is `run` if it is no command."""
    words = list(sys.argv[1:] if arguments is None else arguments)
    if words and words[0] not in WORK and not words[0].startswith("-"):
        words = ["run"] + words
    given = parser().parse_args(words)
    return WORK[given.kind](given)


command = functools.partial(end, "many", main)       # runs the command, and leaves with its status
