"""Makes sea trials: own ship follows her pilot in simulated encounters, and the program audits each whole run.

The same seed and options make the same run again. The table goes to standard output
as CSV; --json has every run, and --page is one file with pictures of the worst runs. docs/BUILDER.md describes the
figures and how to tune a scenario by them.

Exit status: 0 if all runs were made; 1 if something failed; 2 if the command line is wrong.
"""
import argparse
import functools
import json
import os
import sys
from collections.abc import Sequence
from dataclasses import replace

from colregs.cli.arguments import add_program, at_least, parser_of
from colregs.errors import Fault, end, report
from colregs.io.files import replace as replace_file
from colregs.pilot.route import track_of_words
from colregs.pilot.runner import runner_of
from colregs.pilot.scenario import PilotScenario
from colregs.pilot.states import Track
from colregs.trials.batch import Job, run_all, with_progress
from colregs.trials.geometries import crossing_jobs, geometry_jobs
from colregs.trials.meetings import ANY, KINDS
from colregs.trials.page import page
from colregs.trials.summary import groups_of, measured, report_json, rows_of, worst
from colregs.trials.trial import OTHERS, Result, Setting

MOST_OTHERS = 8
FIXED = "crossing ", "geometry "      # how the kinds of fixed meetings begin


def kinds(word: str) -> tuple[str, ...]:
    """Parses kinds of encounters such as head_on,any."""
    names = tuple(word.split(","))
    if not set(names) <= {*KINDS, ANY}:
        raise argparse.ArgumentTypeError(f"kinds are {', '.join(KINDS)} and {ANY}, with commas between them")
    return names


def targets(word: str) -> tuple[int, int]:
    """Parses the least and the greatest number of others, such as 1..4 or 2."""
    low, dots, high = word.partition("..")
    if not (low.isdecimal() and (high.isdecimal() if dots else True)):
        raise argparse.ArgumentTypeError("a number of others, or two as 1..4")
    numbers = int(low), int(high if dots else low)
    if not 1 <= numbers[0] <= numbers[1] <= MOST_OTHERS:
        raise argparse.ArgumentTypeError(f"others are 1 to {MOST_OTHERS}, the smaller number first")
    return numbers


def track(word: str) -> Track:
    """Parses a track such as 000,14."""
    try:
        return track_of_words(word)
    except Fault as fault:
        raise argparse.ArgumentTypeError(str(fault)) from None


def parser() -> argparse.ArgumentParser:
    """Returns the parser of the command line."""
    words = parser_of(__doc__, "trials")
    words.add_argument("scenario", metavar="SCENARIO")
    words.add_argument("--kinds", type=kinds, default=(ANY,), metavar="KIND,..",
                       help=f"{', '.join(KINDS)} or {ANY}; each run has one of them (default: {ANY})")
    words.add_argument("--targets", type=targets, default=(1, 1), metavar="N..M",
                       help="how many others a run has (default: 1)")
    words.add_argument("--runs", type=at_least(1, 10000000), default=100, metavar="N",
                       help="how many runs (default: 100)")
    words.add_argument("--seed", type=at_least(0), default=1, metavar="S",
                       help="the seed of the first run; each next one has the next seed (default: 1)")
    words.add_argument("--jobs", type=at_least(1, 256), default=1, metavar="N", help="runs side by side (default: 1)")
    words.add_argument("--others", choices=OTHERS, default=OTHERS[0],
                       help="the others keep on (straight), follow pilots of their own (planning), or turn the wrong "
                            "way at a drawn moment (contrary)")
    words.add_argument("--noise", action="store_true",
                       help="reports are late, seldom, and wrong by the accuracy of class A and class B")
    words.add_argument("--sluggish", action="store_true",
                       help="own ship turns and changes speed more slowly than her scenario says")
    words.add_argument("--every", type=at_least(10, 600), default=60, metavar="SECONDS",
                       help="from one plan to the next (default: 60)")
    words.add_argument("--track", type=track, default=Track(0.0, 14.0), metavar="COURSE,SPEED",
                       help="what own ship wants, in degrees and knots (default: 000,14)")
    words.add_argument("--crossing", action="store_true",
                       help="also run each crossing angle by 10 degrees with ratios of speed from 0.5 to 2")
    words.add_argument("--geometries", action="store_true", help="also run 22 fixed geometries with up to three others")
    words.add_argument("--no-draw", dest="drawn", action="store_false", help="make no runs of drawn meetings")
    words.add_argument("--json", metavar="FILE", help="write every run, and the table, as JSON")
    words.add_argument("--page", metavar="FILE", help="write a page with pictures of the worst runs")
    words.add_argument("--logs", metavar="DIR", help="write the logs of the worst runs into this folder")
    words.add_argument("--worst", type=at_least(0, 100), default=12, metavar="N",
                       help="how many runs --page and --logs are of (default: 12)")
    add_program(words)
    return words


def setting_of(given: argparse.Namespace, scenario: PilotScenario) -> Setting:
    """Returns how runs are made."""
    if given.every % scenario.tick:
        raise Fault(f"--every {given.every} is no multiple of the scenario's tick of {scenario.tick} s")
    return Setting(given.kinds, given.targets, given.others, given.noise, given.sluggish, given.every, given.track)


def jobs_of(given: argparse.Namespace, scenario: PilotScenario, setting: Setting) -> list[Job]:
    """Returns all runs: those of drawn meetings first."""
    jobs = [Job(setting, seed) for seed in range(given.seed, given.seed + given.runs)] if given.drawn else []
    jobs += geometry_jobs(scenario, setting) if given.geometries else []
    jobs += crossing_jobs(scenario, setting) if given.crossing else []
    if not jobs:
        raise Fault("there is nothing to run: leave out --no-draw, or add --crossing or --geometries")
    return jobs


def group_label(result: Result) -> Result:
    """Returns a run with the name of its group: crossing angles are one group."""
    return replace(result, kind=result.kind.split()[0]) if result.kind.startswith(FIXED) else result


def about(given: argparse.Namespace, setting: Setting, count: int) -> str:
    """Returns what was run, for the head of the page."""
    more = [words for words, is_given in (("noise", setting.noise), ("sluggish", setting.sluggish)) if is_given]
    return (
        f"{count} runs of {os.path.basename(given.scenario)} from seed {given.seed}: the others {setting.others}"
        f"{', with ' + ' and '.join(more) if more else ''}, a plan each {setting.every} s, track "
        f"{setting.track.course:05.1f} at {setting.track.speed:g} knots."
    )


def made_again(given: argparse.Namespace, jobs: list[Job], results: list[Result]) -> list[Result]:
    """Returns the worst runs, made again for their tracks and logs."""
    by_key = {(job.seed, job.setting.label): job for job in jobs}
    again = [
        replace(by_key[result.seed, result.kind if result.kind.startswith(FIXED) else ""], pictured=True)
        for result in worst(results, given.worst)
    ]
    return list(run_all(given.scenario, given.program, again, 1))


def write_page(given: argparse.Namespace, scenario: PilotScenario, setting: Setting, results: list[Result],
               pictured: list[Result]) -> None:
    """Writes the page."""
    crossing = [result for result in results if result.kind.startswith("crossing ")]
    text = page(f"Sea trials of {os.path.basename(given.scenario)}", about(given, setting, len(results)), scenario,
                [group_label(result) for result in results], pictured, crossing)
    replace_file(given.page, text.encode())


def write_logs(folder: str, pictured: list[Result]) -> None:
    """Writes the log of each run, named by its kind and seed."""
    os.makedirs(folder, exist_ok=True)
    for result in pictured:
        replace_file(os.path.join(folder, f"{result.kind.replace(' ', '_')}_{result.seed}.log"), result.log)


def main(arguments: Sequence[str] | None = None) -> int:
    """Makes the runs, and writes what they show."""
    given = parser().parse_args(arguments)
    scenario = PilotScenario.read(given.scenario)
    runner_of(given.program).close()       # says now, and not in each process, that there is none
    setting = setting_of(given, scenario)
    jobs = jobs_of(given, scenario, setting)
    results = list(with_progress(run_all(given.scenario, given.program, jobs, given.jobs), len(jobs), "trials"))
    faults = [result for result in results if result.fault]
    if faults:
        report(
            "trials",
            f"{len(faults)} runs had an answer that is neither a plan nor none; first, seed {faults[0].seed}: "
            f"{faults[0].fault}"
        )
    grouped = [group_label(result) for result in results]
    sys.stdout.write(rows_of(groups_of(grouped)))
    times = measured(results)
    if "median" in times:
        report("trials",
               f"{times['plans']} plans, {times['median']} s each by their median, {times['greatest']} s the longest")
    if given.json:
        replace_file(
            given.json,
            (json.dumps(report_json(os.path.basename(given.scenario), setting, results, grouped), indent=1) + "\n"
             ).encode())
    if given.page or given.logs:
        pictured = made_again(given, jobs, results)
        if given.page:
            write_page(given, scenario, setting, results, pictured)
        if given.logs:
            write_logs(given.logs, pictured)
    return 1 if faults else 0


command = functools.partial(end, "trials", main)       # runs the command, and leaves with its status
