"""Plans for own ship at regular times over a stream of sentences, and writes what to steer as lines of JSON.

The stream is standard input, a file that grows, or the output of a command, and includes own ship's reports (AIVDO or
AIVDM). Her choices are the scenario's, taken as offsets from the track. If the input stalls, the program fails or
refuses the scenario, the lines continue and say so. docs/BUILDER.md describes the states, and how to tune a scenario.

Exit status: 0 if the stream ended, or a signal arrived; 1 if something failed; 2 if the command line is wrong.
"""
import argparse
import functools
import os
import signal
import sys
import threading
from collections.abc import Callable, Sequence
from typing import TextIO

from colregs.cli.arguments import add_program, at_least, parser_of
from colregs.cli.follow import add_source, source_of
from colregs.errors import Fault, end, reason
from colregs.pilot.areas import Barrier, read_areas
from colregs.pilot.lines import Moment, line_of
from colregs.pilot.live import Live, Pace
from colregs.pilot.nmea import command_sentence, text_sentence
from colregs.pilot.pilot import Pilot
from colregs.pilot.planner import Planner
from colregs.pilot.route import FASTEST, OneTrack, Wanted, read_route, track_of_words
from colregs.pilot.runner import runner_of
from colregs.pilot.scenario import PilotScenario


def offsets(word: str) -> tuple[list[int], list[int] | None]:
    """Parses offsets such as 0,30,-30/0,-6: degrees, and perhaps knots; returns tenths."""
    courses, slash, speeds = word.partition("/")
    try:
        found_courses = [round(float(part) * 10) for part in courses.split(",")]
        return found_courses, [round(float(part) * 10) for part in speeds.split(",")] if slash else None
    except (ValueError, OverflowError):
        raise argparse.ArgumentTypeError("offsets are degrees, and perhaps knots, as 0,30,-30/0,-6") from None


def knots(word: str) -> float:
    """Returns a speed in knots."""
    try:
        if 0 < float(word) <= FASTEST:
            return float(word)
    except ValueError:
        pass
    raise argparse.ArgumentTypeError(f"a speed above 0 and at most {FASTEST} knots")


def parser() -> argparse.ArgumentParser:
    """Returns the parser of the command line."""
    words = parser_of(__doc__)
    words.add_argument("scenario", metavar="SCENARIO")
    wanted = words.add_mutually_exclusive_group(required=True)
    wanted.add_argument("--track", metavar="COURSE,SPEED", help="what own ship wants, in degrees and knots, as 000,14")
    wanted.add_argument("--route", metavar="FILE",
                        help="a CSV file of waypoints: latitude,longitude in degrees, and perhaps speed in knots")
    words.add_argument("--speed", type=knots, metavar="KNOTS", help="the speed on a route whose file has none")
    words.add_argument("--every", type=at_least(1, 3600), default=30, metavar="SECONDS",
                       help="from one line to the next (default: 30)")
    add_source(words, "end with it")
    words.add_argument("--replay", action="store_true",
                       help="take the time from the log alone, write a line for each --every of it, and end with it")
    words.add_argument("--history", type=at_least(60, 86400), default=3600, metavar="SECONDS",
                       help="how far back a window reaches at most (default: 3600)")
    words.add_argument("--stale", type=at_least(1, 86400), metavar="SECONDS",
                       help="without input for so long the state is stale (default: the scenario's gap)")
    words.add_argument("--offsets", type=offsets, metavar="DEGREES[/KNOTS]",
                       help="own ship's choices against the track, instead of the scenario's")
    words.add_argument("--no-go", metavar="FILE", help="GeoJSON of areas that own ship may not enter")
    words.add_argument("--nmea", action="store_true", help="write NMEA sentences, HTC and TXT, instead of JSON")
    words.add_argument("--out", metavar="FILE", help="a file that the lines of JSON are added to")
    words.add_argument("--no-recheck", dest="recheck", action="store_false", help="do not confirm why every plan fails")
    add_program(words)
    return words


def scenario_of(given: argparse.Namespace) -> PilotScenario:
    """Returns the scenario, with other offsets if they are given."""
    scenario = PilotScenario.read(given.scenario)
    if given.every % scenario.tick:
        raise Fault(f"--every {given.every} is no multiple of the scenario's tick of {scenario.tick} s")
    return scenario.with_offsets(*given.offsets) if given.offsets else scenario


def wanted_of(given: argparse.Namespace, scenario: PilotScenario) -> Wanted:
    """Returns what own ship wants."""
    if given.track:
        return OneTrack(track_of_words(given.track))
    return read_route(given.route, scenario.latitude, scenario.longitude, given.speed)


def writer_of(given: argparse.Namespace, scenario: PilotScenario, out: TextIO | None) -> Callable[[Moment], None]:
    """Returns what writes each moment, at once."""
    turn = scenario.turn_rate / 10 / scenario.tick * 60

    def write(moment: Moment) -> None:
        line = line_of(moment) + "\n"
        if out:
            out.write(line)
            out.flush()
        if given.nmea:
            line = f"{command_sentence(moment.decision, turn)}\r\n{text_sentence(moment.decision)}\r\n"
        if given.nmea or not out:
            sys.stdout.write(line)
            sys.stdout.flush()
    return write


def main(arguments: Sequence[str] | None = None) -> int:
    """Writes lines until the stream ends or a signal arrives."""
    given = parser().parse_args(arguments)
    scenario, stop = scenario_of(given), threading.Event()
    barrier = Barrier(scenario, read_areas(given.no_go, scenario)) if given.no_go else None
    runner, wanted, source = runner_of(given.program), wanted_of(given, scenario), source_of(given, os.devnull)
    try:
        out = open(given.out, "a", encoding="utf-8") if given.out else None
    except OSError as error:
        raise Fault(f"{given.out}: {reason(error)}") from None
    pilot = Pilot(scenario, Planner(scenario, runner, barrier), given.history)
    live = Live(pilot, wanted, Pace(given.every, given.stale or scenario.gap, given.replay),
                writer_of(given, scenario, out), barrier, given.now, given.recheck)
    for number in (signal.SIGTERM, signal.SIGINT):
        signal.signal(number, lambda *_: stop.set())
    try:
        live.run(source, stop, given.whole or given.replay)
    finally:
        runner.close()
        if out:
            out.close()
    return 0


command = functools.partial(end, "pilot", main)       # runs the command, and leaves with its status
