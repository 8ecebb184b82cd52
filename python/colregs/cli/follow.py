"""Audits a stream that does not end: overlapping runs over its lines, each row once, as JSON lines.

The stream is standard input, a file that grows, or what a command writes, as `socat -u UDP-RECV:10110 STDOUT` or
`gpspipe -r` with --now, which gives bare sentences their times. Its lines are stored in DIR, one file per day, and the
rows beside them; a restart continues from these. Windows are the scenario's except for start and ticks. A window with
more than 4096 pairs is split by subjects, one with more than 4096 vessels by area. docs/TRAFFIC_SERVICE.md describes
the whole.

Exit status: 0 if the stream ended, or a signal arrived; 1 if something failed; 2 if the command line is wrong.
"""
import argparse
import functools
import os
import signal
import threading
from collections.abc import Sequence

from colregs.cli.arguments import add_program, parser_of
from colregs.errors import Fault, end
from colregs.model.scenario import MOST_TICKS, Scenario
from colregs.run.program import found
from colregs.shares.plans import overlap_needed
from colregs.stream import rows, sources
from colregs.stream.follow import Follow, sights_of
from colregs.stream.stretches import PATIENCE, StretchSink


def modes(word: str) -> list[str]:
    """Parses modes such as audit,watch."""
    names = word.split(",")
    if not set(names) <= {"audit", "watch"} or len(set(names)) < len(names):
        raise argparse.ArgumentTypeError("modes are audit, watch, or audit,watch")
    return names


def add_source(words: argparse.ArgumentParser, at_end: str) -> None:
    """Adds where a stream comes from, as colregs-pilot takes it too; `at_end` says what happens at its end."""
    words.add_argument("--log", metavar="FILE", help="a file that grows, instead of standard input")
    words.add_argument("--command", metavar="COMMAND",
                       help="a command whose output is the stream; it is started again if it ends")
    words.add_argument("--now", action="store_true", help="give bare sentences the time at which they arrive")
    words.add_argument("--whole", action="store_true", help=f"the stream ends for good: {at_end}")


def add_stream(words: argparse.ArgumentParser) -> None:
    """Adds what colregs-live takes too: the scenario, the stream and its windows."""
    words.add_argument("scenario", metavar="SCENARIO")
    words.add_argument("--days", metavar="DIR", required=True, help="the folder of the day files")
    add_source(words, "write its last rows too, and do not wait for a file to grow")
    words.add_argument("--ticks-each", dest="every", type=int, default=360, metavar="N",
                       help="from a window's start to the next one's (default: 360)")
    words.add_argument("--overlap", type=int, default=3600, metavar="SECONDS",
                       help="how far a window runs on into the next (default: 3600)")
    words.add_argument("--clock", choices=("greatest", "median"), default="greatest",
                       help="the stream's clock is the greatest time so far (the default), or that of most stations, "
                            "which then restamps lines of those ahead")
    words.add_argument("--group", type=int, default=32, metavar="N",
                       help="subjects of a run at most if a window is split (default: 32)")
    add_program(words)


def parser() -> argparse.ArgumentParser:
    """Returns the parser of the command line."""
    words = parser_of(__doc__, "follow")
    add_stream(words)
    words.add_argument("--modes", type=modes, default=["audit"], help="audit (the default), watch, or audit,watch")
    words.add_argument("--stretches", action="store_true",
                       help="alarms as stretches, with names, place and marks: a line when one begins and one when it "
                            "is over; pairs at rest are counted")
    words.add_argument("--at-rest", action="store_true", help="with --stretches, write those of pairs at rest too")
    words.add_argument("--patience", type=int, default=PATIENCE, metavar="SECONDS",
                       help="with --stretches, how long an alarm waits for positions that come late, as on a busy "
                            f"machine (default: {PATIENCE})")
    words.add_argument("--out", metavar="FILE", help="a file that rows are added to, instead of standard output")
    words.add_argument("--to", metavar="COMMAND", help="a command that reads the rows")
    return words


def check_windows(given: argparse.Namespace, scenario: Scenario) -> None:
    """Refuses windows that are too short or too long for a scenario."""
    overlap = -(-given.overlap // scenario.tick)
    least = overlap_needed(scenario) + max((sight.back for sight in sights_of(scenario).values()), default=0)
    if not (0 < given.every and least <= overlap and given.every + overlap <= MOST_TICKS and 0 < given.group):
        raise Fault(f"a window of {given.every} ticks and an overlap of {overlap}: "
                    f"the overlap is {least} ticks or more, and both together at most {MOST_TICKS}")


def source_of(given: argparse.Namespace, state: str) -> sources.Source:
    """Returns where the stream comes from; the file `state` says after a restart how far a log was read."""
    if given.log and given.command:
        raise Fault("a stream is a file or a command, and not both")
    ends = given.whole or getattr(given, "replay", False)
    if given.log:
        return sources.File(given.log, state, ends)
    if given.command:
        return sources.Command(given.command, ends)
    return sources.Standard()


def sink_of(given: argparse.Namespace) -> rows.Sink:
    """Returns where the rows go."""
    if given.out and given.to:
        raise Fault("rows go to a file or to a command, and not to both")
    if given.out:
        return rows.File(given.out)
    if given.to:
        return rows.Command(given.to)
    return rows.Standard()


def main(arguments: Sequence[str] | None = None) -> int:
    """Follows the stream to its end, or until a signal arrives."""
    given = parser().parse_args(arguments)
    scenario, stop = Scenario(given.scenario), threading.Event()
    if given.stretches and "watch" not in given.modes:
        raise Fault("--stretches joins the alarms of `watch`: give --modes watch, or --modes audit,watch")
    check_windows(given, scenario)
    source, sink = source_of(given, os.path.join(given.days, sources.STATE)), sink_of(given)
    stretches = StretchSink(sink, scenario, given.days, given.at_rest, given.patience) if given.stretches else None
    with Follow(given, scenario, found(given.program), stretches or sink, stretches) as follow:
        for number in (signal.SIGTERM, signal.SIGINT):
            signal.signal(number, lambda *_: stop.set())
        return follow.run(source, stop)


command = functools.partial(end, "follow", main)       # runs the command, and leaves with its status
