"""Serves a live page of a stream: vessels, encounters that last, and alarms as they come.

The stream and its windows are those of colregs-follow: day files in DIR, and the rows of `audit` and `watch` beside
them, each once, also after a restart. The page is at http://127.0.0.1:8080/ and needs no other address. An alarm is
shown as preliminary as soon as the program breaks a rule in the window so far, and then as settled, or as withdrawn.
Acknowledgements are stored in DIR/live.db. docs/TRAFFIC_SERVICE.md describes the whole. It needs Debian's
python3-aiohttp, and for the map libjs-leaflet.

Exit status: 0 if a signal ended it; 1 if something failed; 2 if the command line is wrong.
"""
import argparse
import asyncio
import functools
import importlib.util
import os
import signal
import subprocess
import sys
from collections.abc import Sequence

from colregs.cli.arguments import at_least, parser_of
from colregs.cli.follow import add_stream, check_windows, source_of
from colregs.errors import DONE, FAILED, Fault, end, report
from colregs.model.rules import RULES
from colregs.model.scenario import Scenario
from colregs.run.program import found
from colregs.stream.sources import STATE, Source

DEBIAN = "/usr/bin/python3"         # the Python for which Debian's python3-aiohttp is
FASTEST = 1000


def speed(word: str) -> float:
    """Returns how many times as fast as its times ask a log is replayed."""
    try:
        value = float(word)
    except ValueError:
        value = 0
    if not 0 < value <= FASTEST:
        raise argparse.ArgumentTypeError(f"a number above 0 and up to {FASTEST}")
    return value


def parser() -> argparse.ArgumentParser:
    """Returns the parser of the command line."""
    words = parser_of(__doc__, "live")
    add_stream(words)
    words.add_argument("--speed", type=speed, metavar="N", help="replay a --log as its times ask, N times as fast")
    words.add_argument("--listen", default="127.0.0.1:8080", metavar="HOST:PORT",
                       help="where the page is (default: 127.0.0.1:8080)")
    words.add_argument("--socket", metavar="FILE", help="listen on a Unix socket, for a proxy, instead of a port")
    words.add_argument("--token-file", metavar="FILE",
                       help="a file with a token that browsers and programs need; other machines can reach the page "
                            "only with it")
    words.add_argument("--origin", action="append", default=[], metavar="URL",
                       help="the origin of the page behind a proxy, as https://live.example.org; may be repeated")
    words.add_argument("--chart", metavar="FILE.geojson", help="a coast for the map")
    words.add_argument("--tiles", metavar="URL",
                       help="the address of map tiles, with {z}, {x} and {y}; without it the page asks no other "
                            "address")
    words.add_argument("--title", default="", help="the title of the page")
    words.add_argument("--browsers", type=at_least(1, 10000), default=100, metavar="N",
                       help="browsers at a time at most (default: 100)")
    words.add_argument("--quiet-after", type=at_least(1), default=120, metavar="SECONDS",
                       help="/healthz is red if no line came for so long (default: 120)")
    words.set_defaults(modes=["audit", "watch"])
    return words


def has_aiohttp() -> bool:
    """Returns whether this Python has aiohttp. If only Debian's has it, that Python runs the command instead."""
    if importlib.util.find_spec("aiohttp"):
        return True
    is_tool = os.path.isdir(
        os.path.join(os.path.dirname(os.path.dirname(os.path.realpath(sys.argv[0]))), "python", "colregs"))
    if not is_tool or os.path.realpath(sys.executable) == os.path.realpath(DEBIAN) or not os.path.exists(DEBIAN):
        return False
    enough = "import sys, aiohttp; sys.exit(sys.version_info < (3, 11))"
    if subprocess.run([DEBIAN, "-c", enough], stderr=subprocess.DEVNULL).returncode == 0:
        os.execv(DEBIAN, [DEBIAN, *sys.argv])
    return False


def stream_of(given: argparse.Namespace) -> Source:
    """Returns where the stream comes from."""
    from colregs.live.follower import Paced
    if given.speed and not given.log:
        raise Fault("--speed replays a log: give --log FILE")
    source = source_of(given, os.path.join(given.days, STATE))
    return Paced(source, given.speed) if given.speed else source


async def serve(given: argparse.Namespace, scenario: Scenario, program: str, source: Source) -> int:
    """Follows the stream and serves the page until a signal arrives or something fails."""
    from colregs.live import access, cases, follower, history, notes, server
    from colregs.live.state import State
    rules = access.access_of(given.listen, given.socket, given.token_file, given.origin, given.tiles)
    site = server.Site(given.chart)
    loop, stop = asyncio.get_running_loop(), asyncio.Event()
    os.makedirs(given.days, exist_ok=True)
    kept = notes.Notes(given.days)
    state = State(given.days, scenario, kept)
    live = follower.Follower(given, scenario, program, state)
    files = live.follow.files
    settings = {
        "title": given.title or os.path.basename(given.scenario), "tick": scenario.tick, "gap": scenario.gap,
        "slack": scenario.slack, "delay": scenario.tick + scenario.gap + scenario.slack, "rules": RULES,
        "formulas": scenario.formulas, "centre": state.earth.degrees(0, 0)
    }
    serving = server.Server(state, rules, site, history.History(program, scenario, files, kept, state),
                            cases.Cases(program, scenario, files, given.chart), settings, given.browsers,
                            given.quiet_after)
    serving.restarts = lambda: live.follow.health.restarts

    def ended(fault: str) -> None:
        serving.fault = fault
        if fault:
            loop.call_soon_threadsafe(stop.set)

    for number in (signal.SIGTERM, signal.SIGINT):
        loop.add_signal_handler(number, stop.set)
    live.start(source, ended)
    try:
        await server.serve(serving, stop)
    finally:
        await asyncio.to_thread(live.end)
        kept.close()
    if serving.fault:
        report("live", serving.fault)
    return FAILED if serving.fault else DONE


def main(arguments: Sequence[str] | None = None) -> int:
    """Serves the page."""
    given = parser().parse_args(arguments)
    if not has_aiohttp():
        raise Fault("aiohttp is not installed: install Debian's package python3-aiohttp")
    scenario = Scenario(given.scenario)
    check_windows(given, scenario)
    return asyncio.run(serve(given, scenario, found(given.program), stream_of(given)))


command = functools.partial(end, "live", main)       # runs the command, and leaves with its status
