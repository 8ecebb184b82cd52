"""Measures the cost of the live page: live_load.py PROGRAM [--vessels N] [--hours H] [--speed S] [--each SECONDS]
[--browsers N]

It makes a log of N vessels in a roadstead, three of eight at rest and five under way between its corners, replays it at
S times real speed, and prints how much CPU time and memory the server and its runs of the program took.
"""
import argparse
import math
import os
import random
import sys
import tempfile
import threading
import time
from collections.abc import Iterator

if __name__ == "__main__":
    sys.path[:0] = [
        os.path.dirname(os.path.abspath(__file__)),
        os.path.dirname(os.path.dirname(os.path.abspath(__file__)))
    ]
    os.environ["COLREGS_PROGRAM"] = os.path.abspath(sys.argv[1]) if len(sys.argv) > 1 else ""
import crowd  # noqa: E402
from live_server import Live  # noqa: E402
from web_socket import WebSocket  # noqa: E402
from colregs.io.sentences import block, class_a, name_part, sentence  # noqa: E402

SIDE, KNOT = 60000, 1852 / 3600         # metres of the roadstead, and metres per second
CLOCK = os.sysconf("SC_CLK_TCK")
UNIT = 0.1852                           # metres of 1/10000 minute of latitude


class Ship:
    """A vessel that is stopped or moves from place to place."""

    def __init__(self, draw: random.Random, mmsi: int, moves: bool) -> None:
        self.draw, self.mmsi, self.moves = draw, mmsi, moves
        self.x, self.y = draw.uniform(0, SIDE), draw.uniform(0, SIDE)
        self.speed = draw.uniform(6, 18) if moves else 0.0
        self.to = self.x, self.y

    def go(self, seconds: float) -> int:
        """Moves for some seconds; returns the course in 1/10 degree."""
        if not self.moves:
            return self.mmsi * 37 % 3600
        while math.dist((self.x, self.y), self.to) < 300:
            self.to = self.draw.uniform(0, SIDE), self.draw.uniform(0, SIDE)
        far = math.dist((self.x, self.y), self.to)
        part = min(1, self.speed * KNOT * seconds / far)
        east, north = self.to[0] - self.x, self.to[1] - self.y
        self.x, self.y = self.x + east * part, self.y + north * part
        return round(math.degrees(math.atan2(east, north)) * 10) % 3600

    def line(self, at: int, seconds: float) -> bytes:
        """Returns the report of a time."""
        course = self.go(seconds)
        place = 28950000 + round(self.y / UNIT), -74100000 + round(self.x / UNIT / math.cos(math.radians(48.25)))
        return block(at) + sentence(
            class_a(self.mmsi,
                    (*place, round(self.speed * 10), course, course // 10, at % 60), 0 if self.moves else 1)) + b"\n"


def lines(vessels: int, seconds: int, each: int) -> Iterator[bytes]:
    """Yields the lines of a log: those under way report every `each` seconds, those at rest every three minutes."""
    draw = random.Random(73)
    ships = [Ship(draw, 200000001 + k, k % 8 > 2) for k in range(vessels)]
    for second in range(seconds):
        at = crowd.START + second
        for k, ship in enumerate(ships):
            every = each if ship.moves else 180
            if second % every == k % every:
                yield ship.line(at, every)
            if second % 360 == k % 360:
                yield block(at) + sentence(name_part(ship.mmsi, f"SHIP {k}")) + b"\n"


def seconds_of(pid: int) -> float:
    """Returns the CPU seconds of a process and of its children that have ended."""
    with open(f"/proc/{pid}/stat", encoding="ascii") as source:
        fields = source.read().rpartition(") ")[2].split()
    return sum(map(int, fields[11:13])) / CLOCK


def children_of(pid: int) -> list[int]:
    """Returns the children of a process. A thread that ends while they are read has none."""
    found: list[int] = []
    for task in os.listdir(f"/proc/{pid}/task"):
        try:
            with open(f"/proc/{pid}/task/{task}/children", encoding="ascii") as source:
                found += map(int, source.read().split())
        except FileNotFoundError:
            continue
    return found


def seconds_if_running(pid: int) -> float:
    """Returns the CPU seconds of a process, or 0 if it has ended."""
    try:
        return seconds_of(pid)
    except FileNotFoundError:
        return 0


def all_seconds(pid: int) -> float:
    """Returns the CPU seconds of a process, of its children, and of those that have ended."""
    with open(f"/proc/{pid}/stat", encoding="ascii") as source:
        total = sum(map(int, source.read().rpartition(") ")[2].split()[11:15])) / CLOCK
    return total + sum(map(seconds_if_running, children_of(pid)))


def most_memory(pid: int) -> float:
    """Returns the peak memory of a process in MiB."""
    with open(f"/proc/{pid}/status", encoding="ascii") as source:
        return next(int(line.split()[1]) for line in source if line.startswith("VmHWM")) / 1024


def listen(browser: WebSocket) -> None:
    """Reads the messages to a browser."""
    try:
        while True:
            browser.message()
    except (OSError, EOFError):
        return


def main() -> int:
    """Replays a log, and prints the cost."""
    words = argparse.ArgumentParser(description=__doc__, formatter_class=argparse.RawDescriptionHelpFormatter)
    words.add_argument("program")
    for name, value in (("vessels", 400), ("hours", 24), ("speed", 60), ("each", 60), ("browsers", 1)):
        words.add_argument(f"--{name}", type=float if name == "hours" else int, default=value)
    given = words.parse_args()
    with tempfile.TemporaryDirectory() as folder:
        count = 0
        with open(os.path.join(folder, "log"), "wb") as out:
            for line in lines(given.vessels, round(given.hours * 3600), given.each):
                out.write(line)
                count += 1
        with open(os.path.join(folder, "s.toml"), "w", encoding="utf-8") as target:
            target.write(crowd.harbour())
        server = Live(folder, "--log", "log", "--speed", str(given.speed))
        browsers = [WebSocket(server.port) for _ in range(given.browsers)]
        for browser in browsers:
            threading.Thread(target=listen, args=(browser,), daemon=True).start()
        begun = time.monotonic()
        while server.json("/healthz")["lines"] < count and server.child.poll() is None:
            time.sleep(5)
            passed = time.monotonic() - begun
            own, every = seconds_of(server.child.pid), all_seconds(server.child.pid)
            health = server.json("/healthz")
            # s that these lines take at this speed, on a machine that has room
            due = health["lines"] / count * given.hours * 3600 / given.speed
            print(f"{passed:.0f} s: {health['lines']} of {count} lines, due in {due:.0f} s; server "
                  f"{own / max(1, due):.2f} CPU seconds per second, with the program {every / max(1, due):.2f}; "
                  f"{most_memory(server.child.pid):.0f} MiB; {health['rows']} rows, {health['at_rest']} at rest; "
                  f"answers {health['answer_seconds']} s {health['answer_fault']}", flush=True)
        print(server.ask("/metrics")[1].decode(), flush=True)
        server.stop()
        print("\n".join(server.said))
    return 0


if __name__ == "__main__":
    sys.exit(main())
