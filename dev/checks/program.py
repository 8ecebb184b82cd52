"""What no contract states of the built program: main hands on the arguments, the streams and the status as they are."""
from __future__ import annotations

import os
import re
import subprocess
import sys
import tempfile
from dataclasses import dataclass

from dev.checking import Findings
from dev.repository import path_of, read

NEEDS_PROGRAM = True
USAGE = "usage: points|audit|plan|drill|migrate|recheck|watch SCENARIO"
NOTHING = "<&-"      # standard input is closed


@dataclass(frozen=True)
class Ended:
    """How a run ended: its status, its line on standard error, and what it wrote."""

    status: int
    line: str
    output: str


class Runs:
    """Runs of the program in a folder that holds the harbour's scenario and log."""

    def __init__(self, found: Findings, folder: str):
        self._found, self._folder = found, folder
        self.scenario = read("examples", "harbour.toml")
        self.write("scenario.toml", self.scenario)
        self.write("log", read("examples", "harbour.log"))

    def write(self, name: str, text: str) -> str:
        """Writes a file of the folder, and returns its name."""
        with open(os.path.join(self._folder, name), "w", encoding="utf-8") as out:
            out.write(text)
        return name

    def run(self, *words: str, streams: str = "<log") -> Ended:
        """Runs the program with these arguments, and with streams as a shell redirects them."""
        done = subprocess.run(["sh", "-c", f'exec "$0" "$@" {streams}', self._found.program, *words], cwd=self._folder,
                              capture_output=True, text=True, env={**os.environ})
        return Ended(done.returncode, done.stderr.rstrip("\n"), done.stdout)

    def expect(self, status: int, line: str, *words: str, streams: str = "<log") -> str:
        """Adds a fault if a run ends with another status or line, and returns what it wrote."""
        ended = self.run(*words, streams=streams)
        self._found.same(f"`{' '.join(words)[:60]} {streams}`, status and standard error", (ended.status, ended.line),
                         (status, line))
        return ended.output

    def shows(self, text: str, output: str) -> None:
        """Adds a fault if what a run wrote lacks a text."""
        if text not in output:
            self._found.fault(f"'{text}' is not in standard output")


def arguments(runs: Runs) -> None:
    """Names of any length, and wrong arguments."""
    long = runs.write(f"{7:0200d}", runs.scenario)
    runs.expect(0, "", "points", long)
    runs.expect(4, "scenario: not read", "points", "0" + long)
    for words in (["points"], ["points", "scenario.toml",
                               "more"], ["audit", "scenario.toml",
                                         "--start=x"], ["audit", "scenario.toml", "--ticks", "0"]):
        runs.expect(2, USAGE, *words)
    output = runs.expect(0, "", "--help", streams=NOTHING)
    runs.shows("Usage: colregs [OPTIONS] <MODE> <SCENARIO>", output)
    runs.shows("- drill:", output)
    runs.shows("colregs ", runs.expect(0, "", "--version", streams=NOTHING))


def streams(runs: Runs, found: Findings) -> None:
    """Streams that fail, and a log that is too long."""
    refused = runs.write("refused.toml", re.sub(r"^tick = .*", "tick = 61", runs.scenario, flags=re.M))
    runs.expect(3, "scenario: window.tick: range", "points", refused)
    runs.expect(5, "log: not read", "points", "scenario.toml", streams=NOTHING)
    runs.expect(6, "report: not written", "points", "scenario.toml", streams="<log >/dev/full")
    runs.expect(6, "report: not written", "--help", streams=">/dev/full")
    short = runs.write("short.toml", re.sub(r"^max_speed = .*", r"\g<0>\nmax_bytes = 100", runs.scenario, flags=re.M))
    written = runs.expect(7, "limit: log 100", "points", short)
    # The whole lines before the limit are judged, and their rows written.
    runs.write("front", read("examples", "harbour.log")[:100].rpartition("\n")[0] + "\n")
    rows = [
        row for row in runs.run("points", "scenario.toml", streams="<front").output.splitlines()
        if row.startswith("point,")
    ]
    found.same("rows before the limit of a log", written.splitlines(), rows)


def options(runs: Runs, found: Findings) -> None:
    """Options wherever they are, a drill without a log, and a migrated scenario."""
    four = runs.expect(0, "", "audit", "scenario.toml", "--ticks", "4")
    found.same("an option before the mode", runs.expect(0, "", "--ticks=4", "audit", "scenario.toml"), four)
    runs.shows("lines,point,", runs.expect(0, "", "drill", "scenario.toml", streams=NOTHING))
    before = runs.expect(0, "", "audit", "scenario.toml")
    migrated = runs.write("migrated.toml", runs.expect(0, "", "migrate", "scenario.toml", streams=NOTHING))
    found.same("an audit by the migrated scenario", runs.expect(0, "", "audit", migrated), before)
    runs.expect(3, "scenario: version: range", "migrate", migrated, streams=NOTHING)


def guesses(runs: Runs, found: Findings) -> None:
    """A scenario that `colregs-scenario` guesses from a log is accepted."""
    for name in sorted(os.listdir(path_of("examples"))):
        if name.endswith(".log"):
            with open(path_of("examples", name), "rb") as log:
                guess = subprocess.run(
                    [sys.executable, path_of("tools", "colregs-scenario"), "--program", found.program], stdin=log,
                    capture_output=True, text=True)
            if guess.returncode:
                found.fault(f"no scenario is guessed of {name}: {guess.stderr.strip()}")
            else:
                runs.expect(0, "", "audit", runs.write("guessed.toml", guess.stdout),
                            streams=f"<'{path_of('examples', name)}'")


def check(found: Findings) -> None:
    """Adds a fault for each run that ends otherwise."""
    with tempfile.TemporaryDirectory() as folder:
        runs = Runs(found, folder)
        arguments(runs)
        streams(runs, found)
        options(runs, found)
        guesses(runs, found)
