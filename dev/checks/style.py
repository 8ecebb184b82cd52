"""The types (mypy --strict) and the style (flake8) of all Python, and shellcheck on the shell scripts. A program that
is not installed is skipped, with a note."""
from __future__ import annotations

import os
import shutil
import subprocess

from dev.checking import Findings
from dev.repository import TOP, path_of

NEEDS_PROGRAM = False
SHELL = ["colregs", ".ci/library", ".ci/release", ".ci/run"]
PYTHON = ["python", "dev", "examples"]
# Python whose names do not end in `.py`, in groups whose names differ; the tools of `tools/` are three lines each.
SCRIPTS = [
    ["test", "dev/check", "dev/bench/all", "examples/make", "python/tests/run"],
    ["examples/check", "examples/callers/run"],
]


def check(found: Findings) -> None:
    """Adds what the tools say as faults."""
    settings = {**os.environ, "PYTHONDONTWRITEBYTECODE": "1"}
    mypy = ["mypy", "--cache-dir", path_of(".cache", "mypy")]
    commands = [mypy, *([*mypy, "--scripts-are-modules", *group] for group in SCRIPTS),
                ["flake8", *PYTHON, *sum(SCRIPTS, [])], ["shellcheck", "--severity=warning", *SHELL]]
    for command in commands:
        if not shutil.which(command[0]):
            found.note(f"not run, for {command[0]} is not installed")
            continue
        done = subprocess.run(command, cwd=TOP, env=settings, stdin=subprocess.DEVNULL, stdout=subprocess.PIPE,
                              stderr=subprocess.STDOUT, text=True)
        if done.returncode:
            for line in done.stdout.splitlines():
                found.fault(line)
