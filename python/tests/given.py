"""Helpers of the tests: the built program, the examples, a folder per test, and commands that a machine may lack."""
import contextlib
import importlib
import io
import os
import shutil
import subprocess
import sys
import tempfile
import unittest
from collections.abc import Callable
from typing import Any, TypeVar

HANGS = 600             # s: only a hanging program takes so long, even on a slow machine
HERE = os.path.dirname(os.path.abspath(__file__))
TOP = os.path.dirname(os.path.dirname(HERE))
TOOLS, EXAMPLES = os.path.join(TOP, "tools"), os.path.join(TOP, "examples")
PROGRAM = os.environ.get("COLREGS_PROGRAM", os.path.join(TOP, "crates", "colregs", "out", "colregs"))
for path in (os.path.dirname(HERE), EXAMPLES):
    if path not in sys.path:
        sys.path.insert(0, path)


Test = TypeVar("Test", bound=Callable[..., Any])


def needs(command: str) -> Callable[[Test], Test]:
    """Skips a test if a command is not installed."""
    return unittest.skipUnless(shutil.which(command), f"{command} is not installed")


with_program = unittest.skipUnless(os.access(PROGRAM, os.X_OK), "the program is not built")


def example(name: str) -> str:
    """Returns the path of an example."""
    return os.path.join(EXAMPLES, name)


def text_of(path: str) -> str:
    """Returns the text of a file."""
    with open(path, encoding="utf-8") as source:
        return source.read()


class InFolder(unittest.TestCase):
    """A test with its own folder."""

    def setUp(self) -> None:
        folder = tempfile.TemporaryDirectory()
        self.addCleanup(folder.cleanup)
        self.folder = folder.name

    def path(self, *names: str) -> str:
        """Returns the path of a file in the folder."""
        return os.path.join(self.folder, *names)

    def write(self, name: str, words: str | bytes, mode: int = 0o644) -> str:
        """Writes a file with this text or these bytes, and its folders; returns its path."""
        path = self.path(name)
        os.makedirs(os.path.dirname(path), exist_ok=True)
        with open(path, "wb") as out:
            out.write(words if isinstance(words, bytes) else words.encode())
        os.chmod(path, mode)
        return path

    def tool(self, name: str, *words: str, source: bytes = b"") -> tuple[int, str, str]:
        """Runs a tool; returns its status, standard output and standard error."""
        done = subprocess.run([sys.executable, os.path.join(TOOLS, name), *words], input=source, capture_output=True,
                              cwd=self.folder, timeout=HANGS)
        return done.returncode, done.stdout.decode("utf-8", "replace"), done.stderr.decode("utf-8", "replace")

    def within(self, name: str, *words: str) -> tuple[int, str, str]:
        """Runs a tool in this process, which saves starting Python."""
        command = importlib.import_module("colregs.cli." + name.removeprefix("colregs-")).command
        out, error, before, argv = io.StringIO(), io.StringIO(), os.getcwd(), sys.argv
        os.chdir(self.folder)
        sys.argv = [name, *words]
        try:
            with contextlib.redirect_stdout(out), contextlib.redirect_stderr(error), self.assertRaises(
                    SystemExit) as ended:
                command()
        finally:
            os.chdir(before)
            sys.argv = argv
        return int(ended.exception.code or 0), out.getvalue(), error.getvalue()

    def program(self, mode: str, scenario: str, log: str) -> str:
        """Returns the report of the program; fails if it ends with another status than 0 or 1."""
        with open(log, "rb") as source:
            done = subprocess.run([PROGRAM, mode, scenario], stdin=source, capture_output=True, timeout=HANGS)
        self.assertIn(done.returncode, (0, 1), done.stderr)
        return done.stdout.decode()
