"""A live page for tests: the server as a process, a log that grows under it, and requests to it."""
import json
import os
import re
import signal
import subprocess
import sys
import threading
import time
import urllib.error
import urllib.request
from collections.abc import Callable
from typing import Any

from given import PROGRAM, TOOLS, InFolder

PATIENCE = 300          # s: the machine of a test may be busy with others
WINDOWS = ["--ticks-each", "60", "--overlap", "900"]


def has_aiohttp() -> bool:
    """Returns whether the tool finds aiohttp, in this Python or in Debian's."""
    return any(
        os.path.exists(python) and subprocess.run([python, "-c", "import aiohttp"], capture_output=True).returncode == 0
        for python in (sys.executable, "/usr/bin/python3"))


class Live:
    """A server on its own port. `stop` ends it, and `kill` ends it like a power failure."""

    def __init__(self, folder: str, *words: str, port: int = 0) -> None:
        command = [
            sys.executable,
            os.path.join(TOOLS, "colregs-live"), "s.toml", "--days", "days", "--program", PROGRAM, *WINDOWS,
            *([] if "--listen" in words or "--socket" in words else ["--listen", f"127.0.0.1:{port}"]), *words
        ]
        self.said: list[str] = []
        self.child = subprocess.Popen(command, cwd=folder, stdin=subprocess.DEVNULL, stderr=subprocess.PIPE, text=True)
        self.reader = threading.Thread(target=self.read, daemon=True)
        self.reader.start()
        try:
            self.port = self.found_port()
        except AssertionError:
            self.kill()
            raise

    def read(self) -> None:
        """Reads the output of the server."""
        assert self.child.stderr
        for line in self.child.stderr:
            self.said.append(line.rstrip("\n"))

    def found_port(self) -> int:
        """Returns the port, once the server listens."""
        until = time.monotonic() + PATIENCE
        while time.monotonic() < until:
            for line in list(self.said):
                if line.startswith("live: listening on "):
                    found = re.search(r":(\d+)/", line)
                    return int(found[1]) if found else 0
            if self.child.poll() is not None:
                break
            time.sleep(0.05)
        raise AssertionError("\n".join(self.said) or "the server says nothing")

    @property
    def url(self) -> str:
        """Returns the address of the page."""
        return f"http://127.0.0.1:{self.port}/"

    def ask(self, path: str, body: bytes | None = None, **headers: str) -> tuple[int, bytes, dict[str, str]]:
        """Returns the status, the body and the headers of a response. `_` in the name of a header stands for `-`."""
        request = urllib.request.Request(f"http://127.0.0.1:{self.port}{path}", body,
                                         {name.replace("_", "-"): value
                                          for name, value in headers.items()})
        try:
            with urllib.request.build_opener(Same).open(request, timeout=PATIENCE) as answer:
                return answer.status, answer.read(), dict(answer.headers)
        except urllib.error.HTTPError as error:
            return error.code, error.read(), dict(error.headers)

    def json(self, path: str) -> Any:
        """Returns the JSON of an answer."""
        return json.loads(self.ask(path)[1])

    def acknowledge(self, name: str, acknowledged: bool, note: str, **headers: str) -> int:
        """Acknowledges an alarm; returns the status."""
        body = json.dumps({"acknowledged": acknowledged, "note": note}).encode()
        return self.ask(f"/api/alarms/{name}/acknowledgement", body, **{"Content_Type": "application/json", **headers})[
            0
        ]

    def stop(self) -> int:
        """Ends the server by a signal; returns its status."""
        if self.child.poll() is None:
            self.child.send_signal(signal.SIGTERM)
        status = self.child.wait(PATIENCE)
        self.reader.join(PATIENCE)
        if self.child.stderr:
            self.child.stderr.close()
        return status

    def kill(self) -> None:
        """Kills the server."""
        self.child.kill()
        self.stop()


class Same(urllib.request.HTTPRedirectHandler):
    """Follows no other address."""

    def redirect_request(self, *_: Any) -> None:
        """Returns no request."""
        return None


class WithLive(InFolder):
    """A test with a log that grows, and a server on it."""

    def live(self, *words: str, port: int = 0) -> Live:
        """Begins a server that ends with the test."""
        found = Live(self.folder, *words, port=port)
        self.addCleanup(found.stop)
        return found

    def grow(self, name: str, lines: str) -> None:
        """Adds lines to a log."""
        with open(self.path(name), "a", encoding="utf-8") as out:
            out.write(lines)

    def until(self, done: Callable[[], Any], words: str = "it did not come") -> Any:
        """Waits until a value is available, and returns it."""
        until = time.monotonic() + PATIENCE
        while time.monotonic() < until:
            found = done()
            if found:
                return found
            time.sleep(0.05)
        raise AssertionError(words)
