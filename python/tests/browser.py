"""A headless Chromium, controlled over a pipe by the DevTools protocol: results of a page's scripts, its errors, and
its network requests."""
import base64
import json
import os
import select
import shutil
import subprocess
import sys
import tempfile
import time
from typing import Any

NAMES = ("chromium", "chromium-browser", "google-chrome")
PATIENCE = 300          # s: only a hanging browser is so slow
# the browser reads its orders from file 3 and answers on file 4, whatever these are here
LAUNCH = """
import fcntl, os, sys
ends = [fcntl.fcntl(int(word), fcntl.F_DUPFD, 100) for word in sys.argv[1:3]]
for end, number in zip(ends, (3, 4)):
    os.dup2(end, number)
    os.close(end)
os.execv(sys.argv[3], sys.argv[3:])
"""


def installed() -> str | None:
    """Returns the path of a browser, or None."""
    return next((path for name in NAMES if (path := shutil.which(name))), None)


class Browser:
    """One tab. It records console errors and requested network addresses."""

    def __init__(self, width: int = 1280, height: int = 900) -> None:
        self.folder = tempfile.TemporaryDirectory()
        to_browser, from_browser = os.pipe(), os.pipe()
        words = [
            installed() or "", "--headless=new", "--no-sandbox", "--disable-gpu", "--remote-debugging-pipe",
            "--no-first-run", "--mute-audio", "--disable-background-networking", "--disable-component-update",
            "--disable-dev-shm-usage", "--hide-scrollbars", "--user-data-dir=" + self.folder.name,
            f"--window-size={width},{height}", "about:blank"
        ]
        ends = to_browser[0], from_browser[1]
        self.child = subprocess.Popen([sys.executable, "-c", LAUNCH, *map(str, ends), *words], stdin=subprocess.DEVNULL,
                                      stdout=subprocess.DEVNULL, stderr=subprocess.DEVNULL, pass_fds=ends)
        os.close(to_browser[0])
        os.close(from_browser[1])
        self.out, self.source, self.held, self.number = to_browser[1], from_browser[0], b"", 0
        self.loaded = False
        self.errors: list[str] = []
        self.asked: list[str] = []
        self.session: str | None = None
        target = self.ask("Target.createTarget", url="about:blank")["targetId"]
        self.session = self.ask("Target.attachToTarget", targetId=target, flatten=True)["sessionId"]
        for name in ("Page", "Runtime", "Log", "Network"):
            self.ask(name + ".enable")
        self.ask("Emulation.setDeviceMetricsOverride", width=width, height=height, deviceScaleFactor=1, mobile=False)

    def __enter__(self) -> "Browser":
        return self

    def __exit__(self, *_: object) -> None:
        for end in (self.out, self.source):
            os.close(end)
        try:
            self.child.wait(10)
        except subprocess.TimeoutExpired:
            self.child.kill()
            self.child.wait()
        try:
            self.folder.cleanup()
        except OSError:
            pass            # the browser's last helper may still write there

    def message(self) -> dict[str, Any]:
        """Returns the next message of the browser."""
        until = time.monotonic() + PATIENCE
        while b"\0" not in self.held:
            if not select.select([self.source], [], [], max(0, until - time.monotonic()))[0]:
                raise TimeoutError("the browser gave no answer")
            piece = os.read(self.source, 1 << 16)
            if not piece:
                raise EOFError("the browser ended")
            self.held += piece
        text, self.held = self.held.split(b"\0", 1)
        return dict(json.loads(text))

    def keep(self, told: dict[str, Any]) -> None:
        """Handles an event of the tab."""
        method, more = told.get("method"), told.get("params", {})
        if method == "Runtime.exceptionThrown":
            details = more["exceptionDetails"]
            self.errors.append(details.get("exception", {}).get("description") or details["text"])
        elif method == "Runtime.consoleAPICalled" and more["type"] in ("error", "warning", "assert"):
            self.errors.append(str(more["args"]))
        elif method == "Log.entryAdded" and more["entry"]["level"] in ("error", "warning"):
            self.errors.append(more["entry"]["text"])
        elif method == "Network.requestWillBeSent":
            self.asked.append(more["request"]["url"])
        elif method == "Page.loadEventFired":
            self.loaded = True

    def ask(self, method: str, **more: Any) -> Any:
        """Returns the response to a request."""
        self.number += 1
        request = {"id": self.number, "method": method, "params": more}
        if self.session:
            request["sessionId"] = self.session
        left = json.dumps(request).encode() + b"\0"
        while left:
            left = left[os.write(self.out, left):]
        while True:
            told = self.message()
            if told.get("id") == self.number:
                if "error" in told:
                    raise RuntimeError(f"{method}: {told['error']}")
                return told["result"]
            self.keep(told)

    def open(self, path: str, mark: str = "") -> None:
        """Opens a page by a file's path or an address, and waits until it is loaded."""
        self.loaded = False
        self.ask("Page.navigate", url=path if "://" in path else "file://" + os.path.abspath(path) + mark)
        while not self.loaded:
            self.keep(self.message())

    def value(self, script: str) -> Any:
        """Returns the value of an expression of the page."""
        told = self.ask("Runtime.evaluate", expression=script, returnByValue=True, awaitPromise=True)
        if "exceptionDetails" in told:
            raise RuntimeError(
                told["exceptionDetails"].get("exception", {}).get("description", "a fault in the script")
            )
        return told["result"].get("value")

    def wait(self, script: str) -> None:
        """Waits until an expression of the page is true, however slow the machine is."""
        until = time.monotonic() + PATIENCE
        while not self.value(script):
            if time.monotonic() > until:
                raise TimeoutError(f"never true: {script}")
            time.sleep(0.05)

    def picture(self, path: str, whole: bool = False) -> None:
        """Writes a picture of the page."""
        told = self.ask("Page.captureScreenshot", format="png", captureBeyondViewport=whole)
        with open(path, "wb") as out:
            out.write(base64.b64decode(told["data"]))

    def printed(self, path: str) -> None:
        """Prints the page into a file."""
        told = self.ask("Page.printToPDF", printBackground=True, paperWidth=8.27, paperHeight=11.69)
        with open(path, "wb") as out:
            out.write(base64.b64decode(told["data"]))
