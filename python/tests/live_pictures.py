"""Pictures of the live page for docs/TRAFFIC_SERVICE.md: live_pictures.py PROGRAM DIR

It replays the harbour of twenty until a meeting is broken, and writes live_day.png, live_night.png and
live_telephone.png.
"""
import base64
import os
import sys
import tempfile
import time

if __name__ == "__main__":
    sys.path[:0] = [
        os.path.dirname(os.path.abspath(__file__)),
        os.path.dirname(os.path.dirname(os.path.abspath(__file__)))
    ]
    os.environ["COLREGS_PROGRAM"] = os.path.abspath(sys.argv[1]) if len(sys.argv) > 1 else ""
import browser  # noqa: E402
import crowd  # noqa: E402
from given import example, text_of  # noqa: E402
from live_server import PATIENCE, Live  # noqa: E402

LINES = 1400            # of the log: CEDAR and CHERRY are meeting, and one rule after the other is broken
SIZES = {"day": (1280, 720), "night": (1280, 720), "telephone": (390, 844)}


def wait(tab: browser.Browser, script: str) -> None:
    """Waits until an expression of the page is true."""
    until = time.monotonic() + PATIENCE
    while not tab.value(script):
        if time.monotonic() > until:
            raise TimeoutError(script)
        time.sleep(0.2)


def picture(tab: browser.Browser, path: str, width: int, height: int) -> None:
    """Writes a picture of the page, a wide one smaller than it is."""
    clip = {"x": 0, "y": 0, "width": width, "height": height, "scale": 0.62 if width > 800 else 0.9}
    with open(path, "wb") as target:
        target.write(base64.b64decode(tab.ask("Page.captureScreenshot", format="png", clip=clip)["data"]))


def main(out: str) -> int:
    """Writes the pictures."""
    with tempfile.TemporaryDirectory() as folder, browser.Browser(1280, 720) as tab:
        for name, text in (("s.toml", crowd.harbour()), ("log", "".join(
                text_of(example("harbour_of_twenty.log")).splitlines(keepends=True)[:LINES]))):
            with open(os.path.join(folder, name), "w", encoding="utf-8") as target:
                target.write(text)
        server = Live(folder, "--log", "log", "--title", "Harbour of twenty")
        tab.open(server.url)
        wait(tab, 'document.querySelectorAll("#list-alarms li.settled").length > 0 && '
                  'document.querySelectorAll("#list-alarms li.preliminary").length > 0')
        for name, (width, height) in SIZES.items():
            tab.ask("Emulation.setDeviceMetricsOverride", width=width, height=height, deviceScaleFactor=1,
                    mobile=width < 800)
            tab.value('document.getElementById("theme").textContent.toLowerCase() === '
                      f'"{"night" if name == "night" else "day"}" && document.getElementById("theme").click()')
            tab.value('document.getElementById("health").hidden = true')      # how old the log is says nothing here
            time.sleep(1)
            tab.value("new Promise((done) => { dispatchEvent(new Event('resize')); setTimeout(done, 1500); })")
            picture(tab, os.path.join(out, f"live_{name}.png"), width, height)
        server.stop()
    return 0


if __name__ == "__main__":
    sys.exit(main(sys.argv[2]) if len(sys.argv) == 3 else __doc__)
