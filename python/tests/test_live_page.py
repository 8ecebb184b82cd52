"""The live page in Chromium: alarms once and in order, through cuts and kills; names as text; keys, sizes and colours.

Delays and frames are printed but not tested, because they depend on the machine."""
import glob
import json
import os
import socket
import threading
import time
import unittest
from typing import Any

import browser
import crowd
import passing
from given import with_program
from live_server import Live, has_aiohttp
from test_live_preliminary import EARLY, FORMULA, LATER, LATEST, between
from test_live_server import WithHarbour
from colregs.io.sentences import block, class_a, name_part, sentence

SETTLED = 240       # s: the delay of a settled alarm in the harbour
# the page's text of each alarm, and when it first appeared as settled, in ms since the Unix epoch
WATCH = """
window.came = {}; window.order = [];
const look = () => { for (const li of document.querySelectorAll("#list-alarms li")) { const { id, state } = li.dataset;
  if (!(id in came)) { came[id] = {}; order.push(id); } if (!(state in came[id])) came[id][state] = Date.now(); } };
const watched = { childList: true, subtree: true, attributes: true };
new MutationObserver(look).observe(document.getElementById("list-alarms"), watched); look(); true
"""
# the number of map drawings: each one first clears the canvas
FRAMES = """
window.times = []; const { clearRect } = CanvasRenderingContext2D.prototype;
CanvasRenderingContext2D.prototype.clearRect = function (...room) {
  times.push(performance.now()); clearRect.apply(this, room); };
true"""
# drawings per second, and the ms of the longest
MEASURED = """(() => { const gaps = times.slice(1).map((now, k) => now - times[k]);
return [1000 * gaps.length / (times[times.length - 1] - times[0]), Math.max(...gaps)]; })()"""
VESSELS = '[...document.querySelectorAll("#list-vessels li")].map((li) => li.dataset.id)'
IDS = '[...document.querySelectorAll("#list-alarms li")].map((li) => [li.dataset.id, li.dataset.state])'


class Proxy:
    """A connection to a port that a test can cut and restore."""

    def __init__(self, port: int) -> None:
        self.to, self.cut, self.ends = port, False, set()
        self.listener = socket.create_server(("127.0.0.1", 0))
        self.port = self.listener.getsockname()[1]
        threading.Thread(target=self.run, daemon=True).start()

    ends: set[socket.socket]

    def run(self) -> None:
        """Takes connections until it is closed."""
        while True:
            try:
                asked, _ = self.listener.accept()
            except OSError:
                return
            if self.cut:
                asked.close()
                continue
            try:
                server = socket.create_connection(("127.0.0.1", self.to))
            except OSError:                 # the server has ended
                asked.close()
                continue
            self.ends |= {asked, server}
            for one, two in ((asked, server), (server, asked)):
                threading.Thread(target=self.copy, args=(one, two), daemon=True).start()

    @staticmethod
    def copy(one: socket.socket, two: socket.socket) -> None:
        """Passes on bytes until one end is closed."""
        try:
            while piece := one.recv(1 << 16):
                two.sendall(piece)
        except OSError:
            pass
        for end in (one, two):
            end.close()

    def set_cut(self, cut: bool) -> None:
        """Cuts all connections, or lets new ones through."""
        self.cut = cut
        if cut:
            for end in self.ends:
                try:
                    end.shutdown(socket.SHUT_RDWR)
                except OSError:
                    pass
            self.ends = set()


class Rows(threading.Thread):
    """Records when each alarm's first row is in the day files."""

    def __init__(self, days: str) -> None:
        super().__init__(daemon=True)
        self.days, self.came, self.over = days, {}, False

    came: dict[tuple[int, int, str], float]

    def run(self) -> None:
        """Reads the files until `over` is set."""
        while not self.over:
            for path in glob.glob(os.path.join(self.days, "*.rows")):
                with open(path, encoding="utf-8") as source:
                    for line in source:
                        if '"alarm"' in line and line.endswith("\n"):
                            row = json.loads(line)
                            self.came.setdefault((row["subject"], row["other"], row["rule"]), time.time())
            time.sleep(0.02)


@with_program
@unittest.skipUnless(has_aiohttp(), "python3-aiohttp is not installed")
@unittest.skipUnless(browser.installed(), "chromium is not installed")
class Pages(WithHarbour):
    tab: browser.Browser

    @classmethod
    def setUpClass(cls) -> None:
        cls.tab = browser.Browser(1280, 720)
        cls.addClassCleanup(cls.tab.__exit__)

    def setUp(self) -> None:
        super().setUp()
        self.tab.open("about:blank")            # so that the page of the previous test reports nothing more
        self.tab.errors, self.tab.asked = [], []

    def open(self, address: str) -> None:
        """Opens the page, and waits until it has the state."""
        self.tab.open(address)
        self.until(lambda: self.value('document.getElementById("link").textContent') == "connected")

    def value(self, script: str) -> Any:
        return self.tab.value(script)

    def press(self, *keys: str) -> None:
        """Presses keys."""
        for key in keys:
            text = {"Enter": "\r"}.get(key, key if len(key) == 1 else "")
            for kind in ("keyDown", "keyUp"):
                self.tab.ask("Input.dispatchKeyEvent", type=kind, key=key,
                             **({"text": text} if text and kind == "keyDown" else {}))

    def shows(self, script: str) -> Any:
        """Waits until an expression of the page is true; returns its value."""
        try:
            return self.until(lambda: self.value(script))
        except AssertionError:
            raise AssertionError(f"{script} is not true of a page that says\n{self.value('document.body.innerText')}")

    def check_quiet(self) -> None:
        """Checks that the page reported no errors except lost connections, which it restores, and requested no other
        address."""
        lost = "WebSocket connection to", "ERR_CONNECTION"
        self.assertEqual([words for words in self.tab.errors if not any(word in words for word in lost)], [])
        self.assertEqual(
            [url for url in self.tab.asked if not url.startswith(("http://127.0.0.1:", "data:", "about:", "blob:"))],
            [])

    def key_of(self, name: str) -> tuple[int, int, str]:
        """Returns the pair and rule in the name of an alarm."""
        subject, other, rule = name.split("-")[:3]
        return int(subject), int(other), rule

    def is_as_the_server_has_it(self, server: Live) -> bool:
        """Returns whether the page lists the alarms of the server, with their states and in their order."""
        wanted = [[alarm["id"], alarm["state"]] for alarm in server.json("/api/alarms")["alarms"]]
        return bool(wanted) and bool(self.value(IDS) == wanted)

    def test_each_alarm_is_shown_once_and_in_order(self) -> None:
        server = self.live("--log", "log")
        self.open(server.url)
        self.value(WATCH)
        rows = Rows(self.path("days"))
        rows.start()
        for first in range(0, len(self.lines), 40):
            self.grow("log", "".join(self.lines[first:first + 40]))
            time.sleep(0.2)
        wanted = {key for key, spans in self.expected().items() if spans[0][0] < crowd.START + 1980 - SETTLED - 110}
        settled: dict[tuple[int, int, str], float] = {}

        def has_all() -> bool:
            came = self.value("came")
            settled.update({self.key_of(name): states["settled"] / 1000 for name, states in came.items()
                            if "settled" in states})
            self.assertEqual(len(settled), sum("settled" in states for states in came.values()))        # each once
            return set(settled) >= wanted and self.is_as_the_server_has_it(server)

        self.until(has_all)
        rows.over = True
        rows.join()
        delays = sorted(settled[key] - rows.came[key] for key in settled)
        # a busy machine may take longer, which is no failure
        print(f"alarms were on the page {delays[len(delays) // 2]:.2f} s after their rows, at most {delays[-1]:.2f} s")
        self.check_quiet()

    def test_a_connection_that_is_cut_and_restored_loses_no_alarm(self) -> None:
        server = self.live("--log", "log")
        proxy = Proxy(server.port)
        self.addCleanup(proxy.listener.close)
        self.open(f"http://127.0.0.1:{proxy.port}/")
        self.value(WATCH)
        self.grow("log", "".join(self.lines[:900]))
        self.shows("order.length > 0")
        proxy.set_cut(True)
        self.shows('document.getElementById("link").textContent === "lost"')
        self.grow("log", "".join(self.lines[900:]))
        self.until(lambda: server.json("/healthz")["lines"] == len(self.lines))
        proxy.set_cut(False)
        self.shows('document.getElementById("link").textContent === "connected"')
        self.until(lambda: len(server.json("/api/alarms")["alarms"]) > 5)
        self.until(lambda: self.is_as_the_server_has_it(server))
        self.assertEqual(len(set(self.value("order"))), len(self.value("order")))
        self.check_quiet()

    def test_a_killed_server_comes_back_with_its_acknowledgements(self) -> None:
        server = self.live("--log", "log")
        self.grow("log", "".join(self.lines[:1500]))
        self.open(server.url)
        self.shows('document.querySelectorAll("#list-alarms li.settled").length > 0')
        self.press("j", "a")
        self.shows('document.getElementById("acknowledge").open')
        self.tab.ask("Input.insertText", text="called <b>on</b> 16")
        self.value('document.getElementById("acknowledge-store").click()')
        self.shows('document.querySelector("li.acknowledged .note")?.textContent.includes("called <b>on</b> 16")')
        server.kill()
        self.shows('document.getElementById("link").textContent === "lost"')
        again = self.live("--log", "log", port=server.port)
        self.grow("log", "".join(self.lines[1500:1600]))
        self.shows('document.getElementById("link").textContent === "connected"')
        self.until(lambda: self.is_as_the_server_has_it(again))
        self.shows('document.querySelectorAll("li.acknowledged").length === 1')
        self.check_quiet()

    def test_names_from_the_air_are_text(self) -> None:
        name, start = "<IMG SRC=X ONERROR=A", crowd.START
        lines = [line.replace("\r", "") for line in self.lines[:700]]
        own = [(block(start + 5) + sentence(name_part(mmsi, name)) + b"\n").decode() for mmsi in (200000112, 200000113)]
        server = self.live("--log", "log", "--title", "<script>document.title=1</script>")
        self.grow("log", "".join(lines + own))
        self.open(server.url)
        self.shows(f'document.querySelector("#list-alarms .names")?.textContent.includes({json.dumps(name)})')
        for key in "234":
            self.press(key)
        self.shows('[...document.querySelectorAll("#list-vessels .head")].some((head) => head.textContent === '
                   f'{json.dumps(name)})')
        self.assertEqual(self.value('document.querySelectorAll("img, b i, svg script").length'), 0)
        self.assertEqual(self.value("document.title"), "<script>document.title=1</script>")
        self.press("1", "j", "Enter")
        self.shows('document.getElementById("meeting").open')
        self.until(lambda: any("/meeting" in url for url in self.tab.asked))
        self.check_quiet()

    def has_encounters(self, moment: int, count: int) -> bool:
        """Moves the slider to a moment, and returns whether the page then lists so many encounters. Rows that settle
        later are not in the answer, so a test asks again."""
        self.value(f'document.getElementById("slider").value = {moment}; '
                   'document.getElementById("slider").dispatchEvent(new Event("input"))')
        self.shows('document.getElementById("past-words").textContent.includes("settled rows")')
        return bool(self.value('document.querySelectorAll("#list-encounters li").length') == count)

    def test_keys_filters_and_earlier_moments(self) -> None:
        server = self.live("--log", "log")
        self.grow("log", "".join(self.lines))
        self.open(server.url)
        self.shows('document.querySelectorAll("#list-alarms li.settled").length > 3')
        self.shows(f'Number(document.getElementById("slider").max) > {crowd.START + 1900}')      # the log is read
        before = self.value("document.documentElement.dataset.theme")
        self.press("n")
        self.assertNotEqual(self.value("document.documentElement.dataset.theme"), before)
        self.press("/")
        self.tab.ask("Input.insertText", text="ginkgo")
        self.shows('document.querySelectorAll("#list-alarms li").length === 1')
        self.press("Escape")
        self.value('document.getElementById("clear").click()')
        self.shows('document.querySelectorAll("#list-alarms li").length > 3')
        self.value('document.getElementById("filter-state").value = "withdrawn"; '
                   'document.getElementById("filter-state").dispatchEvent(new Event("input"))')
        self.shows('document.querySelectorAll("#list-alarms li:not(.withdrawn)").length === 0')
        self.value('document.getElementById("clear").click()')
        self.press("2")
        self.until(lambda: self.has_encounters(crowd.START + 400, 4), self.value("document.body.innerText"))
        self.press("[")
        self.shows('document.getElementById("past-time").textContent.endsWith("22:19:00 UTC")')
        self.value('document.getElementById("moment").focus(); document.getElementById("moment").value = ""')
        self.tab.ask("Input.insertText", text="2023-11-14 22:20")
        self.press("Enter")
        self.shows('document.getElementById("past-time").textContent.endsWith("22:20:00 UTC")')
        self.press("l", "1")
        self.shows('document.getElementById("past").hidden && document.querySelectorAll("#list-alarms li").length > 3')
        self.check_quiet()

    def drag(self, left: float, right: float) -> None:
        """Draws an area over the height of the map, between two parts of its width."""
        self.value('document.getElementById("area").click()')
        x, y, width, height = self.value('(({left, top, width, height}) => [left, top, width, height])('
                                         'document.getElementById("map").getBoundingClientRect())')
        ends = (x + width * left + 1, y + 1), (x + width * right - 1, y + height - 1)
        for kind, (east, south) in zip(("mousePressed", "mouseMoved", "mouseReleased"), (ends[0], ends[1], ends[1])):
            self.tab.ask("Input.dispatchMouseEvent", type=kind, x=east, y=south, button="left", clickCount=1)
        self.shows('document.getElementById("filter-words").textContent.includes("an area")')

    def test_an_area_drawn_on_the_map_filters_the_lists(self) -> None:
        server = self.live("--log", "log")
        self.grow("log", "".join(self.lines[:700]))
        self.open(server.url)
        self.press("4")
        count = 'document.querySelectorAll("#list-vessels li").length'
        self.shows(f"{count} === 20")
        self.value('document.getElementById("filters").open = true')
        self.drag(0, 0.5)
        self.shows(f"{count} > 0 && {count} < 20")
        west = self.value(VESSELS)
        self.drag(0.5, 1)
        self.shows(f"{count} > 0 && {count} < 20 && ({VESSELS}).every((name) => !{json.dumps(west)}.includes(name))")
        self.assertEqual(len({*west, *self.value(VESSELS)}), 20)
        self.value('document.getElementById("clear").click()')
        self.shows(f"{count} === 20")
        self.check_quiet()

    def test_a_preliminary_alarm_is_seen_to_settle_or_to_be_withdrawn(self) -> None:
        self.write("s.toml", passing.SCENARIO + FORMULA)
        server = self.live("--log", "log")
        self.open(server.url)
        self.value(WATCH)
        for first, last, rule, state in ((0, EARLY, "stays", "preliminary"), (EARLY, LATER, "stays", "withdrawn"),
                                         (LATER, LATER, "r14a", "preliminary"), (LATER, LATEST, "r14a", "settled")):
            self.grow("log", between(first, last))
            self.shows(f'[...document.querySelectorAll("#list-alarms li.{state}")].filter((li) => '
                       f'li.textContent.includes("{rule}")).length === 2')
            self.assertTrue(self.value(f'document.querySelector("#list-alarms li.{state} .chip.{state}") !== null'))
        came = self.value("came")
        seen = sorted("-".join([name.split("-")[2], *states]) for name, states in came.items() if "r8d" not in name)
        self.assertEqual(seen, ["r14a-preliminary-settled"] * 2 + ["stays-preliminary-withdrawn"] * 2)
        self.check_quiet()

    def test_it_fits_a_screen_and_a_telephone(self) -> None:
        server = self.live("--log", "log")
        self.grow("log", "".join(self.lines))
        self.open(server.url)
        self.shows('document.querySelectorAll("#list-alarms li").length > 3')
        for width, height in ((1280, 720), (390, 844), (360, 640)):
            self.tab.ask("Emulation.setDeviceMetricsOverride", width=width, height=height, deviceScaleFactor=1,
                         mobile=width < 800)
            self.shows(f"innerWidth === {width}")
            self.assertLessEqual(self.value("document.documentElement.scrollWidth"), width)
            for name in ("map", "list-alarms", "time"):
                left, top, right, bottom = self.value(
                    f'(({{left, top, right, bottom}}) => [left, top, right, '
                    f'bottom])(document.getElementById("{name}").getBoundingClientRect())')
                self.assertTrue(0 <= left < right <= width and 0 <= top < bottom <= height + 1,
                                (name, width, left, top, right, bottom))
        self.tab.ask("Emulation.setDeviceMetricsOverride", width=1280, height=720, deviceScaleFactor=1, mobile=False)
        self.check_quiet()

    def test_four_thousand_vessels_are_drawn_and_move(self) -> None:
        lines = []
        for second in (0, 60):
            for k in range(4000):                       # each beyond the sight of the others, so that no pair is judged
                place = 28000000 + 20000 * (k // 63), -75000000 + 30000 * (k % 63) + 10 * second, 100, 900, 90, 0
                lines.append(
                    (block(crowd.START + second) + sentence(class_a(200000001 + k, place, 0)) + b"\n").decode())
        server = self.live("--log", "log")
        self.grow("log", "".join(lines[:4000]))
        self.open(server.url)
        self.shows('document.getElementById("count-vessels").textContent === "4000"')
        self.value(FRAMES)
        self.grow("log", "".join(lines[4000:]))
        self.press("4", "/")
        self.tab.ask("Input.insertText", text="200004000")
        self.shows('document.querySelector("#list-vessels li")?.textContent.includes("200004000")')
        self.shows('document.querySelector("#list-vessels .seen")?.textContent.includes("22:14:20")')
        print("4000 vessels: {:.1f} drawings a second, at most {:.0f} ms apart".format(*self.value(MEASURED)))
        self.check_quiet()


if __name__ == "__main__":
    unittest.main()
