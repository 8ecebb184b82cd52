"""The server of the live page, from outside: its socket, lists, limits, and its data after a kill."""
import io
import json
import os
import socket
import time
import unittest
import zipfile
from typing import Any

import crowd
from given import PROGRAM, example, text_of, with_program
from live_server import Live, WithLive, has_aiohttp
from web_socket import Refused, WebSocket
from colregs.stream.rows import as_values

SHIFT = 1700006400 - 1700001000         # s: midnight comes 1000 s after the beginning of the harbour's log
Spans = dict[tuple[int, int, str], list[tuple[int, int]]]
with_server = unittest.skipUnless(has_aiohttp(), "python3-aiohttp is not installed")


class WithHarbour(WithLive):
    """The harbour of twenty in a log that a test lets grow."""

    def setUp(self) -> None:
        super().setUp()
        self.write("s.toml", crowd.harbour())
        self.write("log", "")
        self.lines = text_of(example("harbour_of_twenty.log")).splitlines(keepends=True)

    def expected(self, shift: int = 0) -> Spans:
        """Returns the stretches of alarms of one run of `watch` over the whole log."""
        from colregs.run.program import Run
        self.write("whole",
                   "".join(line + "\n" for line in crowd.moved((line.rstrip("\n") for line in self.lines), shift)))
        start = crowd.START + shift
        run = Run(PROGRAM, "watch", self.path("s.toml"), self.path("whole"), [f"--start={start}", "--ticks=1000"])
        steps: dict[tuple[int, int, str], set[int]] = {}
        for text in run.text.decode().splitlines():
            if text.startswith("alarm,"):
                row = as_values(text, "watch", start, 10)
                steps.setdefault((row["subject"], row["other"], row["rule"]),
                                 set()).add(start + 10 * int(text.split(",")[4]))
        return {
            key: [(first, min(step
                              for step in range(first, first + 10**5, 10)
                              if step not in own))
                  for first in sorted(own)
                  if first - 10 not in own]
            for key, own in steps.items()
        }

    @staticmethod
    def spans(alarms: list[Any]) -> Spans:
        """Returns the settled stretches of alarms of the server."""
        found: Spans = {}
        for alarm in alarms:
            if alarm["state"] == "settled":
                found.setdefault((alarm["subject"], alarm["other"], alarm["rule"]), []).append(
                    (alarm["first"], alarm["settled_to"]))
        return {key: sorted(own) for key, own in found.items()}

    def settled(self, server: Live, wanted: Spans) -> list[Any]:
        """Waits until the server has these settled alarms; returns all alarms."""
        found: list[Any] = []

        def has_all() -> bool:
            found[:] = server.json("/api/alarms")["alarms"]
            return self.spans(found) == wanted

        try:
            self.until(has_all)
        except AssertionError:
            self.assertEqual(self.spans(found), wanted)
        return found


@with_program
@with_server
class Sockets(WithHarbour):
    def test_changes_are_numbered_and_a_lost_connection_misses_nothing(self) -> None:
        server = self.live("--log", "log")
        one, two = WebSocket(server.port), WebSocket(server.port)
        self.addCleanup(two.close)
        for browser in (one, two):
            self.assertEqual(browser.take()["kind"], "snapshot")
        self.grow("log", "".join(self.lines[:900]))
        self.until(lambda: one.take() and any(alarm["state"] == "settled" for alarm in one.alarms.values()))
        one.close()
        self.grow("log", "".join(self.lines[900:]))
        wanted = {key: spans for key, spans in self.expected().items() if spans[0][0] < crowd.START + 1980 - 340}
        self.until(lambda: two.take() and wanted.items() <= self.spans(list(two.alarms.values())).items())
        again = WebSocket(server.port, f"?epoch={one.epoch}&since={one.number}")
        again.number, again.alarms, again.vessels, again.came = one.number, one.alarms, one.vessels, one.came
        self.addCleanup(again.close)
        first = again.take()
        self.assertEqual((first["kind"], first["changes"][0]["n"]), ("changes", one.number + 1))
        self.until(lambda: again.number >= two.number or again.take() and again.number >= two.number)
        self.until(lambda: two.number >= again.number or two.take() and two.number >= again.number)
        self.assertEqual((again.alarms, again.vessels, again.came), (two.alarms, two.vessels, two.came))
        self.assertEqual(two.numbers, list(range(two.numbers[0], two.numbers[-1] + 1)))
        self.assertEqual((again.snapshots, len(set(two.came))), (0, len(two.came)))
        other = WebSocket(server.port, f"?epoch=other&since={one.number}")
        self.addCleanup(other.close)
        self.assertEqual(other.take()["kind"], "snapshot")

    def test_fifty_browsers_get_one_state_and_a_slow_one_a_newer_snapshot(self) -> None:
        server = self.live("--log", "log", "--browsers", "52")
        slow = WebSocket(server.port, buffer=2048)
        self.addCleanup(slow.close)
        browsers = [WebSocket(server.port) for _ in range(50)]
        for browser in browsers:
            self.addCleanup(browser.close)
        extra = WebSocket(server.port)
        self.addCleanup(extra.close)
        with self.assertRaisesRegex(Refused, "503"):
            WebSocket(server.port)
        slow.take()
        for first in range(0, len(self.lines), 60):
            self.grow("log", "".join(self.lines[first:first + 60]))
            time.sleep(0.25)
        wanted = {key: spans for key, spans in self.expected().items() if spans[0][0] < crowd.START + 1980 - 340}
        for browser in browsers:
            self.until(lambda: browser.take() and wanted.items() <= self.spans(list(browser.alarms.values())).items())
        last = max(browser.number for browser in browsers)
        for browser in browsers:
            while browser.number < last:
                browser.take()
        self.assertEqual({json.dumps(self.spans(list(browser.alarms.values())).__repr__()) for browser in browsers},
                         {json.dumps(self.spans(list(browsers[0].alarms.values())).__repr__())})
        self.assertEqual(len({tuple(browser.came) for browser in browsers}), 1)
        self.until(lambda: slow.take() and slow.number >= last)
        self.assertEqual(sorted(slow.alarms), sorted(browsers[0].alarms))
        self.assertEqual(server.json("/healthz")["restarts"], 0)


@with_program
@with_server
class Kills(WithHarbour):
    def test_after_a_kill_acknowledgements_stay_and_rows_occur_once(self) -> None:
        server = self.live("--log", "log")
        self.grow("log", "".join(self.lines[:1500]))
        alarms = self.until(
            lambda: [alarm for alarm in server.json("/api/alarms")["alarms"] if alarm["state"] == "settled"])
        self.assertEqual(server.acknowledge(alarms[-1]["id"], True, "called on 16"), 200)
        server.kill()
        self.grow("log", "".join(self.lines[1500:2000]))
        server = self.live("--log", "log")
        self.until(lambda: server.json("/healthz")["lines"] >= 2000)
        server.kill()
        self.grow("log", "".join(self.lines[2000:]))
        server = self.live("--log", "log", "--whole")
        found = self.settled(server, self.expected())
        notes = [alarm["note"] for alarm in found if alarm["note"]]
        self.assertEqual([(note["acknowledged"], note["note"]) for note in notes], [(True, "called on 16")])
        rows = [(row["mode"], row["row"], row["run"])
                for row in map(json.loads,
                               text_of(self.path("days/2023-11-14.rows")).splitlines())]
        self.assertEqual(len(rows), len(set(rows)))
        told = [json.loads(line) for line in text_of(self.path("days/2023-11-14.stretches")).splitlines()]
        keys = [(row["state"], row["subject"], row["other"], row["rule"], row["first"]) for row in told]
        self.assertEqual(len(keys), len(set(keys)))
        self.assertEqual(server.stop(), 0)

    def test_over_midnight(self) -> None:
        wanted = self.expected(SHIFT)
        lines = text_of(self.path("whole")).splitlines(keepends=True)
        server = self.live("--log", "log")
        for first in range(0, len(lines), 600):
            self.grow("log", "".join(lines[first:first + 600]))
            self.until(lambda: server.json("/healthz")["lines"] >= min(len(lines), first + 600))
        server.stop()
        server = self.live("--log", "log", "--whole")
        self.settled(server, wanted)
        self.assertEqual(sorted(name for name in os.listdir(self.path("days")) if name.endswith(".log")),
                         ["2023-11-14.log", "2023-11-15.log"])
        past = server.json(f"/api/history?at={1700006400 + 120}")
        self.assertEqual(len(past["vessels"]), 20)
        self.assertEqual({(alarm["subject"], alarm["other"], alarm["rule"]) for alarm in past["alarms"]},
                         {key for key, spans in wanted.items() if any(first <= 1700006520 for first, _ in spans)})

    def test_a_flood_of_garbage_does_not_stop_the_page(self) -> None:
        server = self.live("--log", "log", "--whole")
        server.stop()
        garbage = "".join(f"!AIVDM,1,1,,A,{k:x}garbage<script>,0*00\n\\c:x*00\\$%&\n{chr(7)}\n"
                          for k in range(20000)) + "x" * 300000 + "\n"
        with open(self.path("flood"), "w", encoding="utf-8") as out:
            for first in range(0, len(self.lines), 500):
                out.write(garbage + "".join(self.lines[first:first + 500]))
        server = self.live("--log", "flood", "--whole", "--days", "flooded")
        browser = WebSocket(server.port)
        self.addCleanup(browser.close)
        self.assertEqual(browser.take()["kind"], "snapshot")
        self.settled(server, self.expected())
        self.assertEqual(server.ask("/healthz")[0], 200)


@with_program
@with_server
class Answers(WithHarbour):
    def test_lists_numbers_cases_and_earlier_moments(self) -> None:
        server = self.live("--log", "log", "--quiet-after", "3", "--title", "Harbour <b>")
        self.grow("log", "".join(self.lines[:1200]))
        self.until(lambda: any(one["state"] == "settled" for one in server.json("/api/alarms")["alarms"]) and server.
                   json("/api/encounters")["encounters"])
        vessels, encounters, alarms = (server.json(f"/api/{kind}")[kind]
                                       for kind in ("vessels", "encounters", "alarms"))
        self.assertEqual((len(vessels), {vessel["name"] for vessel in vessels} >= {"CEDAR", "CHERRY"}), (20, True))
        met = [one for one in encounters if one["pair"] == [200000108, 200000109]][0]
        self.assertEqual((met["kinds"], met["duties"]), (["meets head-on"] * 2, ["Rule 14: alters to starboard"] * 2))
        self.assertLess(met["closest"], met["distance"])
        for kind, found in (("vessels", vessels), ("encounters", encounters), ("alarms", alarms)):
            ways: list[tuple[str, dict[str, str]]] = [(f"/api/{kind}?format=geojson", {}),
                                                      (f"/api/{kind}", {"Accept": "application/geo+json"})]
            for words, headers in ways:
                status, body, told = server.ask(words, None, **headers)
                features = json.loads(body)["features"]
                self.assertEqual((status, told["Content-Type"], len(features)), (200, "application/geo+json; "
                                                                                      "charset=utf-8", len(found)))
                self.assertTrue(all(feature["geometry"]["coordinates"] for feature in features))
        self.assertEqual(json.loads(server.ask("/settings")[1])["title"], "Harbour <b>")
        text = server.ask("/metrics")[1].decode()
        for name in ("lines_total 1200", "window_lines{outcome=\"point\"}", "clock_lag_seconds", "rows_total",
                     'alarms_total{state="settled"}', "restarts_total 0", "browsers 0"):
            self.assertIn("colregs_live_" + name, text)
        alarm = [one for one in alarms if one["state"] == "settled"][-1]
        self.check_case(server, alarm["id"])
        past = server.json(f"/api/history?at={crowd.START + 400}")
        self.assertEqual((past["clock"], len(past["vessels"]), len(past["tracks"])), (crowd.START + 400, 20, 20))
        self.assertTrue(all(values[1] <= crowd.START + 400 for values in past["vessels"]))
        self.until(lambda: server.ask("/healthz")[0] == 503)
        self.assertIn("no line arrived for", server.json("/healthz")["why"])
        self.grow("log", "".join(self.lines[1200:1201]))
        self.until(lambda: server.ask("/healthz")[0] == 200)

    def check_case(self, server: Live, name: str) -> None:
        status, page, headers = server.ask(f"/api/alarms/{name}/meeting")
        self.assertEqual((status, b"GINKGO" in page), (200, True))
        self.assertIn("sandbox allow-scripts; default-src 'none'", headers["Content-Security-Policy"])
        self.assertEqual(headers["Content-Security-Policy"].count("'sha256-"), page.count(b"<script>"))
        status, body, headers = server.ask(f"/api/alarms/{name}/case")
        self.assertIn('attachment; filename="case-', headers["Content-Disposition"])
        names = {entry.split("/")[1] for entry in zipfile.ZipFile(io.BytesIO(body)).namelist()}
        self.assertEqual(names, {
            "case.db", "case.geojson", "case.html", "case.json", "case.log", "points.csv", "report.csv", "scenario.toml"
        })

    def test_refusals(self) -> None:
        server = self.live("--log", "log")
        self.grow("log", "".join(self.lines[:700]))
        name = self.until(lambda: server.json("/api/alarms")["alarms"])[0]["id"]
        own = server.url.rstrip("/")
        body = json.dumps({"acknowledged": True, "note": ""}).encode()
        path = f"/api/alarms/{name}/acknowledgement"
        refused: list[tuple[int, str, bytes | None, dict[str, str]]] = [
            (403, path, body, {"Content_Type": "application/json", "Origin": "https://evil.example"}),
            (415, path, body, {"Content_Type": "text/plain"}),
            (400, path, b'{"acknowledged": "yes"}', {"Content_Type": "application/json"}),
            (400, path, b"[]", {"Content_Type": "application/json"}),
            (400, path, b"{", {"Content_Type": "application/json"}),
            (413, path, b" " * 9000, {"Content_Type": "application/json"}),
            (404, "/api/alarms/none/acknowledgement", body, {"Content_Type": "application/json", "Origin": own}),
            (421, "/", None, {"Host": "evil.example"}), (404, "/web/../server.py", None, {}),
            (404, "/web/%2e%2e/server.py", None, {}), (404, "/leaflet/images/x", None, {}),
            (404, "/api/alarms/none/case", None, {}), (400, "/api/history?at=x", None, {}), (404, "/chart", None, {}),
            (405, "/api/alarms", b"x", {}), (200, path, body, {"Content_Type": "application/json", "Origin": own})
        ]
        for status, words, content, headers in refused:
            self.assertEqual(server.ask(words, content, **headers)[0], status, (words, headers))
        with self.assertRaisesRegex(Refused, "403"):
            WebSocket(server.port, origin="https://evil.example")
        browser = WebSocket(server.port, origin=own)
        self.addCleanup(browser.close)
        browser.take()
        browser.send(1, b"x" * 2000)
        with self.assertRaises((EOFError, OSError)):
            while True:
                browser.take()
        headers = server.ask("/")[2]
        self.assertIn("default-src 'none'; script-src 'self'", headers["Content-Security-Policy"])
        self.assertNotIn("unsafe", headers["Content-Security-Policy"])
        self.assertEqual((headers["X-Content-Type-Options"], headers["Cache-Control"]), ("nosniff", "no-store"))
        self.check_rate(server)

    def check_rate(self, server: Live) -> None:
        """Sends more requests at once than the limit."""
        with socket.create_connection(("127.0.0.1", server.port), 60) as asked:
            asked.sendall(f"GET /settings HTTP/1.1\r\nHost: 127.0.0.1:{server.port}\r\n\r\n".encode() * 3000)
            told = b""
            while b" 429 " not in told:
                piece = asked.recv(1 << 16)
                self.assertTrue(piece, "all were let through")
                told = told[-10:] + piece

    def test_browsers_and_programs_need_a_token(self) -> None:
        os.chmod(self.write("token", "0123456789abcdef\n"), 0o600)
        server = self.live("--log", "log", "--token-file", "token")
        self.assertEqual((server.ask("/")[0], server.ask("/")[2]["Location"]), (303, "/login"))
        self.assertEqual([
            server.ask(path)[0]
            for path in ("/login", "/web/login.css", "/web/main.js", "/api/vessels", "/metrics", "/healthz")
        ], [200, 200, 401, 401, 401, 401])
        with self.assertRaisesRegex(Refused, "401"):
            WebSocket(server.port)
        self.assertEqual(server.ask("/api/vessels", Authorization="Bearer 0123456789abcdef")[0], 200)
        status, _, headers = server.ask("/login", b"token=0123456789abcdef",
                                        Content_Type="application/x-www-form-urlencoded")
        cookie = headers["Set-Cookie"]
        self.assertEqual((status, headers["Location"]), (303, "/"))
        for word in ("HttpOnly", "SameSite=Strict", "Path=/"):
            self.assertIn(word, cookie)
        self.assertNotIn("0123456789abcdef", cookie)
        pair = cookie.split(";")[0]
        self.assertEqual(server.ask("/", Cookie=pair)[0], 200)
        WebSocket(server.port, headers=f"Cookie: {pair}\r\n").close()
        tries = [
            server.ask("/login", b"token=wrong", Content_Type="application/x-www-form-urlencoded") for _ in range(12)
        ]
        self.assertEqual((tries[0][0], tries[0][2]["Location"]), (303, "/login?wrong"))
        self.assertEqual(tries[-1][0], 429)

    def test_a_socket_for_a_proxy(self) -> None:
        server = self.live("--log", "log", "--socket", self.path("live.socket"))
        with socket.socket(socket.AF_UNIX) as asked:
            asked.settimeout(60)
            asked.connect(self.path("live.socket"))
            asked.sendall(b"GET /healthz HTTP/1.1\r\nHost: live.example.org\r\nConnection: close\r\n\r\n")
            told = b""
            while piece := asked.recv(1 << 16):
                told += piece
        self.assertIn(b'"ok": true', told)
        self.assertEqual(server.stop(), 0)

    def test_wrong_arguments_end_the_server(self) -> None:
        for words, told in (
            (["--listen", "0.0.0.0:0"], "give --token-file"),
            (["--log", "none"], "none does not exist"),
            (["--speed", "2"], "give --log FILE"),
            (["--chart", "s.toml"], "not a GeoJSON map"),
            (["--log", "log", "--overlap", "0"], "the overlap is"),
        ):
            status, _, error = self.tool("colregs-live", "s.toml", "--days", "days", "--program", PROGRAM, *words)
            self.assertEqual((status, error.count("\n")), (1, 1), error)
            self.assertIn(told, error)

    def test_a_scenario_that_the_program_refuses_is_reported(self) -> None:
        self.write("s.toml", crowd.harbour().replace("risk = 300", "risk = 0"))
        server = self.live("--log", "log")
        self.grow("log", "".join(self.lines[:100]))
        why = self.until(lambda: server.json("/healthz")["answer_fault"])
        self.assertIn("status 3, scenario: detect.risk: range", why)


if __name__ == "__main__":
    unittest.main()
