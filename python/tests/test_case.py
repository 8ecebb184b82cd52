"""A case: its files and hashes, map, database, pictures and page, for a passing that is computed by hand
(passing.py)."""
import hashlib
import json
import os
import re
import sqlite3
import unittest

import browser
import passing
from given import InFolder, PROGRAM, with_program
from colregs.io.sentences import block
from colregs.page import page

MOMENT = "2023-11-14T22:21:40Z"
WRONG_USES = [
    (["none.log"], "none.log"),
    (["/dev/zero"], "/dev/zero is no file"),
    (["passing.log", "--scenario", "none.toml"], "none.toml"),
    (["passing.log", "--scenario", "/dev/zero"], "/dev/zero is a device"),
    (["passing.log", "--scenario", "passing.log"], "passing.log: not TOML: "),
    (["passing.log", "--program", "none"], "is not an executable file"),
    (["passing.log", "--chart", "passing.toml"], "GeoJSON"),
    (["passing.log", "-o", "."], "exists already"),
    (["passing.toml", "--scenario", "passing.toml"], "no sentence and no row was read"),
    (["passing.log", "--scenario", "passing.toml", "--start", "1800000000"],
     "no vessel has a position between 2027-01-15 08:00:00"),
]


@with_program
class Cases(InFolder):
    def setUp(self) -> None:
        super().setUp()
        self.write("passing.toml", passing.SCENARIO)
        self.write("passing.log", passing.log(still=True))

    def make(self, *more: str, status: int = 0) -> tuple[int, str, str]:
        done = self.tool("colregs-case", "passing.log", "--scenario", "passing.toml", "--program", PROGRAM, "-o",
                         "made", *more)
        self.assertEqual(done[0], status, done[2])
        return done

    def held(self, name: str) -> str:
        with open(self.path("made/" + name), encoding="utf-8") as source:
            return source.read()


class Files(Cases):
    def test_the_hashes_are_those_of_the_files(self) -> None:
        self.make()
        told = json.loads(self.held("case.json"))
        names = set(os.listdir(self.path("made")))
        self.assertEqual(set(told["files"]) | {"case.json"}, names)
        for name, about in told["files"].items():
            with open(self.path("made/" + name), "rb") as source:
                self.assertEqual(hashlib.sha256(source.read()).hexdigest(), about["sha256"], name)
        self.assertEqual(told["given"][0]["sha256"], hashlib.sha256(passing.log(still=True).encode()).hexdigest())

    def test_the_summary_names_the_nearest_meeting_of_vessels_under_way(self) -> None:
        said = self.make()[1]
        self.assertIn("EAST and WEST, 185 m (0.10 nautical miles) at 2023-11-14 22:21:40 UTC",
                      said.replace("WEST and EAST", "EAST and WEST"))

    def test_a_given_window_is_stored_for_the_other_tools(self) -> None:
        self.make("--start", str(passing.START + 100), "--ticks", "80")
        self.assertEqual(json.loads(self.held("case.json"))["window"]["start"], passing.START + 100)
        for words in (["made"], ["made/scenario.toml", "--points", "made/points.csv", "--audit", "made/report.csv"]):
            self.assertEqual(self.tool("draw", words[0], "picture", *words[1:])[0], 0)
        with open(self.path("picture.svg"), encoding="utf-8") as source:
            self.assertIn("185 m at 22:21:40", source.read())

    def test_a_scenario_is_guessed_if_none_is_given(self) -> None:
        status, said, error = self.tool("colregs-case", "passing.log", "--program", PROGRAM, "-o", "made")
        self.assertEqual(status, 0, error)
        self.assertIn("The scenario was guessed", said)

    def test_failures_are_named_and_leave_no_output(self) -> None:
        for words, told in WRONG_USES:
            usual = (("--program", PROGRAM), ("-o", "made"))
            status, _, error = self.tool("colregs-case", *words,
                                         *(word for pair in usual if pair[0] not in words for word in pair))
            self.assertEqual(status, 1, words)
            self.assertRegex(error, "^case: .*" + re.escape(told))
            self.assertNotIn("Traceback", error)
            self.assertEqual(sorted(os.listdir(self.folder)), ["passing.log", "passing.toml"])

    def test_a_refusal_of_the_program_is_passed_on(self) -> None:
        self.write("passing.toml", passing.SCENARIO.replace("tick = 10", "tick = 61"))
        self.assertRegex(self.make(status=1)[2], "status 3, scenario: window.tick: range")


class ContactLost(Cases):
    """WEST falls silent 250 s after the start: then she is 15000 units east of EAST and 1000 north, 2784.2 m, and
    closes by 60 units a second."""

    END = ("contact lost 22:17:30; nearest while both were heard 2,784 m; if both went on: 185 m at 22:21:40 "
           "(computed from their last reports)")

    def setUp(self) -> None:
        super().setUp()
        self.write("passing.log", passing.log(silent_after=250))

    def test_the_summary_says_how_near_both_would_have_come(self) -> None:
        said = self.make()[1]
        self.assertIn("1 meeting of 1 ends because a vessel was no longer heard", said)
        self.assertIn(self.END, said)

    def test_page_map_and_database_mark_the_meeting(self) -> None:
        self.make()
        found = re.search(r'<script type="application/json" id="case">(.*?)</script>', self.held("case.html"), re.S)
        self.assertEqual([meeting["lost"] for meeting in json.loads(found[1] if found else "")["meetings"]], [self.END])
        kinds = {
            f["properties"]["kind"]
            for f in json.loads(self.held("case.geojson"))["features"]
            if f["properties"].get("contact_lost") == self.END
        }
        self.assertEqual(kinds, {"meeting", "nearest", "between"})
        with sqlite3.connect(self.path("made/case.db")) as base:
            rows = base.execute("select distinct contact_lost, round(if_both_went_on, 1), if_both_went_on_at from "
                                "meeting").fetchall()
            self.assertEqual(rows, [("2023-11-14T22:17:30Z", passing.LEAST, MOMENT)])
        base.close()

    def test_the_doctor_names_the_pair(self) -> None:
        status, out, _ = self.tool("colregs-doctor", "--program", PROGRAM, "passing.toml", "passing.log")
        self.assertEqual((status, out), (1, f"contact lost: EAST ({passing.EAST}) and WEST ({passing.WEST}): "
                                            f"{self.END}\n"))

    def test_a_meeting_that_the_end_of_the_log_ends_is_not_marked(self) -> None:
        """Both are heard to the end of a log that ends before they are near."""
        lines = passing.log().splitlines(keepends=True)
        self.write(
            "passing.log",
            "".join(line for line in lines if not line.startswith("\\c:") or int(line[3:13]) <= passing.START + 250))
        self.assertNotIn("contact lost", self.make()[1])


class Parts(Cases):
    def about(self) -> dict[str, int]:
        window: dict[str, int] = json.loads(self.held("case.json"))["window"]
        return window

    def test_the_requested_window_is_audited(self) -> None:
        """From 22:15:00, 100 s after the start, to 22:23:20, 500 s later: 50 steps of 10 s."""
        for end in ("22:23:20", "2023-11-14T22:23:20Z", "1700000600"):
            with self.subTest(end):
                self.make("--from", "22:15", "--to", end, "-o", "made" + end)
                with open(self.path(f"made{end}/case.json"), encoding="utf-8") as source:
                    window = json.load(source)["window"]
                self.assertEqual((window["start"], window["ticks"]), (1700000100, 50))

    def test_a_guess_uses_the_requested_window(self) -> None:
        status, _, error = self.tool("colregs-case", "passing.log", "--program", PROGRAM, "-o", "made", "--from",
                                     "22:15", "--to", "22:23:20")
        self.assertEqual(status, 0, error)
        window = self.about()
        self.assertEqual((window["start"], window["ticks"] * window["tick"]), (1700000100, 500))

    def test_names_outside_the_window_count(self) -> None:
        """Names and types come in the first lines of the log, before the window."""
        said = self.make("--from", "22:15")[1]
        self.assertNotIn(str(passing.EAST), said)
        with sqlite3.connect(self.path("made/case.db")) as base:
            self.assertEqual(base.execute("select name, length from vessel where mmsi = ?", (passing.EAST,)).fetchone(),
                             ("EAST", 80))
        base.close()

    def test_only_pairs_with_a_requested_vessel_are_audited(self) -> None:
        """WEST is given by her name, EAST by her number; of the stopped vessel only pairs with WEST stay."""
        for vessel, mmsi in (("west", passing.WEST), (str(passing.EAST), passing.EAST)):
            with self.subTest(vessel):
                said = self.make("--vessel", vessel, "-o", "of" + vessel)[1]
                self.assertIn(f"only pairs with {vessel} were audited", said)
                with open(self.path(f"of{vessel}/report.csv"), encoding="utf-8") as source:
                    pairs = {tuple(row.split(",")[1:3]) for row in source if row.startswith(("meeting", "verdict"))}
                self.assertTrue(pairs)
                self.assertTrue(all(str(mmsi) in pair for pair in pairs), pairs)

    def test_only_vessels_that_were_in_an_area_are_audited(self) -> None:
        """EAST moves along the equator from 0 to 0.05 degrees east, WEST 0.00167 degrees further north, and the third
        is as far to the south."""
        ring = [[-1, -0.0001], [1, -0.0001], [1, 1], [-1, 1]]
        self.write("north.geojson", json.dumps({"type": "Polygon", "coordinates": [ring]}))
        for area in ("-0.0001,-1,1,1", "north.geojson"):
            with self.subTest(area):
                said = self.make("--area=" + area, "-o", "in" + area)[1]
                self.assertIn("were audited: 2; 1 other was left out", said)
                with open(self.path(f"in{area}/points.csv"), encoding="utf-8") as source:
                    seen = {int(row.split(",")[1]) for row in source if row.startswith("point")}
                self.assertEqual(seen, {passing.EAST, passing.WEST})
        for area, told in (("10,10,20,20", "no vessel of the log was in it"), ("5,0,1,9", "south below north"),
                           ("passing.log", "not JSON"), ("none", "cannot read|no such")):
            self.assertRegex(self.make("--area=" + area, status=1)[2], told)

    def test_requests_that_cannot_be_met_are_named(self) -> None:
        for words, status, told in (
            (["--from", "23:00", "--to", "22:59:00"], 1, "no vessel has a position|no time lies between"),
            (["--from", "noon"], 1, "`noon` is no time"),
            (["--vessel", "NOBODY"], 1, "no vessel of the log has this name"),
            (["--vessel", "299999999"], 1, "299999999, which --vessel asks for, has no position in the window"),
            (["--from", "22:15", "--start", "1700000000"], 2, "go without")
        ):
            with self.subTest(words):
                self.assertRegex(self.make(*words, status=status)[2], told)


class Times(Cases):
    def test_a_log_without_a_time_is_refused_with_what_to_do(self) -> None:
        self.write("passing.log", re.sub(r"(?m)^\\[^\\]*\\", "", passing.log()))
        error = self.make(status=1)[2]
        for words in ("no line has a time", "colregs-tagged --now", "receiver", "--without-times"):
            self.assertIn(words, error)
        self.assertFalse(os.path.exists(self.path("made")))
        self.assertIn("none of the lines has a time", self.make("--without-times")[1])

    def test_a_capture_of_a_network_without_sentences_is_refused(self) -> None:
        """The first bytes of pcap (both orders and units of time) and of pcapng, as their specifications give them, and
        then no packet."""
        for head in ("d4c3b2a1", "a1b2c3d4", "4d3cb2a1", "a1b23c4d", "0a0d0d0a"):
            self.write("passing.log", bytes.fromhex(head) + bytes(20) + passing.log().encode())
            self.assertRegex(self.make(status=1)[2], "no sentence and no row was read. passing.log: no lines, "
                                                     "compressed by a capture")

    def test_dates_in_the_future_are_doubtful(self) -> None:
        """4000000000 s are 2 October 2096, 07:06:40 UTC."""
        later = re.sub(r"\\c:(\d+)\*..\\", lambda found: block(int(found[1]) % 10**9 + 4 * 10**9 - 7 * 10**8).decode(),
                       passing.log())
        self.write("passing.log", later)
        self.write("passing.toml", passing.SCENARIO.replace("start = 1700000000", "start = 4000000000"))
        self.assertIn("Times in the future: the log has times up to 2096-10-02 07:23:20 UTC", self.make()[1])


class Maps(Cases):
    def test_the_nearest_places_are_where_they_are_by_hand(self) -> None:
        self.make()
        features = json.loads(self.held("case.geojson"))["features"]
        found = [
            f for f in features if f["properties"]["kind"] == "nearest" and f["properties"]["subject"] == passing.EAST
            and f["properties"]["other"] == passing.WEST
        ]
        self.assertEqual(len(found), 1)
        longitude, latitude = found[0]["geometry"]["coordinates"]
        self.assertAlmostEqual(longitude, 15000 / 600000, places=6)
        self.assertAlmostEqual(latitude, 0, places=6)
        told = found[0]["properties"]
        self.assertEqual((told["subject_name"], told["other_name"], told["time"], round(told["least"], 1)),
                         ("EAST", "WEST", MOMENT, passing.LEAST))
        ends = {(f["properties"]["name"], f["properties"]["end"]): f["geometry"]["coordinates"]
                for f in features
                if f["properties"]["kind"] == "end"}
        self.assertEqual(ends["EAST", "first"], [0, 0])

    def test_the_database_has_metres_miles_utc_and_vessels_at_rest(self) -> None:
        self.make()
        with sqlite3.connect(self.path("made/case.db")) as base:
            row = base.execute("select round(least, 1), nautical_miles, nearest, at_rest from meeting where subject = "
                               "? and other = ?",
                               (passing.EAST, passing.WEST)).fetchone()
            self.assertEqual(row, (passing.LEAST, 0.1, MOMENT, ""))
            row = base.execute("select first, last from verdict where rule = 'r8d' and subject = ? and other = ?",
                               (passing.EAST, passing.WEST)).fetchone()
            self.assertEqual(row, passing.UNSAFE)
            self.assertEqual(
                base.execute("select distinct at_rest from verdict where subject = ?", (passing.STILL,)).fetchall(),
                [("subject",)])
        base.close()


class Pictures(Cases):
    def test_two_vessels_and_a_part_of_the_time_are_drawn(self) -> None:
        self.make()
        done = self.tool("draw", "made", "two", "--pair", "EAST", str(passing.WEST), "--from", "22:20", "--to",
                         "2023-11-14T22:23:00Z")
        self.assertEqual(done[0], 0, done[2])
        with open(self.path("two.svg"), encoding="utf-8") as source:
            text = source.read()
        self.assertIn("22:20:00 to 22:23:00 UTC", text)
        self.assertNotIn(str(passing.STILL), text)

    def test_pictures_that_cannot_be_drawn_are_named(self) -> None:
        self.make()
        for words, told in ((["--pair", "EAST",
                              "NORTH"], "`NORTH` is no vessel"), (["--from", "noon"], "`noon` is no time"), ([
                                  "--from", "23:30"
                              ], "no step of the window"), (["--start", "1700003600"], "outside the window")):
            status, _, error = self.tool("draw", "made", "none", *words)
            self.assertEqual(status, 1, words)
            self.assertRegex(error, "^draw: .*" + re.escape(told))


class Pages(Cases):
    def test_the_page_holds_the_meeting_with_its_rule_in_words(self) -> None:
        self.make()
        found = re.search(r'<script type="application/json" id="case">(.*?)</script>', self.held("case.html"), re.S)
        held = json.loads(found[1] if found else "")
        names = [vessel["name"] for vessel in held["vessels"]]
        meeting = next(m for m in held["meetings"] if {names[k] for k in m["pair"]} == {"EAST", "WEST"})
        self.assertEqual((meeting["least"], held["start"] + meeting["nearest"], meeting["rest"]),
                         (passing.LEAST, passing.NEAREST, []))
        broken = next(v for v in held["verdicts"] if held["rules"][v["rule"]]["name"] == "r8d" and v["broken"]
                      and {names[k] for k in v["pair"]} == {"EAST", "WEST"})
        self.assertEqual((broken["first"], broken["last"]), passing.UNSAFE)
        self.assertIn("passing at a safe distance", held["rules"][broken["rule"]]["words"])

    def test_a_name_is_written_as_it_was_sent(self) -> None:
        self.make()
        with sqlite3.connect(self.path("made/case.db")) as base:
            self.assertEqual(
                base.execute("select name from vessel where mmsi = ?", (passing.STILL,)).fetchone(),
                (passing.HOSTILE,))
        base.close()

    def test_a_title_cannot_contain_markup(self) -> None:
        self.make("--title", "</script><script>document.title='taken'</script>")
        self.assertNotIn("<script>document.title", self.held("case.html"))

    def test_each_place_that_the_script_fills_is_in_the_page(self) -> None:
        self.make()
        text = self.held("case.html")
        there = set(re.findall(r' id="([\w-]+)"', text))
        asked = set(re.findall(r'(?:byId|getElementById|list|plain)\("([\w-]+)"', text))
        self.assertGreater(len(asked), 20)
        self.assertEqual(asked - there, set())

    def test_without_leaflet_the_page_says_that_it_has_no_map(self) -> None:
        self.assertEqual(page.leaflet(self.folder), ("", ""))

    @unittest.skipUnless(browser.installed(), "chromium is not installed")
    def test_in_a_browser_clicks_on_rows_work_without_error_or_request(self) -> None:
        self.write(
            "coast.geojson",
            json.dumps({"type": "Polygon", "coordinates": [[[0.01, 0.01], [0.02, 0.01], [0.02, 0.02], [0.01, 0.01]]]}))
        self.make("--chart", "coast.geojson")
        with browser.Browser() as tab:
            tab.open(self.path("made/case.html"), "#meeting1")
            self.assertEqual(tab.value("document.documentElement.dataset.ready"), "yes")
            meetings = tab.value("HELD.meetings.length")
            self.assertEqual(tab.value("document.querySelectorAll('#meetings tbody tr').length"), meetings)
            self.assertRegex(tab.value("document.querySelector('#chosen').textContent"), "^Meeting 1:")
            number = tab.value("HELD.meetings.findIndex(m => !m.rest.length) + 1")
            tab.value(f"document.querySelector('#meetings tbody tr[data-meeting=\"{number}\"]').click()")
            self.assertEqual(tab.value("location.hash"), f"#meeting{number}")
            said = tab.value("document.querySelector('#chosen-words').textContent")
            self.assertIn("Nearest 185 m (0.10 nautical miles) at 22:21:40", said)
            self.assertEqual(tab.value("document.querySelectorAll('#charts svg polyline.distance').length"), 1)
            self.assertGreater(tab.value("document.querySelectorAll('#charts rect.shade').length"), 0)
            tab.value("{ const s = document.querySelector('#meetings input[type=search]'); s.value = 'west'; "
                      "s.dispatchEvent(new Event('input')); }")
            self.assertEqual(tab.value("document.querySelectorAll('#meetings tbody tr').length"), tab.value(
                "HELD.meetings.filter(m => m.pair.some(k => HELD.vessels[k].name === 'WEST')).length"))
            if page.leaflet()[0]:
                self.assertEqual(tab.value("document.querySelectorAll('#map canvas:not(#play-canvas)').length"), 1)
                self.assertEqual(tab.value("document.querySelectorAll('#map #play-canvas').length"), 1)
            self.assertEqual(tab.value("document.querySelectorAll('img').length"), 0, "a name became markup")
            self.assertEqual(tab.errors, [])
            self.assertEqual([address for address in tab.asked if not address.startswith(("file://", "data:"))], [])


if __name__ == "__main__":
    unittest.main()
