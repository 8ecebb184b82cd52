"""The state of a live page: alarms as stretches, preliminary alarms, encounters, changes, acknowledgements, and
access."""
import json
import os
import time
import unittest
from typing import Any

import crowd
from given import InFolder, PROGRAM, example, text_of, with_program
from colregs.errors import Fault
from colregs.io.sentences import block, class_a, class_b, hull_part, name_part, sentence, sentences, voyage
from colregs.live.access import Access, Address, Bucket, access_of, address_of
from colregs.live.alarms import PRELIMINARY, SETTLED, WITHDRAWN, Alarms
from colregs.live.changes import MOST_CHANGES, Changes
from colregs.live.follower import Paced
from colregs.live.history import lines_between, offset_of
from colregs.live.notes import Note, Notes
from colregs.live.preliminary import View, window_of
from colregs.live.state import Answer, State
from colregs.model.scenario import Scenario
from colregs.stream.day_files import DayFiles
from colregs.stream.fleet import Fleet
from colregs.stream.follow import Numbers
from colregs.stream.lately import marks_of, rest_of
from colregs.stream.runs import Window
from colregs.stream.sources import Lines, Mark
from colregs.stream.stretches import Stretches

KEY = 200000001, 200000002, "r16"
START, TICK = 1700000000, 10


class WithScenario(InFolder):
    def setUp(self) -> None:
        super().setUp()
        self.write("s.toml", crowd.harbour())
        self.scenario = Scenario(self.path("s.toml"))


class Joins(WithScenario):
    def test_alarms_of_steps_that_follow_each_other_are_one_stretch(self) -> None:
        stretches = Stretches(self.scenario)
        found = [stretches.take(KEY, START + 10 * step, START + 10 * step + 100) for step in (0, 1, 2, 5, 6, 4)]
        self.assertEqual([one.number for one in found], [1, 1, 1, 2, 2, 2])
        self.assertEqual([(one.first - START, one.last - START, one.alarms) for one in (found[0], found[3])],
                         [(0, 30, 3), (40, 70, 3)])

    def test_a_step_between_two_stretches_joins_them(self) -> None:
        stretches = Stretches(self.scenario)
        for step in (0, 2, 1):
            one = stretches.take(KEY, START + 10 * step, START)
        self.assertEqual((one.first - START, one.last - START, one.alarms, one.absorbed), (0, 30, 3, [2]))

    def test_the_order_of_alarms_makes_no_difference(self) -> None:
        for order in ((0, 1, 2, 3), (3, 2, 1, 0), (0, 2, 3, 1), (2, 0, 1, 3), (3, 0, 2, 1)):
            stretches = Stretches(self.scenario)
            for step in order:
                one = stretches.take(KEY, START + 10 * step, START)
            self.assertEqual((one.first - START, one.last - START, one.alarms, len(stretches.open[KEY])), (0, 40, 4, 1),
                             order)

    def test_a_stretch_is_over_once_no_alarm_can_join_it(self) -> None:
        stretches = Stretches(self.scenario)
        one = stretches.take(KEY, START, START)
        self.assertEqual(stretches.over(one.last + stretches.wait), [])
        self.assertEqual(stretches.over(one.last + stretches.wait + 1), [one])
        stretches.close(one)
        self.assertEqual(stretches.open, {})


class Items(WithScenario):
    def setUp(self) -> None:
        super().setUp()
        self.stretches = Stretches(self.scenario)
        notes = Notes(self.folder)
        self.addCleanup(notes.close)
        about = {"subject_name": "A", "at_rest": ""}
        self.alarms = Alarms(self.stretches, notes, lambda key, first, last, before: dict(about))
        self.alarms.clock = START + 300

    def settle(self, step: int) -> None:
        self.alarms.settle(self.stretches.take(KEY, START + 10 * step, START + 10 * step + 10))

    def only(self) -> Any:
        self.assertEqual(len(self.alarms.items), 1)
        return next(iter(self.alarms.items.values()))

    def test_a_preliminary_alarm_becomes_the_settled_one(self) -> None:
        self.alarms.answer({KEY: [(START + 100, START + 130)]}, START)
        item = self.only()
        self.assertEqual((item.state, item.first - START, item.last - START), (PRELIMINARY, 100, 130))
        self.settle(10)
        self.assertIs(self.only(), item)
        self.assertEqual((item.state, item.last - START, item.settled.last - START), (SETTLED, 130, 110))
        self.assertEqual(self.alarms.counts, {PRELIMINARY: 1, SETTLED: 1, WITHDRAWN: 0})

    def test_a_preliminary_alarm_that_the_next_answer_lacks_is_withdrawn_and_stays(self) -> None:
        self.alarms.answer({KEY: [(START + 100, START + 130)]}, START)
        self.alarms.answer({}, START)
        self.assertEqual((self.only().state, self.only().withdrawn_at), (WITHDRAWN, START + 300))
        self.alarms.answer({KEY: [(START + 110, START + 140)]}, START)
        self.assertEqual((self.only().state, self.only().withdrawn_at, self.only().last - START),
                         (PRELIMINARY, None, 140))
        self.assertEqual(self.alarms.counts[WITHDRAWN], 1)

    def test_a_withdrawn_alarm_that_settles_after_all_is_settled(self) -> None:
        self.alarms.answer({KEY: [(START + 100, START + 110)]}, START)
        self.alarms.answer({}, START)
        self.settle(10)
        self.assertEqual((self.only().state, self.only().withdrawn_at), (SETTLED, None))

    def test_a_preliminary_alarm_that_can_no_longer_settle_is_withdrawn(self) -> None:
        self.alarms.answer({KEY: [(START + 100, START + 130)]}, START)
        self.alarms.answer({}, START, is_whole=False)
        self.alarms.pass_time(START + 300 + self.stretches.wait)
        self.assertEqual(self.only().state, PRELIMINARY)
        self.alarms.pass_time(START + 301 + self.stretches.wait)
        self.assertEqual(self.only().state, WITHDRAWN)

    def test_only_the_part_beyond_the_settled_steps_is_withdrawn(self) -> None:
        self.settle(10)
        self.alarms.answer({KEY: [(START + 100, START + 160)]}, START)
        self.assertEqual(self.only().last - START, 160)
        self.alarms.answer({}, START)
        self.assertEqual((self.only().state, self.only().last - START), (SETTLED, 110))

    def test_an_answer_adds_nothing_at_settled_alarms(self) -> None:
        self.alarms.answer({KEY: [(START + 100, START + 130)]}, START + 130)
        self.assertEqual(self.alarms.items, {})

    def test_two_stretches_that_a_later_alarm_joins_are_one_item(self) -> None:
        self.settle(10)
        self.settle(12)
        self.assertEqual(len(self.alarms.items), 2)
        second = list(self.alarms.items)[1]
        self.settle(11)
        self.assertEqual((self.only().first - START, self.only().last - START, self.alarms.dropped),
                         (100, 130, {second}))

    def test_a_settled_alarm_takes_in_the_preliminary_one_that_it_grows_to(self) -> None:
        self.settle(10)
        self.alarms.answer({KEY: [(START + 120, START + 150)]}, START)
        self.assertEqual(len(self.alarms.items), 2)
        self.settle(11)
        self.assertEqual((self.only().state, self.only().first - START, self.only().last - START), (SETTLED, 100, 150))

    def test_an_item_is_not_over_while_alarms_may_still_arrive(self) -> None:
        self.settle(10)
        late = START + 120 + self.stretches.wait
        self.alarms.pass_time(late)
        self.alarms.answer({KEY: [(START + 100, START + 160)]}, START)
        self.assertEqual((self.only().over, self.only().last - START), (False, 160))
        self.stretches.close(self.stretches.over(late)[0])
        self.alarms.pass_time(late)
        self.assertEqual((self.only().over, self.only().last - START), (True, 110))

    def test_old_items_are_removed(self) -> None:
        self.settle(10)
        self.alarms.pass_time(START + 100)
        self.assertTrue(self.alarms.items)
        self.alarms.pass_time(START + 90000)
        self.assertEqual((self.alarms.items, self.alarms.by_key, self.alarms.by_number, self.alarms.lasting),
                         ({}, {}, {}, set()))


class Acknowledgements(InFolder):
    def test_acknowledgements_stay_after_a_restart_even_if_the_alarm_grew(self) -> None:
        notes = Notes(self.folder)
        notes.add(KEY, Note(START, START + 10, True, "seen \u2013 called on 16", 5))
        notes.add((1, 2, "r8d"), Note(START, START + 10, True, "", 6))
        notes.close()
        notes = Notes(self.folder)
        self.addCleanup(notes.close)
        known = notes.of(KEY, START - 50, START + 500)
        self.assertEqual(known and (known.acknowledged, known.note, known.at), (True, "seen \u2013 called on 16", 5))
        self.assertIsNone(notes.of(KEY, START + 10, START + 20))
        notes.add(KEY, Note(START, START + 10, False, "", 7))
        self.assertFalse((notes.of(KEY, START, START + 10) or known).acknowledged)       # type: ignore[union-attr]

    def test_a_file_that_is_no_database_is_refused(self) -> None:
        self.write("live.db", b"no database" * 100)
        with self.assertRaisesRegex(Fault, "live.db: file is not a database"):
            Notes(self.folder)


class Numbered(unittest.TestCase):
    def test_missed_changes_are_sent_or_a_snapshot_is_needed(self) -> None:
        changes = Changes()
        for k in range(1, MOST_CHANGES + 51):
            changes.add(str(k))
        self.assertEqual(changes.after(MOST_CHANGES + 48), [str(MOST_CHANGES + 49), str(MOST_CHANGES + 50)])
        self.assertEqual(changes.after(MOST_CHANGES + 50), [])
        self.assertEqual(len(changes.after(50) or []), MOST_CHANGES)
        for number in (49, 0, -1, MOST_CHANGES + 51):
            self.assertIsNone(changes.after(number), number)
        self.assertIsNone(changes.after(MOST_CHANGES, 49))
        changes.add("x" * (9 << 20))
        self.assertEqual([len(text) for text in changes.texts], [9 << 20])


class Fleets(unittest.TestCase):
    def taken(self, *lines: bytes) -> Fleet:
        fleet = Fleet(200)
        for line in lines:
            fleet.take_line(block(START) + line + b"\n", START)
        return fleet

    def test_the_static_data_of_vessels(self) -> None:
        a, b = 200000001, 200000002
        report = 0, 0, 100, 900, 87, 10
        fleet = self.taken(*sentences(voyage(a, "<IMG SRC=X ONERROR=A", 70, (100, 20, 5, 5)), 3),
                           sentence(class_a(a, report, 7)), sentence(name_part(b, "BEA")),
                           sentence(hull_part(b, 36, (9, 3, 1, 1))), sentence(class_b(b, report)))
        known = {mmsi: (one.name, one.kind, one.length, one.status, one.heading) for mmsi, one in fleet.about.items()}
        self.assertEqual(known, {a: ("<IMG SRC=X ONERROR=A", 70, 120, 7, 87), b: ("BEA", 36, 12, None, 87)})
        self.assertEqual((fleet.kind_words(a), fleet.status_words(a), fleet.name(3)),
                         ("cargo", "engaged in fishing", "3"))

    def test_a_damaged_sentence_is_ignored(self) -> None:
        line = sentence(class_a(200000001, (0, 0, 100, 900, 87, 10), 7))
        self.assertEqual(self.taken(line[:-2] + b"00").about, {})

    def test_points_of_two_windows_count_once_and_old_ones_go(self) -> None:
        fleet = Fleet(200)
        for second in (0, 10, 10, 5, 20):
            fleet.take_point(f"point,200000001,{START + second},10000,20000,100,900")
        self.assertEqual(list(fleet.ships[200000001].track.times), [START, START + 10, START + 20])
        for second in range(30, 9000, 10):
            fleet.take_point(f"point,200000001,{START + second},10000,20000,,")
        self.assertLess(len(fleet.ships[200000001].track.times), 300)
        fleet.forget(START + 9001)
        self.assertEqual((fleet.ships, fleet.gone, fleet.moved), ({}, {200000001}, set()))

    def test_marks_and_rest_of_the_last_minutes(self) -> None:
        fleet = Fleet(200)
        for second in range(0, 1800, 10):
            for mmsi, x, speed in ((200000001, 0, 0), (200000002, 300000, 0), (200000003, second * 50000, 97)):
                fleet.take_point(f"point,{mmsi},{START + second},{x},0,{speed},900")
        pair = 200000001, 200000002
        self.assertEqual(marks_of(fleet, 10, pair, START + 900, START + 1000), ("both", ["at rest", "alongside"]))
        self.assertEqual(rest_of(fleet, pair, START + 900, START + 1000), "both")
        self.assertEqual(rest_of(fleet, (200000001, 200000003), START + 900, START + 1000), "subject")
        self.assertEqual(marks_of(fleet, 10, (200000001, 9), START, START), ("", []))


class Windows(WithScenario):
    def test_an_answer_is_of_the_window_whose_rows_settle_the_clocks_step(self) -> None:
        numbers = Numbers(self.scenario, 60, 90)
        for clock in range(START, START + 3000, 70):
            view = View(clock, ("2023-11-14", 0),
                        tuple(Window(start, ("2023-11-14", 0)) for start in numbers.starts(clock)))
            window = window_of(view, numbers)
            assert window
            step = (clock - window.start) // TICK
            self.assertTrue(numbers.behind < step <= numbers.last, step)
        self.assertIsNone(window_of(View(START, ("2023-11-14", 0), ()), numbers))


class Moments(InFolder):
    def test_the_lines_between_two_times_over_midnight(self) -> None:
        files, midnight = DayFiles(self.path("days")), 1700006400
        self.addCleanup(files.close)
        times = list(range(midnight - 20000, midnight + 20000, 5))
        for at in times:
            files.write(block(at) + b"!x" + b"x" * 60 + b"\n", at)
        files.flush()
        for first, last in ((midnight - 700, midnight + 700), (midnight - 20000, midnight - 19000),
                            (midnight + 19900, midnight + 30000), (0, 5)):
            found = [int(line[3:13]) for line in lines_between(files, first, last, 30)]
            self.assertEqual([at for at in found if at >= first], [at for at in times if first <= at <= last])
            self.assertLess(len(found), (last - first) // 5 + 1000)
        self.assertEqual(offset_of(files.path("2023-11-14"), 0), 0)


class Speeds(unittest.TestCase):
    class Told:
        """A source of three blocks."""

        def __init__(self, blocks: list[list[bytes]]) -> None:
            self.blocks, self.marks = blocks, [{
                "inode": 1, "offset": sum(len(line) for lines in blocks[:k + 1] for line in lines)
            } for k in range(len(blocks))]

        def lines(self) -> Any:
            yield from zip(self.blocks, self.marks)

        def done(self, mark: Mark) -> None:
            pass

        def stop(self) -> None:
            pass

    def test_a_replayed_log_keeps_its_pace_and_loses_no_line_and_no_position(self) -> None:
        lines = [block(START + at) + b"!%d\n" % k for k, at in enumerate((0, 0, 30, 30, 29, 60))]
        paced, begun = Paced(self.Told([lines[:3], lines[3:]]), 100), time.monotonic()
        found: list[Lines] = list(paced.lines())
        self.assertGreaterEqual(time.monotonic() - begun, 0.6)
        self.assertEqual([line for part, _ in found for line in part], lines)
        ends = [sum(len(line) for part, _ in found[:k + 1] for line in part) for k in range(len(found))]
        self.assertEqual([mark and mark["offset"] for _, mark in found], ends)

    def test_a_gap_of_days_does_not_hold_the_stream(self) -> None:
        paced = Paced(self.Told([[block(START) + b"\n", block(START + 10 ** 6) + b"\n"]]), 1)
        paced.stopped.set()
        self.assertEqual(len(list(paced.lines())), 2)
        self.assertLess(paced.due - time.monotonic(), 10)


class Doors(InFolder):
    def token(self, word: str = "0123456789abcdef", mode: int = 0o600) -> str:
        path = self.write("token", word + "\n")
        os.chmod(path, mode)
        return path

    def test_other_machines_need_a_token(self) -> None:
        for listen in ("0.0.0.0:8080", "192.0.2.1:1", "[::]:80"):
            with self.assertRaisesRegex(Fault, "give --token-file"):
                access_of(listen, None, None, [], None)
            self.assertFalse(access_of(listen, None, self.token(), [], None).may("", ""))
        for listen in ("127.0.0.1:8080", "[::1]:0", "localhost:1"):
            self.assertTrue(access_of(listen, None, None, [], None).may("", ""))
        self.assertTrue(access_of("", "live.socket", None, [], None).may("", ""))

    def test_a_token_and_its_cookie(self) -> None:
        access = access_of("127.0.0.1:0", None, self.token(), [], None)
        self.assertTrue(access.may("Bearer 0123456789abcdef", ""))
        for words in ("", "Bearer", "Bearer 0123456789abcdeg", "Basic 0123456789abcdef", "Bearer 0123456789abcdef0",
                      "Bearer \u00e9"):
            self.assertFalse(access.may(words, ""), words)
        cookie = access.cookie()
        self.assertTrue(access.may("", cookie))
        until, sign = cookie.split(".")
        for wrong in (cookie[:-1], f"{int(until) + 1}.{sign}", access.sign(int(time.time()) - 1), "x", "9" * 40 + ".x",
                      "."):
            self.assertFalse(access.may("", wrong), wrong)
        self.assertFalse(Access(Address("127.0.0.1", 0), "another token of ours", [], None).may("", cookie))

    def test_weak_tokens_and_open_files_are_refused(self) -> None:
        for word, mode, told in (
            ("short", 0o600, "at least 16 letters"),
            ("0123456789abcdef", 0o644, "other users can read the token"),
            ("0123456789 abcdef", 0o600, "one word of"),
        ):
            with self.assertRaisesRegex(Fault, told):
                access_of("127.0.0.1:0", None, self.token(word, mode), [], None)

    def test_hosts_and_origins(self) -> None:
        access = access_of("127.0.0.1:8080", None, None, ["https://live.example.org"], None)
        for host, is_ours in (("127.0.0.1:8080", True), ("localhost:8080", True), ("evil.example:8080", False),
                              ("live.example.org", True), ("", False)):
            self.assertEqual(access.is_host(host), is_ours, host)
        for origin, is_ours in ((None, True), ("http://127.0.0.1:8080", True), ("http://127.0.0.1:8081", False),
                                ("https://live.example.org", True), ("https://evil.example",
                                                                     False), ("null", False), ("file://", False)):
            self.assertEqual(access.is_origin(origin, "127.0.0.1:8080"), is_ours, origin)

    def test_wrong_addresses_are_refused(self) -> None:
        for words in ("8080", "127.0.0.1", "127.0.0.1:x", ":80", "127.0.0.1:70000"):
            with self.assertRaisesRegex(Fault, "HOST:PORT"):
                address_of(words)
        for tiles in ("https://a.example/x.png", "ftp://a/{x}{y}{z}", "https://a.example; script-src *//{x}{y}{z}"):
            with self.assertRaisesRegex(Fault, "--tiles"):
                access_of("127.0.0.1:0", None, None, [], tiles)
        with self.assertRaisesRegex(Fault, "--origin"):
            access_of("127.0.0.1:0", None, None, ["live.example.org"], None)

    def test_the_policy_names_no_address_but_that_of_tiles(self) -> None:
        self.assertNotIn("http", access_of("127.0.0.1:0", None, None, [], None).policy())
        tiled = access_of("127.0.0.1:0", None, None, [], "https://{s}.tile.example/{z}/{x}/{y}.png").policy()
        self.assertTrue(tiled.endswith("img-src 'self' data: https://*.tile.example"), tiled)
        self.assertNotIn("unsafe", tiled)

    def test_a_rate(self) -> None:
        bucket = Bucket(0.001, 3)
        self.assertEqual([bucket.takes() for _ in range(5)], [True, True, True, False, False])


@with_program
class Streams(WithScenario):
    """The output of `colregs-follow --stretches`."""

    # a busy machine may let alarms or positions wait for long
    WORDS = ["--days", "days", "--program", PROGRAM, "--ticks-each", "60", "--overlap", "900", "--modes", "watch"]
    PATIENT = ["--patience", "600"]

    def follow(self, log: str, *words: str) -> list[Any]:
        """Returns the lines of a followed log, but for those that name pairs whose alarms a window may lack."""
        status, out, error = self.tool("colregs-follow", "s.toml", *self.WORDS, *self.PATIENT, *words,
                                       source=log.encode())
        self.assertEqual((status, error), (0, ""))
        return [row for row in map(json.loads, out.splitlines()) if row["kind"] != "unsure"]

    def spans(self, alarms: list[Any]) -> dict[tuple[int, int, str], list[tuple[int, int]]]:
        """Returns the stretches of rows of alarms."""
        steps: dict[tuple[int, int, str], set[int]] = {}
        for row in alarms:
            fields = row["row"].split(",")
            steps.setdefault((row["subject"], row["other"], row["rule"]), set()).add(row["run"] + int(fields[4]) * TICK)
        found: dict[tuple[int, int, str], list[tuple[int, int]]] = {}
        for key, own in steps.items():
            for first in sorted(step for step in own if step - TICK not in own):
                last = first
                while last in own:
                    last += TICK
                found.setdefault(key, []).append((first, last))
        return found

    def over(self, rows: list[Any]) -> dict[tuple[int, int, str], list[tuple[int, int]]]:
        """Returns the stretches that are over by lines of stretches."""
        found: dict[tuple[int, int, str], list[tuple[int, int]]] = {}
        for row in rows:
            if row["kind"] == "stretch" and row["state"] == "over":
                ends = [
                    int(time.mktime(time.strptime(row[name], "%Y-%m-%dT%H:%M:%SZ")) - time.timezone)
                    for name in ("begins", "ends")
                ]
                found.setdefault((row["subject"], row["other"], row["rule"]), []).append((ends[0], ends[1]))
        return {key: sorted(spans) for key, spans in found.items()}

    def test_each_alarm_is_in_one_stretch_also_over_a_cut(self) -> None:
        log = text_of(example("harbour_of_twenty.log"))
        alarms = self.follow(log, "--whole", "--days", "plain")
        self.assertGreater(len(alarms), 50)
        whole = self.follow(log, "--whole", "--stretches")
        self.assertEqual(self.over(whole), self.spans(alarms))
        begins = [row for row in whole if row["state"] == "begins"]
        self.assertEqual(len(begins), sum(map(len, self.spans(alarms).values())))
        self.assertEqual({row["subject_name"] for row in begins} & {"CEDAR", "GINKGO"}, {"CEDAR", "GINKGO"})
        self.assertTrue(all(row["position"] and row["subject_type"] for row in begins))
        lines = log.splitlines(keepends=True)
        cuts: list[tuple[int, int, list[str]]] = [(0, 1500, []), (1500, 1900, []), (1900, len(lines), ["--whole"])]
        parts = [
            self.follow("".join(lines[first:last]), "--stretches", "--days", "cut", *words)
            for first, last, words in cuts
        ]
        told = [(row["subject"], row["other"], row["rule"], row["state"], row["begins"])
                for part in parts
                for row in part]
        self.assertEqual(
            sorted(told),
            sorted((row["subject"], row["other"], row["rule"], row["state"], row["begins"]) for row in whole))

    def test_stretches_need_watch(self) -> None:
        status, _, error = self.tool("colregs-follow", "s.toml", "--days", "days", "--program", PROGRAM, "--stretches")
        self.assertEqual(status, 1)
        self.assertIn("give --modes watch", error)

    def test_pairs_at_rest_are_counted(self) -> None:
        lines = []
        for second in range(0, 1200, 10):
            for k, (x, speed) in enumerate(((0, 0), (400, 1))):
                east = round((x + (20 * (second // 300) if k else 0)) / 0.1852)
                lines.append(
                    (block(START + second)
                     + sentence(class_a(200000001 + k,
                                        (28950000, -74100000 + east, speed, 2700 * k, 0, 0), 5)) + b"\n").decode())
        self.write("s.toml", crowd.harbour().replace("risk = 300", "risk = 900").replace("clear = 600", "clear = 1800"))
        alarms = self.follow("".join(lines), "--whole", "--days", "plain")
        rows = self.follow("".join(lines), "--whole", "--stretches")
        shown = self.follow("".join(lines), "--whole", "--stretches", "--at-rest", "--days", "shown")
        self.assertTrue(alarms)
        self.assertEqual([row["kind"] for row in rows], ["hidden"])
        self.assertEqual(rows[0]["stretches"], sum(map(len, self.spans(alarms).values())))
        self.assertEqual(self.over(shown), self.spans(alarms))


@with_program
class States(WithScenario):
    def test_a_snapshot_and_its_changes_hold_the_same(self) -> None:
        notes = Notes(self.folder)
        self.addCleanup(notes.close)
        state = State(self.folder, self.scenario, notes)
        report = 28950000, -74100000, 100, 900, 90, 0
        state.lines([
            block(START) + sentence(class_a(200000001, report, 0)),
            block(START) + sentence(name_part(200000001, "ALPHA"))
        ], START)
        state.points([f"point,200000001,{START},0,0,100,900"])
        change = state.change()
        self.assertEqual(change["vessels"], [[200000001, START, -123.5, 48.25, 10.0, 90.0, 90]])
        self.assertEqual(
            change["about"],
            [{"mmsi": 200000001, "name": "ALPHA", "type": "", "length": 0, "status": "under way using engine"}])
        self.assertEqual(state.change(), {})
        snapshot = state.snapshot()
        self.assertEqual((snapshot["vessels"], snapshot["about"]), (change["vessels"], change["about"]))
        self.assertEqual(snapshot["tracks"], {200000001: [START, -123.5, 48.25]})

    def test_an_acknowledgement_is_a_change(self) -> None:
        notes = Notes(self.folder)
        self.addCleanup(notes.close)
        state = State(self.folder, self.scenario, notes)
        state.set_clock(START + 100)
        state.answer(Answer(START, START + 100, [], {KEY: [(START + 80, START + 90)]}))
        alarm = state.change()["alarms"][0]
        self.assertEqual((alarm["state"], alarm["note"]), (PRELIMINARY, None))
        self.assertIsNotNone(state.acknowledge(alarm["id"], True, "seen", 7))
        self.assertEqual(state.change()["alarms"][0]["note"], {"acknowledged": True, "note": "seen", "at": 7})
        self.assertIsNone(state.acknowledge("none", True, "", 7))
        state.answer(Answer(START, START + 110, fault="status 7"))          # it does not mention the alarm
        self.assertNotIn("alarms", state.change())
        state.answer(Answer(START, START + 120))
        self.assertEqual(state.change()["alarms"][0]["state"], WITHDRAWN)


if __name__ == "__main__":
    unittest.main()
