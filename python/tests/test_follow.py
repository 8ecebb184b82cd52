"""Following a stream: each row once, across windows, midnight, interruptions, kills and a limit of pairs."""
import json
import os
import re
import signal
import subprocess
import sys
import time
import unittest
from collections.abc import Callable
from typing import Any

import crowd
import drawn_logs
import test_joins
from given import InFolder, PROGRAM, TOOLS, example, needs, text_of, with_program
from colregs.io.sources import stamped
from colregs.io import sentences
from colregs.io.sieve import Senders
from colregs.io.tag_blocks import stamp
from colregs.model.earth import iso
from colregs.model.formulas import sight_of
from colregs.stream.borders import Borders
from colregs.stream.day_files import ACTIVE, LEAP, SURE, Clock, DayFiles, MedianClock
from colregs.stream.health import Health
from colregs.stream.rows import steps_of

SHIFT = 1700006400 - 1700001000          # s: midnight comes 1000 s after the beginning of the harbour's log
START = crowd.START + SHIFT
WINDOWS = ["--ticks-each", "60", "--overlap", "900"]
UNITS = sorted(os.listdir(os.path.join(TOOLS, "systemd")))


MARKS = {"begins_before", "ends_after", "doubt"}


def has_watch() -> bool:
    if not os.access(PROGRAM, os.X_OK):
        return False
    told = subprocess.run([PROGRAM, "--help"], capture_output=True, text=True)
    return re.search(r"- watch:|\|watch\b", told.stdout + told.stderr) is not None


def absolute(row: str, start: int, tick: int = 10) -> str:
    """Returns a row with times instead of its steps."""
    fields = row.split(",")
    at = 5 if fields[0] == "verdict" else 4
    fields[at:at + 2] = [str(start + int(field) * tick) for field in fields[at:at + 2]]
    return ",".join(fields)


@with_program
class Streams(InFolder):
    def setUp(self) -> None:
        super().setUp()
        self.write("s.toml", crowd.harbour())
        self.lines = [
            line + "\n" for line in crowd.moved(text_of(example("harbour_of_twenty.log")).splitlines(), SHIFT)
        ]

    def follow(self, *words: str, source: str = "", status: int = 0, days: str = "days") -> tuple[str, str]:
        done = self.tool("colregs-follow", "s.toml", "--days", days, "--program", PROGRAM, *WINDOWS, *words,
                         source=source.encode())
        self.assertEqual(done[0], status, done[2])
        return done[1], done[2]

    def again(self, after: int) -> list[str]:
        """Returns the lines moved by `after` seconds."""
        return [line + "\n" for line in crowd.moved([line.rstrip("\n") for line in self.lines], after)]

    def rows(self, text: str) -> list[str]:
        return [absolute(told["row"], told["run"]) for told in map(json.loads, text.splitlines())]

    def whole(self, mode: str = "audit") -> list[str]:
        """Returns the rows of one run over a window that begins with the log, and ends long after it."""
        done = subprocess.run([PROGRAM, mode, self.path("s.toml"), f"--start={START}", "--ticks=2000"],
                              input="".join(self.lines).encode(), capture_output=True)
        return [
            absolute(row, START)
            for row in done.stdout.decode().splitlines()
            if row.startswith(("meeting", "verdict", "alarm"))
        ]


class Once(Streams):
    def test_a_whole_stream_has_the_rows_of_one_run_in_order(self) -> None:
        out, error = self.follow("--whole", source="".join(self.lines))
        self.assertEqual((self.rows(out), error), (self.whole(), ""))
        self.assertEqual(len(set(json.loads(line)["run"] for line in out.splitlines())), 4)
        first = json.loads(out.splitlines()[0])
        self.assertEqual((first["begins"], first["ends"]), ("2023-11-14T23:44:10Z", "2023-11-14T23:44:20Z"))

    def test_a_stream_that_is_cut_and_restarted_over_midnight(self) -> None:
        found, ends = [], [900, 1500, len(self.lines)]
        for begin, end in zip([0] + ends, ends):
            out, error = self.follow(*(["--whole"] if end == ends[-1] else []), source="".join(self.lines[begin:end]))
            self.assertEqual(error, "")
            self.assertGreater(len(out), 0)
            found += self.rows(out)
        self.assertEqual(found, self.whole())
        self.assertEqual(sorted(name for name in os.listdir(self.path("days")) if name.endswith(".log")),
                         ["2023-11-14.log", "2023-11-15.log"])
        self.assertEqual("".join(text_of(self.path("days/" + day + ".log")) for day in ("2023-11-14", "2023-11-15")),
                         "".join(self.lines))

    def test_a_restart_reads_the_day_files_from_the_first_window_that_is_not_done(self) -> None:
        end = len(self.lines) + 1500
        self.lines += self.again(8000)
        found = self.rows(self.follow(source="".join(self.lines[:end]))[0])
        day = "days/2023-11-15"
        marks = [line.split() for line in text_of(self.path(day + ".marks")).splitlines()]
        stamps = [int(line[3:13]) for line in self.lines[:end] if line.startswith("\\c:")]
        undone = (max(stamps) - 1500 - 230) // 600 * 600 + 600          # a slow stream has written all rows before it
        self.write("days/windows.json", json.dumps({"first": undone, "open": {}}))
        offset = max(int(place) for mark, place in marks if int(mark) * 600 <= undone - 230)
        self.assertGreater(offset, 0)
        text = text_of(self.path(day + ".log"))
        self.write(day + ".log", text[:offset].translate({ord(digit): "x" for digit in "0123456789"}) + text[offset:])
        found += self.rows(self.follow("--whole", source="".join(self.lines[end:]))[0])
        self.assertEqual(found, self.whole())

    def test_an_outage_of_more_than_an_hour_within_meetings_gives_the_rows_of_one_run(self) -> None:
        self.lines += self.again(8000)[1000:]
        for clock in ("greatest", "median"):
            out, _ = self.follow("--whole", "--clock", clock, source="".join(self.lines), days=clock)
            self.assertEqual(sorted(self.rows(out)), sorted(self.whole()), clock)

    def test_a_file_that_grows_with_a_kill_in_between(self) -> None:
        log = self.write("log", "".join(self.lines[:1200]))
        self.write("out", "")
        for number, begin, end in ((signal.SIGKILL, 1200, 1900), (signal.SIGTERM, 1900, len(self.lines))):
            words = ["s.toml", "--days", "days", "--program", PROGRAM, *WINDOWS, "--log", log, "--out", "out"]
            child = subprocess.Popen([sys.executable, os.path.join(TOOLS, "colregs-follow"), *words], cwd=self.folder)
            self.addCleanup(child.kill)
            with open(log, "a") as out:
                out.write("".join(self.lines[begin:end]))
            self.until(lambda: os.path.getsize(self.path("out")) > 0
                       if number == signal.SIGKILL else self.offset() == os.path.getsize(log))
            child.send_signal(number)
            self.assertEqual(child.wait(30), -9 if number == signal.SIGKILL else 0)
        self.follow("--log", log, "--out", "out", "--whole")
        told = set(text_of(self.path("out")).splitlines())          # a kill between two writes can repeat a row
        self.assertEqual(sorted(self.rows("\n".join(told))), sorted(self.whole()))

    def offset(self) -> int:
        return int(json.loads(text_of(self.path("days/source.json")))["offset"])

    def until(self, done: Callable[[], bool]) -> None:
        for _ in range(600):
            if done():
                return
            time.sleep(0.05)
        self.fail("it did not come in 30 s")

    def test_a_command_feeds_another_command(self) -> None:
        self.write("log", "".join(self.lines))
        self.follow("--command", "cat log", "--to", "cat > out", "--whole")
        self.assertEqual(self.rows(text_of(self.path("out"))), self.whole())

    @unittest.skipUnless(has_watch(), "the program has no mode watch")
    def test_alarms_of_watch_occur_once(self) -> None:
        out, _ = self.follow("--modes", "watch", "--whole", source="".join(self.lines))
        self.assertEqual(self.rows(out), self.whole("watch"))
        self.assertGreater(len(self.rows(out)), 50)


KILLED = """#!/bin/sh
if [ "$1" = audit ] && mkdir once 2>/dev/null; then
  %s "$@" | head -c 300
  kill -9 $$
fi
exec %s "$@"
"""


class Killed(Streams):
    def test_a_run_killed_while_it_writes_a_row_starts_again(self) -> None:
        program = self.write("wrapped", KILLED % (PROGRAM, PROGRAM))
        os.chmod(program, 0o755)
        out, error = self.follow("--whole", "--program", program, source="".join(self.lines))
        self.assertTrue(os.path.isdir(self.path("once")))
        self.assertRegex(error, "signal 9 killed a run of .*; it starts again from the day files")
        self.assertEqual(sorted(self.rows(out)), sorted(self.whole()))


class Meetings(InFolder):
    """Streams of drawn vessels in windows of 1000 s that overlap by as much."""

    def followed(self, rows: list[tuple[float, bytes]], scenario: str,
                 *words: str) -> tuple[list[str], list[Any], list[str]]:
        """Returns the rows without a mark, the lines of those with one, and the rows of one run."""
        text = b"".join(line + b"\n" for _, line in sorted(rows, key=lambda row: row[0]))
        self.write("s.toml", scenario)
        status, out, self.error = self.tool("colregs-follow", "s.toml", "--days", "days", "--program", PROGRAM,
                                            "--ticks-each", "100", "--overlap", "1000", "--whole", *words, source=text)
        self.assertEqual(status, 0, self.error)
        told = [json.loads(line) for line in out.splitlines()]
        done = subprocess.run([PROGRAM, "audit", self.path("s.toml")], input=text, capture_output=True)
        whole = [absolute(row, drawn_logs.START) for row in crowd.stretches(done.stdout.decode())]
        self.unsure = [line for line in told if line["kind"] == "unsure"]
        told = [line for line in told if line["kind"] != "unsure"]
        marked = [line for line in told if MARKS & set(line)]
        return [absolute(row["row"], row["run"]) for row in told if not MARKS & set(row)], marked, whole

    def test_rows_of_a_meeting_that_began_before_their_window_say_so(self) -> None:
        still = [
            *test_joins.way(test_joins.YACHT, 0, 0, 0, 5, to=10800),
            *test_joins.way(test_joins.CARGO, 0, 0, 0, 7, x=50, to=10800)
        ]
        met = [
            *test_joins.way(test_joins.EAST, 9, 0, 5000, 3, x=9000, to=10800),
            *test_joins.way(test_joins.NORTH, 9, 180, 5000, 4, x=9100, to=10800)
        ]
        rows, marked, whole = self.followed(still + met, test_joins.SCENARIO.replace("ticks = 2160", "ticks = 1080"))
        self.assertEqual([row for row in rows if str(test_joins.EAST) in row],
                         [row for row in whole if str(test_joins.EAST) in row])
        self.assertLessEqual(set(rows), set(whole))
        self.assertTrue(marked)
        self.assertTrue(all(test_joins.YACHT in (line["subject"], line["other"]) for line in marked))

    def abreast(self) -> list[tuple[float, bytes]]:
        """Two vessels that meet head-on and then turn to move abreast, too near to be clear but without risk."""
        return [
            *test_joins.way(test_joins.EAST, 9, 0, 0, 3, to=5400),
            *test_joins.way(test_joins.NORTH, 9, 180, 500, 4, x=100, y=2615, to=500),
            *test_joins.way(test_joins.NORTH, 9, 0, 500, 514, x=400, y=2615, to=5400)
        ]

    def test_a_meeting_that_the_next_window_does_not_see_is_written_and_marked(self) -> None:
        rows, marked, whole = self.followed(self.abreast(), test_joins.SCENARIO.replace("ticks = 2160", "ticks = 540"))
        long = [row for row in whole if row.startswith("meeting,")]
        self.assertEqual(len(long), 2)
        self.assertEqual([row for row in rows if row.startswith("meeting,")], [])
        self.assertEqual([(line["row"].split(",")[:4], line["begins"], "ends_after" in line)
                          for line in marked if line["kind"] == "meeting"],
                         [(row.split(",")[:4], iso(int(row.split(",")[4])), True) for row in long])
        missing = set(whole) - set(rows)
        self.assertLessEqual({tuple(row.split(",")[1:3]) for row in missing},
                             {(str(line["subject"]), str(line["other"])) for line in marked})

    def test_a_restart_writes_such_a_meeting_too(self) -> None:
        text, found = b"".join(line + b"\n" for _, line in sorted(self.abreast(), key=lambda row: row[0])), []
        self.write("s.toml", test_joins.SCENARIO)
        cut = [0, text.index(b"\\c:%d*" % (drawn_logs.START + 2613)), len(text)]
        for begin, end in zip(cut, cut[1:]):
            status, out, error = self.tool("colregs-follow", "s.toml", "--days", "days", "--program", PROGRAM,
                                           "--ticks-each", "100", "--overlap", "1000",
                                           *(["--whole"] if end == cut[-1] else []), source=text[begin:end])
            self.assertEqual(status, 0, error)
            found += [json.loads(line) for line in out.splitlines()]
        self.assertEqual([line["encounter"] for line in found if line.get("ends_after") and line["kind"] == "meeting"],
                         ["head_on", "head_on"])

    def test_windows_that_accept_different_reports_say_so(self) -> None:
        # the window from 600 s on begins with a report of the far vessel, and then takes none of the near one's
        shared = [*test_joins.way(test_joins.YACHT, 0, 0, 0, 22, x=30000, to=2900), *test_joins.two(at=2300, to=5400)]
        rows, _, whole = self.followed(shared, test_joins.SCENARIO.replace("ticks = 2160", "ticks = 540"), "--overlap",
                                       "2000")
        self.assertIn(f"accept different reports of {test_joins.YACHT}; two vessels may share an MMSI", self.error)
        self.assertIn((test_joins.YACHT, None), {(line["subject"], line["other"]) for line in self.unsure})
        self.assertLessEqual(set(rows), set(whole))

    def check_alarms(self, rows: list[tuple[float, bytes]], scenario: str, *words: str) -> tuple[list[Any], list[str]]:
        """Compares alarms of a stream with those of one run: one that differs is marked, and one that is missing is
        named. Returns the stream's lines, and the alarms of one run."""
        told, whole = self.alarms_of(rows, scenario, *words), self.whole_alarms(rows)
        alarms = [line for line in told if line["kind"] == "alarm"]
        self.assertEqual({line["kind"] for line in told} - {"alarm", "unsure"}, set())
        self.assertLessEqual({absolute(line["row"], line["run"]) for line in alarms if not MARKS & set(line)},
                             set(whole))
        for row in set(whole) - {absolute(line["row"], line["run"]) for line in alarms}:
            fields = row.split(",")
            who, at = {int(fields[1]), int(fields[2])}, iso(int(fields[4]))
            self.assertTrue(any(line["kind"] == "unsure" and line["begins"] <= at < line["ends"]
                                and {line["subject"], line["other"]} - {None} <= who for line in told), row)
        self.assertEqual(len(alarms), len({line["row"] + str(line["run"]) for line in alarms}))
        return told, whole

    def alarms_of(self, rows: list[tuple[float, bytes]], scenario: str, *words: str) -> list[Any]:
        self.write("s.toml", scenario)
        self.write("log", b"".join(line + b"\n" for _, line in sorted(rows, key=lambda row: row[0])))
        status, out, error = self.tool("colregs-follow", "s.toml", "--days", f"days{len(os.listdir(self.folder))}",
                                       "--program", PROGRAM, "--ticks-each", "100", "--overlap", "1000", "--whole",
                                       "--modes", "watch", "--log", "log", *words)
        self.assertEqual(status, 0, error)
        return [json.loads(line) for line in out.splitlines()]

    def whole_alarms(self, rows: list[tuple[float, bytes]]) -> list[str]:
        text = b"".join(line + b"\n" for _, line in sorted(rows, key=lambda row: row[0]))
        done = subprocess.run([PROGRAM, "watch", self.path("s.toml")], input=text, capture_output=True)
        found = done.stdout.decode().splitlines()
        return [absolute(row, drawn_logs.START) for row in found if row.startswith("alarm,")]

    def test_alarms_of_a_meeting_that_began_before_their_window_say_so(self) -> None:
        told, whole = self.check_alarms(self.abreast(), test_joins.SCENARIO.replace("ticks = 2160", "ticks = 540"))
        self.assertTrue(whole)
        self.assertTrue([line for line in told if line["kind"] == "unsure"])
        met = [*test_joins.way(test_joins.EAST, 9, 0, 5000, 3, x=9000, to=10800),
               *test_joins.way(test_joins.NORTH, 9, 180, 5000, 4, x=9100, to=10800)]
        told, whole = self.check_alarms(met, test_joins.SCENARIO.replace("ticks = 2160", "ticks = 1080"))
        self.assertEqual([absolute(line["row"], line["run"]) for line in told], whole)

    def test_alarms_of_two_vessels_with_one_mmsi_say_so(self) -> None:
        shared = [*test_joins.way(test_joins.YACHT, 0, 0, 0, 22, x=30000, to=2900), *test_joins.two(at=2300, to=5400)]
        told, _ = self.check_alarms(shared, test_joins.SCENARIO.replace("ticks = 2160", "ticks = 540"), "--overlap",
                                    "2000")
        self.assertIn((test_joins.YACHT, None),
                      {(line["subject"], line["other"]) for line in told if line["kind"] == "unsure"})

    def test_alarms_of_a_formula_that_is_not_of_meetings_are_in_doubt(self) -> None:
        own = '[[formula]]\nname = "own"\ntext = "seen & clear(600)"\n'
        told, _ = self.check_alarms(test_joins.two(at=2300, to=5400),
                                    test_joins.SCENARIO.replace("ticks = 2160", "ticks = 540") + own)
        alarms = [line for line in told if line["kind"] == "alarm" and line["rule"] == "own"]
        self.assertTrue(alarms)
        self.assertTrue(all(line.get("doubt") for line in alarms if line["run"] > alarms[0]["run"]))
        self.assertTrue(any("own" in line["why"] for line in told if line["kind"] == "unsure"))

    def test_a_ship_type_that_was_reported_once_counts_in_every_window_of_a_stream(self) -> None:
        rows = [
            *test_joins.two(),
            (6, drawn_logs.stamped(6, sentences.sentence(sentences.hull_part(test_joins.YACHT, 36, (0, 0, 0, 0)))))
        ]
        found, marked, whole = self.followed(rows, test_joins.RANKS)
        self.assertIn(f"verdict,{test_joins.CARGO},{test_joins.YACHT},r16,broken", "\n".join(whole))
        self.assertEqual((sorted(found), marked), (sorted(whole), []))
        self.assertEqual(json.loads(text_of(self.path("days/types.json"))),
                         {str(test_joins.YACHT): [36, drawn_logs.START + 6]})


class Healths(Streams):
    def of_stations(self, ahead: int) -> str:
        """The harbour's lines from three stations, each with a third of the vessels; the clock of the last is ahead."""
        made = []
        for line in self.lines:
            if not line.startswith("\\"):
                made.append(line)
                continue
            at, rest = int(line[3:13]), line.split("\\", 2)[2]
            name = "ABC"[(Senders().of(rest.encode()) or 0) % 3]
            made.append(sentences.block(at + (ahead if name == "C" else 0), b"s:" + name.encode()).decode() + rest)
        return "".join(made)

    def health(self) -> Any:
        return json.loads(text_of(self.path("days/health.jsonl")).splitlines()[-1])

    def met(self, text: str) -> list[tuple[int, int, str]]:
        return sorted((row["subject"], row["other"], row["encounter"])
                      for row in map(json.loads, text.splitlines())
                      if row["kind"] == "meeting")

    def test_a_station_whose_clock_is_ahead_is_named(self) -> None:
        out, error = self.follow("--whole", source=self.of_stations(1200))
        self.assertIn("the clock of the station C is", error)
        self.assertIn("are `late`: a station's clock is ahead", error)
        self.assertGreater(self.health()["stations"]["C"]["lead"], 1000)

    def test_the_median_clock_preserves_the_meetings(self) -> None:
        wanted = self.met(self.follow("--whole", source=self.of_stations(0), days="good")[0])
        self.assertGreater(len(wanted), 8)
        out, error = self.follow("--whole", "--clock", "median", source=self.of_stations(1200))
        self.assertEqual(self.met(out), wanted)
        self.assertGreater(self.health()["stations"]["C"]["restamped"], 100)
        self.assertEqual(self.health()["rows"], len(out.splitlines()))
        self.lines += self.again(8000)[1000:]
        wanted = self.met(self.follow("--whole", source=self.of_stations(0), days="outage")[0])
        out, error = self.follow("--whole", "--clock", "median", source=self.of_stations(1200), days="ahead")
        self.assertEqual(self.met(out), wanted)

    def test_a_first_line_a_day_ahead_and_ten_lines_a_year_ahead_lose_nothing(self) -> None:
        for ahead, count in ((86400, 1), (31536000, 10)):
            tagged = [line.split("\\", 2)[2] for line in self.lines if line.startswith("\\")]
            wrong = [sentences.block(START + ahead + k).decode() + rest for k, rest in enumerate(tagged[:count])]
            out, _ = self.follow("--whole", "--clock", "median", source="".join(wrong + self.lines),
                                 days=f"days{ahead}")
            self.assertEqual(sorted(self.rows(out)), sorted(self.whole()), ahead)

    def test_lines_without_a_stamp_belong_to_no_station(self) -> None:
        said: list[str] = []
        health = Health(self.folder, 30, said.append)
        for line in (b"!AIVDM,2,2,1,A,x,0*00", sentences.block(1700000000, b"s:A") + b"!x",
                     sentences.block(1700000005, b"s:B") + b"!x"):
            health.take(line, False)
        health.write(1700000005, 0)
        self.assertEqual((said, sorted(health.stations), health.lines), ([], ["A", "B"], 3))

    def test_a_minute_without_a_line_is_reported_once(self) -> None:
        said: list[str] = []
        health = Health(self.folder, 30, said.append)
        health.heard -= 61
        health.look(None, 0)
        health.look(None, 0)
        health.came()
        self.assertEqual(said, ["no line arrived for 60 s", "lines arrive again"])


class Limits(Streams):
    def test_a_window_with_too_many_pairs_is_split_by_subjects(self) -> None:
        log, start = crowd.log(100, 8000), crowd.START - 320
        self.write("s.toml", crowd.SCENARIO)
        self.write("log", log)
        window = ["--start", str(start), "--ticks", "500", "--ticks-each", "600"]
        self.write(
            "jobs",
            self.within("colregs-many", "plan", "s.toml", "log", *window, "--group", "25", "--program", PROGRAM)[1])
        self.within("colregs-many", "jobs", "--program", PROGRAM)
        wanted = [
            absolute(row, start)
            for row in crowd.stretches(self.within("colregs-many", "join", "jobs", "--program", PROGRAM)[1])
        ]
        out, error = self.follow("--whole", "--group", "30", "--ticks-each", "480", source=log)
        self.assertIn("has more than 4096 pairs: split by subjects", error)
        self.assertGreater(len(wanted), 200)
        self.assertEqual(sorted(self.rows(out)), sorted(wanted))

    def test_a_window_with_too_many_vessels_is_audited_by_areas(self) -> None:
        self.write("s.toml", crowd.SCENARIO.replace("watch = 5000", "watch = 900").replace("risk = 500", "risk = 100"))
        out, error = self.follow("--whole", "--ticks-each", "1200", source=crowd.wide().decode())
        self.assertIn("has more than 4096 vessels; an audit by areas starts", error)
        met = [row for row in map(json.loads, out.splitlines()) if row["kind"] == "meeting"]
        self.assertEqual(sorted((row["subject"], row["other"]) for row in met),
                         [(200000001 + k, 200000001 + (k ^ 1)) for k in range(4200)])

    def test_a_window_whose_run_fails_has_a_line_that_says_what_is_missing(self) -> None:
        self.write("s.toml", crowd.SCENARIO.replace("watch = 5000", "watch = 900").replace("risk = 500", "risk = 100"))
        out, error = self.follow("--whole", "--modes", "watch", "--ticks-each", "1200", source=crowd.wide().decode(),
                                 status=1)
        self.assertIn("a run allows 4096 vessels", error)
        told = [json.loads(line) for line in out.splitlines() if '"missing"' in line]
        self.assertEqual({(row["kind"], row["mode"], row["ends"] > row["begins"], "vessels" in row["why"])
                          for row in told}, {("missing", "watch", True, True)})

    def test_a_meeting_longer_than_the_overlap_is_reported(self) -> None:
        error = self.follow("--whole", "--overlap", "400", "--ticks-each", "40", source="".join(self.lines))[1]
        self.assertIn("longer than the overlap", error)

    def test_wrong_arguments_are_refused(self) -> None:
        for words, told in (
            (["--overlap", "0"], "the overlap is 32 ticks or more"),
            (["--ticks-each", "20000"], "at most 20000"),
            (["--log", "none"], "none does not exist"),
            (["--log", "s.toml", "--command", "x"], "not both"),
            (["--out", "a", "--to", "b"], "not to both"),
        ):
            status, _, error = self.within("colregs-follow", "s.toml", "--days", "days", "--program", PROGRAM, *WINDOWS,
                                           *words)
            self.assertEqual(status, 1)
            self.assertIn(told, error)
        self.write("s.toml", crowd.harbour().replace("risk = 300", "risk = 0"))
        self.assertIn("status 3, scenario: detect.risk: range",
                      self.follow(source="".join(self.lines[:50]), status=1)[1])


class Parts(InFolder):
    def test_a_time_far_ahead_does_not_count_until_more_lines_have_it(self) -> None:
        clock = Clock()
        leapt = 1000 + LEAP
        for at, told in ((1000, 1000), (990, 1000), (leapt, leapt), (10**9, leapt), (2000, leapt)):
            self.assertEqual(clock.take(sentences.block(at)), told)
        # the program takes no time from a damaged tag block, and none from a line that is too long
        for line in (sentences.block(leapt + 9)[:-2] + b"x\\", sentences.block(leapt + 9) + b"!" * 2000):
            self.assertEqual(clock.take(line), leapt)
        for k in range(SURE):
            clock.take(sentences.block(10 ** 9 + k))
        self.assertEqual(clock.time, 10 ** 9)

    def test_the_clock_of_most_goes_back(self) -> None:
        clock = MedianClock(30)
        for at, told in ((9000, 9000), (100, 100), (101, 101), (9001, 101), (102, 102)):
            self.assertEqual(clock.take(sentences.block(at)), told, at)
        for name, at, told in (("a", 200, 200), ("b", 201, 201), ("c", 999, 201), ("a", 230, 230), ("d", 231, 231)):
            self.assertEqual(clock.take(sentences.block(at, b"s:" + name.encode())), told, name)

    def heard(self, clock: MedianClock, name: str, at: int) -> list[tuple[int | None, int | None]]:
        """Returns the stamps of the lines that a clock releases at a line of a station: as they arrived, and as they
        are written."""
        line = sentences.block(at, b"s:" + name.encode()) + b"!x"
        clock.take(line)
        return [(stamp(came), stamp(written)) for came, written in clock.released(line)]

    def test_a_line_ahead_of_the_clock_of_most_waits_until_that_is_decided(self) -> None:
        clock, found = MedianClock(30), []
        for name in "abde":
            self.assertEqual(self.heard(clock, name, 200), [(200, 200)])
        self.assertEqual(self.heard(clock, "c", 1000), [])
        for k in range(2 * ACTIVE):
            found += self.heard(clock, "abde"[k % 4], 200 + k // 20)
        self.assertEqual(found[:2], [(1000, 200), (200, 200)])
        self.assertEqual(len(found), 2 * ACTIVE + 1)
        self.assertEqual(self.heard(clock, "c", 1010), [(1010, 209)])          # as far ahead as before
        for name, released in (("a", []), ("b", []), ("d", [(7400, 7400)] * 3)):
            self.assertEqual(self.heard(clock, name, 7400), released, name)    # an outage of two hours
        self.assertEqual(self.heard(clock, "c", 8200), [(8200, 7400)])

    def test_lines_ahead_of_the_clock_at_the_end_are_left_out(self) -> None:
        clock = MedianClock(30)
        for at, count in ((100, 30), (9000, 3), (101, 1)):
            for _ in range(count):
                clock.take(sentences.block(at))
                clock.released(sentences.block(at))
        self.assertEqual(clock.last(), ([(sentences.block(101), sentences.block(101))], 3))

    def test_windows_are_compared_at_the_end_of_the_earlier_ones_own_steps(self) -> None:
        # windows of 200 ticks, 100 apart: step 180 of the first, its last own one, is step 80 of the second
        said: list[str] = []
        borders = Borders(180, 120, 100, 1000, {"own": sight_of("seen")}, said.append)
        first = ("verdict,1,2,own,broken,5,90", "meeting,1,2,head_on,150,190,5", "meeting,3,4,passing,150,190,5",
                 "meeting,5,6,passing,100,185,5", "meeting,7,8,passing,130,170,5")
        self.assertEqual([borders.take(0, row) for row in first], [()] * 5)
        self.assertEqual(borders.end(0), [])
        told = json.loads(json.dumps(borders.stored()))
        for row, marks in (("meeting,1,2,head_on,50,95,5", ()),             # begins alike
                           ("meeting,5,6,passing,20,96,5", ("begins_before",)),
                           ("verdict,1,2,own,broken,93,97", ("doubt",)),    # as `seen` is of all times
                           ("verdict,7,8,r8d,broken,94,98", ("doubt",)),    # the earlier meeting is missing
                           ("verdict,9,10,r8d,broken,79,99", ("begins_before",)),
                           ("verdict,9,10,r8d,broken,81,99", ())):
            self.assertEqual(borders.take(1000, row), marks, row)
        self.assertEqual(borders.end(1000), [("meeting,3,4,passing,150,190,5", ())])
        self.assertEqual([line.split(" differ about ")[1].split(";")[0] for line in said], ["7 and 8"])
        again = Borders(180, 120, 100, 1000, {}, said.append)
        again.load(told)
        self.assertEqual(len(again.end(1000)), 3)

    def test_an_incomplete_line_is_not_continued(self) -> None:
        files = DayFiles(self.folder)
        files.write(b"one\n", 0)
        files.write(b"tw", 86399)
        files.flush()
        again = DayFiles(self.folder)
        self.assertEqual(again.place(), ("1970-01-01", 4))
        again.write(b"three\n", 86400)
        again.flush()
        limit = again.place()
        self.assertEqual(b"".join(again.blocks(("1970-01-01", 0), lambda: limit)), b"one\nthree\n")

    def test_bare_sentences_get_the_time(self) -> None:
        self.assertEqual(stamped(b"!AIVDM,1,1,,A,1,0*00", 1700000001), b"\\c:1700000001*5E\\!AIVDM,1,1,,A,1,0*00")
        self.assertEqual(stamped(b"\\c:1*00\\!AIVDM", 5), b"\\c:1*00\\!AIVDM")

    def test_the_steps_of_rows(self) -> None:
        for row, steps in (("verdict,1,2,r14a,open,5,6", (5, 6)), ("meeting,1,2,head_on,7,8,9", (7, 8)),
                           ("alarm,1,2,r8d,3,4,", (3, 4))):
            self.assertEqual(steps_of(row), steps)

    @needs("systemd-analyze")
    def test_the_units_are_accepted(self) -> None:
        self.assertEqual(len(UNITS), 3)
        for name in UNITS:
            text = text_of(os.path.join(TOOLS, "systemd", name)).replace("/usr/lib/colregs/tools", TOOLS)
            unit = self.write(name, re.sub(r"(?m)^(User|Group)=.*\n", "", text))
            done = subprocess.run(["systemd-analyze", "verify", unit], capture_output=True, text=True, timeout=60)
            mine = [line for line in (done.stdout + done.stderr).splitlines() if name in line]
            self.assertEqual(mine, [])
            for word in ("--days", "Restart=always"):
                self.assertIn(word, text)
            self.assertIn(f"tools/colregs-{name.removesuffix('.service').split('-')[1]} ",
                          text_of(os.path.join(TOOLS, "systemd", name)))
