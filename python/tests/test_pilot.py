"""The pilot: its decisions, choices, areas, routes and sentences, and the loop over a stream."""
import functools
import json
import os
import signal
import subprocess
import sys
import time
import types
import unittest
import unittest.mock
from typing import IO, Any, NoReturn

from given import InFolder, PROGRAM, TOOLS, example, text_of, with_program
from colregs import library
from colregs.io.sentences import block, class_a, sentence, total
from colregs.pilot.areas import Area, read_areas
from colregs.pilot.choices import Offsets, rewritten
from colregs.pilot.lines import line_of
from colregs.pilot.live import Live as LivePilot, Pace
from colregs.pilot.nmea import command_sentence, text_sentence
from colregs.pilot.pilot import Pilot
from colregs.pilot.planner import Planner
from colregs.pilot.record import Record
from colregs.pilot.route import OneTrack, Route, read_route
from colregs.pilot.runner import LibraryRunner, ProcessRunner, Report, Runner, status_words
from colregs.pilot.scenario import PilotScenario
from colregs.pilot.states import Answer, Cause, Decision, Leg, Memory, Plan, State, Track, decide

TRACK = Track(350.0, 14.0)
NOW = 1700000000


def plan(*courses: float, made: int = NOW, leg: int = 180, speed: float = 14.0) -> Plan:
    """Returns a plan with one leg of `seconds` per course."""
    return Plan(7, made,
                tuple(Leg(course, speed, made + k * leg, made + (k + 1) * leg) for k, course in enumerate(courses)))


class States(unittest.TestCase):
    def after(self, *answers: Answer, every: int = 60) -> list[Decision]:
        """Returns the decisions after successive answers."""
        memory, found = Memory(), list[Decision]()
        for k, answer in enumerate(answers):
            memory, decision = decide(memory, answer, NOW + k * every, TRACK)
            found.append(decision)
        return found

    def test_a_plan_on_the_track_is_clear_and_any_other_manoeuvres(self) -> None:
        clear, speed, later = self.after(Answer(plan(350.0, 350.0)), Answer(plan(350.0, 350.0, speed=10.0)),
                                         Answer(plan(350.0, 20.0)))
        self.assertEqual((clear.state, clear.course, clear.speed, clear.promised), (State.CLEAR, 350.0, 14.0, True))
        self.assertEqual((speed.state, speed.speed), (State.MANOEUVRING, 10.0))
        self.assertEqual((later.state, later.course), (State.MANOEUVRING, 350.0))

    def test_the_last_plan_is_held_for_as_long_as_its_promise_lasts(self) -> None:
        none = Answer(cause=Cause.EVERY_PLAN_FAILS, words="all fail")
        found = self.after(Answer(plan(20.0, 350.0)), none, none, none, none, none, none, none, every=60)
        self.assertEqual([each.state for each in found[1:6]], [State.HELD] * 5)
        self.assertEqual([each.held_for for each in found[1:6]], [300, 240, 180, 120, 60])
        self.assertEqual([each.course for each in found], [20.0, 20.0, 20.0, 350.0, 350.0, 350.0, 350.0, 350.0])
        self.assertEqual([each.state for each in found[6:]], [State.NONE] * 2)
        self.assertEqual((found[6].promised, found[6].held_for, found[6].legs), (False, None, ()))
        self.assertEqual(found[1].words, "all fail")

    def test_after_a_held_plan_a_new_one_is_followed(self) -> None:
        found = self.after(Answer(plan(20.0)), Answer(cause=Cause.PROGRAM), Answer(plan(50.0, made=NOW + 120)))
        self.assertEqual([each.state for each in found], [State.MANOEUVRING, State.HELD, State.MANOEUVRING])
        self.assertEqual(found[2].course, 50.0)

    def test_without_any_plan_she_steers_the_track_without_a_promise(self) -> None:
        first, = self.after(Answer(cause=Cause.EVERY_PLAN_FAILS))
        self.assertEqual((first.state, first.course, first.speed, first.promised), (State.NONE, 350.0, 14.0, False))

    def test_a_stalled_input_and_an_unready_own_ship_are_named_while_a_promise_lasts(self) -> None:
        found = self.after(Answer(plan(20.0)), Answer(cause=Cause.STALE), Answer(cause=Cause.OWN_UNREADY),
                           Answer(cause=Cause.STALE))
        self.assertEqual([each.state for each in found[1:]], [State.STALE, State.OWN_UNREADY, State.STALE])
        self.assertEqual([each.held_for for each in found[1:]], [120, 60, None])
        self.assertEqual([each.promised for each in found[1:]], [True, True, False])

    def test_a_refused_scenario_and_a_limit_hold_the_plan_and_then_say_none(self) -> None:
        for cause in (Cause.SCENARIO, Cause.LIMIT, Cause.AREAS, Cause.PROGRAM):
            held, none = self.after(Answer(plan(20.0, leg=90)), Answer(cause=cause), Answer(cause=cause))[1:]
            self.assertEqual((held.state, none.state, none.cause), (State.HELD, State.NONE, cause))


class Choices(unittest.TestCase):
    def test_offsets_from_the_track_become_changes_of_the_reported_course(self) -> None:
        offsets = Offsets((0, 300, -300), (0, -40))
        found = rewritten(offsets, Track(350.0, 14.0), Track(20.0, 13.5))
        self.assertEqual(found.courses, (-300, 0, -600))
        self.assertEqual(found.speeds, (5, -35))

    def test_a_turn_is_never_more_than_half_a_circle_and_no_speed_is_below_zero(self) -> None:
        found = rewritten(Offsets((1750,), (-200, -300)), Track(90.0, 14.0), Track(300.0, 2.0))
        self.assertEqual(found.courses, (-350,))
        self.assertEqual(found.speeds, (-20,))

    def test_a_course_that_leaves_the_choices_is_not_offered(self) -> None:
        found = rewritten(Offsets((0, 150, 300), (0,)), Track(350.0, 14.0), Track(350.0, 14.0), without=(5.0,))
        self.assertEqual(found.courses, (0, 300))


class Escapes(unittest.TestCase):
    """Without a plan that keeps the rules, own ship holds the last plan while it leaves an escape, and then follows the
    escape."""

    def test_a_plan_is_held_if_continuing_leaves_an_escape(self) -> None:
        memory, _ = decide(Memory(), Answer(plan(20.0)), NOW, TRACK)
        _, held = decide(memory, Answer(cause=Cause.EVERY_PLAN_FAILS, escape=plan(20.0, 350.0, made=NOW + 60)),
                         NOW + 60, TRACK)
        self.assertEqual((held.state, held.course, held.promised, held.escaping), (State.HELD, 20.0, True, False))

    def test_the_escape_is_followed_if_continuing_leaves_none(self) -> None:
        memory, _ = decide(Memory(), Answer(plan(20.0)), NOW, TRACK)
        memory, away = decide(memory, Answer(cause=Cause.EVERY_PLAN_FAILS, escape=plan(80.0, made=NOW + 60)), NOW + 60,
                              TRACK)
        self.assertEqual((away.state, away.course, away.promised, away.escaping), (State.NONE, 80.0, False, True))
        self.assertEqual((memory.plan, memory.order), (None, Track(80.0, 14.0)))


class Areas(InFolder):
    SQUARE = Area("reef", (((0.0, 0.0), (0.0, 100.0), (100.0, 100.0), (100.0, 0.0), (0.0, 0.0)),
                           ((40.0, 40.0), (60.0, 40.0), (60.0, 60.0), (40.0, 60.0), (40.0, 40.0))))

    def test_a_path_enters_where_it_crosses_or_begins_inside_and_not_in_a_hole(self) -> None:
        for path, is_entered in (
            ([(-50.0, 50.0), (-10.0, 50.0)], False),
            ([(-50.0, 50.0), (150.0, 50.0)], True),
            ([(10.0, 10.0), (12.0, 12.0)], True),
            ([(45.0, 45.0), (55.0, 55.0)], False),
            ([(45.0, 45.0), (75.0, 50.0)], True),
            ([(-50.0, 150.0), (150.0, 150.0)], False),
        ):
            self.assertEqual(self.SQUARE.is_entered(path), is_entered, path)

    def test_a_file_without_areas_is_refused_by_name(self) -> None:
        scenario = PilotScenario.read(example("giving_way.toml"))
        for text, words in (("[", "not JSON"), ('{"type": "Point", "coordinates": [1, 2]}',
                                                "`Point` is not an area"), ('{"type": "Polygon"}', "a list is missing"),
                            ('{"type": "Polygon", "coordinates": [[[1, 2], [3, 4]]]}',
                             "fewer than three"), ("[" * 100000, "not JSON"),
                            ('{"type": "Polygon", "coordinates": [[[1, 2], [3, 400], [5, 6]]]}',
                             "not a longitude and a latitude")):
            path = self.write("areas.geojson", text)
            with self.assertRaisesRegex(Exception, "areas.geojson.*" + words):
                read_areas(path, scenario)


class Routes(InFolder):
    def route(self, text: str, speed: float | None = 12.0) -> Route:
        return read_route(self.write("route.csv", text), 0, 0, speed)

    def test_own_ship_turns_for_the_next_leg_at_its_waypoint_and_stays_on_the_last_one(self) -> None:
        # a minute of arc is 1852 m: three miles to the north, and then three to the east
        route = self.route("latitude,longitude,speed\n0,0,\n0.05,0,12\n0.05,0.05,8\n")
        self.assertEqual(route.track_at((0.0, 0.0)), Track(0.0, 12.0))
        self.assertEqual(route.track_at((0.0, 5300.0)).course, 0.0)
        # 150 m beside the second leg: the arc tangent of 1000 by 150
        self.assertEqual(route.track_at((0.0, 5556.0 - 150)), Track(81.5, 8.0))
        self.assertEqual(route.track_at((3000.0, 5556.0)), Track(90.0, 8.0))
        self.assertEqual(route.track_at((9000.0, 5556.0)), Track(90.0, 8.0))
        self.assertTrue(route.is_done)

    def test_off_the_line_she_steers_for_it(self) -> None:
        route = self.route("latitude,longitude\n0,0\n0.5,0\n")
        self.assertEqual(route.track_at((1000.0, 1000.0)).course, 315.0)
        self.assertEqual(route.track_at((-1000.0, 1000.0)).course, 45.0)

    def test_a_wrong_route_is_refused_with_its_line(self) -> None:
        for text, words in (
            ("latitude,longitude\n0,0\n91,0\n", "line 3"),
            ("a,b\n1,2\n", "line 2"),
            ("latitude,longitude\n0,0\n", "two waypoints"),
            ("latitude,longitude\n0,0\n0,0\n", "two waypoints"),
            ("latitude,longitude\n0,0\nnan,0\n", "line 3"),
        ):
            with self.assertRaisesRegex(Exception, "route.csv.*" + words):
                self.route(text)
        with self.assertRaisesRegex(Exception, "--speed"):
            self.route("latitude,longitude\n0,0\n1,1\n", None)


class Sentences(unittest.TestCase):
    def test_htc_has_thirteen_fields_and_the_right_sum(self) -> None:
        decision = Decision(State.MANOEUVRING, 60.0, 14.0)
        self.assertEqual(command_sentence(decision, 60.0),
                         "$INHTC,V,,,H,T,,,,60.0,60.0,,,T*%02X" % total(b"INHTC,V,,,H,T,,,,60.0,60.0,,,T"))
        self.assertEqual(len(command_sentence(decision, 60.0).split(",")), 14)

    def test_a_text_cannot_break_a_sentence(self) -> None:
        text = text_sentence(Decision(State.NONE, 60.0, 14.0, words="a,b*c$d\r\n\u00e9 <x>" + "z" * 200))
        self.assertRegex(text, r"^\$INTXT,01,01,04,none: a b c d    <x>z+\*[0-9A-F]{2}$")
        self.assertLessEqual(len(text), 82)


class Records(unittest.TestCase):
    def test_static_data_stays_after_its_line_is_dropped(self) -> None:
        lines = text_of(example("giving_way.log")).splitlines()
        record = Record(60)
        for k, line in enumerate(lines):
            record.take(line.encode(), NOW + 10 * k)
        late = NOW + 10 * len(lines)
        held = record.log(late - 60, late).splitlines()
        self.assertEqual(held[0].split(b"\\")[1], block(late - 60).split(b"\\")[1])
        self.assertLess(len(held), 16)
        self.assertGreaterEqual(len(held), 6)

    def test_lines_without_a_sentence_and_lines_too_long_are_counted(self) -> None:
        record = Record(60)
        for line in (b"", b"hello", b"\xff\xfe", b"!" + b"a" * 5000, b"!AIVDM,1,1,,A,,0*00", b"!AIVDM,2,2,,A,x,0*00",
                     b"!AIVDM"):
            record.take(line, NOW)
        self.assertEqual((record.unread, len(record.lines)), (3, 3))


class Answers:
    """A runner with a clock by which each run takes some seconds; it has no plan. It also acts as the clock:
    `monotonic` and `time`."""

    def __init__(self, seconds: float) -> None:
        self.seconds, self.now = seconds, 1000.0

    def monotonic(self) -> float:
        """Returns the seconds of the clock."""
        return self.now

    def time(self) -> float:
        """Returns the same as the time of day."""
        return self.now

    def report(self, mode: str, scenario: str, log: bytes, rows: str | None = None, why: bool = False,
               timeout: float = 60) -> Report:
        """Returns that every plan fails, after some seconds of the clock."""
        self.now += self.seconds
        return Report(1, "none,1,,,,,\n", "", self.seconds) if mode == "plan" else Report(0, "", "", self.seconds)


class Lateness(unittest.TestCase):
    def test_an_answer_that_takes_more_than_half_of_the_time_between_two_lines_is_late(self) -> None:
        # points, audit, plan, recheck and the escape: five runs per moment
        for seconds, is_late in ((2.9, False), (3.1, True)):
            runner = Answers(seconds)
            scenario = PilotScenario.read(example("giving_way.toml"))
            with unittest.mock.patch("colregs.pilot.live.time", runner):
                live = LivePilot(Pilot(scenario, Planner(scenario, runner), 3600), OneTrack(TRACK),
                                 Pace(30, 60, False), lambda moment: None)
                live.take(block(NOW) + sentence(class_a(200000031, (29000000, -74200000, 140, 0, 0, 0))))
                line = json.loads(line_of(live.moment()))
            self.assertEqual((line["late"], line["took"]), (is_late, 5 * seconds))
            self.assertEqual("late" in line["words"], is_late, line["words"])


@with_program
class Live(InFolder):
    TRACK = ["--track", "0,14", "--program", PROGRAM]

    def setUp(self) -> None:
        super().setUp()
        self.scenario = self.write("s.toml", text_of(example("giving_way.toml")))
        self.lines = [line for line in text_of(example("giving_way.log")).splitlines() if line]

    def pilot(self, *words: str, source: str = "", status: int = 0) -> list[dict[str, Any]]:
        """The lines of a run over a log whose times count."""
        done = self.tool("colregs-pilot", "s.toml", *(self.TRACK if "--route" not in words else self.TRACK[2:]),
                         "--replay", *words, source=source.encode())
        self.assertEqual(done[0], status, done[2])
        return [json.loads(line) for line in done[1].splitlines()]

    def test_the_plan_of_the_worked_example(self) -> None:
        found = self.pilot("--every", "60", source="\n".join(self.lines))[-1]
        # docs/BUILDER.md shows this plan for 180 s after the window's start, made once from the same scenario and log
        self.assertEqual((found["state"], found["course"], found["speed"]), ("manoeuvring", 60.0, 14.0))
        self.assertEqual({each["mmsi"]: each["name"]
                          for each in found["targets"]}, {200000032: "PINE", 200000033: "WILLOW"})
        self.assertEqual(found["targets"][0]["meeting"]["kind"] if found["targets"][0]["mmsi"] == 200000032 else
                         found["targets"][1]["meeting"]["kind"], "crossing_gives")

    def test_none_has_reasons_that_recheck_confirms(self) -> None:
        self.write("s.toml", text_of(self.scenario).replace("courses = [0, 150, 300, 450, 600]", "courses = [0, 50]"))
        found = self.pilot("--every", "60", source="\n".join(self.lines))[-1]
        self.assertEqual((found["cause"], found["reasons_checked"]), ("every_plan_fails", True))
        self.assertIn("r16", {each["rule"] for each in found["reasons"]["by_target"]})
        self.assertIn(found["state"], ("held", "none"))

    def test_a_scenario_that_the_program_refuses_gives_a_state(self) -> None:
        self.write("s.toml", text_of(self.scenario).replace("risk = 500", "risk = 0"))
        found = self.pilot("--every", "60", source="\n".join(self.lines))[-1]
        self.assertEqual((found["state"], found["cause"]), ("none", "scenario"))
        self.assertIn("scenario: detect.risk: range", found["words"])

    def test_rows_that_the_program_does_not_write_give_a_state(self) -> None:
        for rows, status, words in (("point,x,y\nmeeting,a\nvessel,,,,,,\nplan,x", 0, "rows as a plan"),
                                    ("why,99,9,9,9,9,9\nnone,1,,,,,", 1, "rows as reasons"), ("", 1, "no row `none`")):
            program = self.write("program", f"#!/bin/sh\ncat <<'END'\n{rows}\nEND\nexit {status}\n")
            os.chmod(program, 0o755)
            found = self.pilot("--every", "60", "--program", program, source="\n".join(self.lines))[-1]
            self.assertEqual((found["state"], found["cause"]), ("none", "program"))
            self.assertIn(words, found["words"])

    def test_an_own_ship_without_reports_is_not_ready(self) -> None:
        self.write("s.toml", text_of(self.scenario).replace("mmsi = 200000031 ", "mmsi = 200000030 "))
        found = self.pilot("--every", "60", source="\n".join(self.lines))[-1]
        self.assertEqual((found["state"], found["cause"]), ("own_unready", "own_unready"))

    def test_hostile_lines_change_nothing(self) -> None:
        hostile = [
            "!" * 3000, "\\c:99999999999999*00\\!AIVDM,1,1,,A,x,0*00", "\x00\x01", "\\c:1*",
            "!AIVDM,2,1,9,A,55555,0*00", "\\" * 50, "$GPGGA,,", ","
        ]
        mixed = [each for k, line in enumerate(self.lines) for each in (line, hostile[k % len(hostile)])]
        plain, found = (self.pilot("--every", "60", source="\n".join(lines)) for lines in (self.lines, mixed))
        self.assertEqual([each["course"] for each in found], [each["course"] for each in plain])
        self.assertEqual([each["state"] for each in found], [each["state"] for each in plain])

    def write_reef(self, *rings: list[tuple[float, float]]) -> None:
        """Writes an area, whose rings are metres from own ship's last report to the east and to the north."""
        own = [
            row.split(",")
            for row in self.program("points", self.scenario, example("giving_way.log")).splitlines()
            if row.startswith("point,200000031")
        ][-1]

        def place(east: float, north: float) -> list[float]:
            x, y = int(own[3]) / 10000 + east, int(own[4]) / 10000 + north
            return [(-74200000 + x / 1852 * 10000 / 0.6652) / 600000, (29000000 + y / 1852 * 10000) / 600000]
        self.write(
            "areas.geojson",
            json.dumps({
                "type": "Feature", "properties": {"name": "reef"},
                "geometry": {"type": "Polygon", "coordinates": [[place(*each) for each in ring] for ring in rings]}
            }))

    def test_an_area_all_around_own_ship_leaves_no_plan_and_is_named(self) -> None:
        square = [(-1.0, -1.0), (-1.0, 1.0), (1.0, 1.0), (1.0, -1.0)]
        self.write_reef([(3000 * x, 3000 * y) for x, y in square], [(1500 * x, 1500 * y) for x, y in square])
        found = self.pilot("--every", "60", "--no-go", "areas.geojson", source="\n".join(self.lines))[-1]
        self.assertEqual((found["state"], found["cause"], found["promised"]), ("none", "areas", False))
        self.assertIn("such as `reef`", found["words"])

    def test_a_plan_that_enters_an_area_is_not_used(self) -> None:
        # the plan of the example turns to 60 degrees; an area about the point 1.5 km ahead on that course bars it
        x, y = 1500 * 0.866, 1500 * 0.5
        self.write_reef([(x + a, y + b) for a, b in ((-200, -200), (-200, 200), (200, 200), (200, -200))])
        found = self.pilot("--every", "60", "--no-go", "areas.geojson", source="\n".join(self.lines))[-1]
        # plan 64 of docs/BUILDER.md's second question turns to 45 degrees, which the area bars too: what is left is a
        # larger or no turn, or none
        self.assertNotIn(found["course"], (45.0, 60.0))
        self.assertTrue(found["state"] == "manoeuvring" or "reef" in found["words"], found)

    def test_the_sentences_of_a_command_become_sentences_for_the_autopilot(self) -> None:
        self.write("in.log", "\n".join(self.lines) + "\n")
        done = self.tool("colregs-pilot", "s.toml", *self.TRACK, "--replay", "--every", "60", "--nmea", "--out",
                         "lines.json", "--command", f"cat {self.path('in.log')}")
        self.assertEqual(done[0], 0, done[2])
        lines = [json.loads(line) for line in text_of(self.path("lines.json")).splitlines()]
        sentences = done[1].split()
        self.assertEqual(len(sentences), 2 * len(lines))
        for line, command, words in zip(lines, sentences[::2], sentences[1::2]):
            self.assertTrue(command.startswith("$INHTC,") and f",{line['course']:.1f},,,T*" in command, command)
            self.assertTrue(words.startswith("$INTXT,") and line["state"] in words, words)
            for each in (command, words):
                body, _, checked = each[1:].partition("*")
                self.assertEqual(functools.reduce(lambda a, b: a ^ b, body.encode()), int(checked, 16), each)

    def test_a_route_with_a_turn_changes_the_track(self) -> None:
        self.write("route.csv", "latitude,longitude\n48.30,-123.6666667\n48.3333,-123.6666667\n48.3333,-123.5\n")
        found = self.pilot("--every", "60", "--route", "route.csv", "--speed", "14", source="\n".join(self.lines))
        # she begins 1290 m to the south of the second waypoint, and makes 432 m a minute at 14 knots: the next leg
        # begins within the third minute
        courses = [each["track"]["course"] for each in found]
        self.assertEqual(courses[:2], [0.0, 0.0])
        self.assertTrue(80 < courses[2] < courses[3] < 90, courses)
        self.assertEqual({each["track"]["speed"] for each in found}, {14.0})


class Child:
    """A pilot at work, with the pipes of its input and output."""

    def __init__(self, command: list[str], folder: str) -> None:
        self.run = subprocess.Popen(command, cwd=folder, stdin=subprocess.PIPE, stdout=subprocess.PIPE,
                                    stderr=subprocess.PIPE)
        assert self.run.stdin and self.run.stdout and self.run.stderr
        self.stdin: IO[bytes] = self.run.stdin
        self.stdout: IO[bytes] = self.run.stdout
        self.stderr: IO[bytes] = self.run.stderr

    def lines(self, count: int) -> list[dict[str, Any]]:
        """Returns the next lines that it writes."""
        return [json.loads(self.stdout.readline()) for _ in range(count)]

    def finish(self) -> None:
        """Kills it."""
        self.run.kill()
        self.run.wait()
        for pipe in (self.stdin, self.stdout, self.stderr):
            try:
                pipe.close()
            except OSError:
                pass            # the rest that was not written when it was killed


@with_program
class Going(InFolder):
    """The pilot as a process over a live stream."""

    def start(self, *words: str, program: str = PROGRAM) -> Child:
        text = text_of(example("giving_way.toml"))
        for old, new in (("tick = 10 ", "tick = 1 "), ("ticks = 18 ", "ticks = 60 "), ("gap = 60", "gap = 5")):
            text = text.replace(old, new)
        self.write("s.toml", text)
        command = [sys.executable, os.path.join(TOOLS, "colregs-pilot"), "s.toml", "--track", "0,14", "--every", "1"]
        child = Child([*command, "--program", program, *words], self.folder)
        self.addCleanup(child.finish)
        return child

    def feed(self, child: Child, seconds: int) -> None:
        """Yields own ship's reports, one per second of the clock."""
        for k in range(seconds):
            report = class_a(200000031, (29000000 + 25 * k, -74200000, 140, 0, 0, k % 60))
            child.stdin.write(block(int(time.time())) + sentence(report, b"AIVDO") + b"\n")
            child.stdin.flush()
            time.sleep(1)

    def test_a_stalled_input_is_stale_and_the_lines_continue(self) -> None:
        child = self.start("--stale", "2")
        self.feed(child, 4)
        found = child.lines(8)
        self.assertIn("clear", [each["state"] for each in found])
        self.assertEqual(found[-1]["state"], "stale")
        self.assertGreater(found[-1]["input_age"], 2)
        child.stdin.close()
        last = child.lines(2)[-1]
        self.assertIn("the input ended", last["words"])
        child.run.send_signal(signal.SIGTERM)
        self.assertEqual(child.run.wait(20), 0)

    def test_a_program_that_is_killed_or_hangs_gives_a_state(self) -> None:
        for body, words in (("kill -9 $$", "signal 9"), ("sleep 30", "no answer in"), ("exit 8", "status 8"),
                            ("echo plan,x", "rows as a plan")):
            program = self.write("program", "#!/bin/sh\n%s\n" % body)
            os.chmod(program, 0o755)
            child = self.start(program=program)
            self.feed(child, 2)
            found = child.lines(3)[-1]
            self.assertEqual((found["state"], found["cause"]), ("none", "program"), found)
            self.assertIn(words, found["words"])
            child.finish()

    def test_a_stream_without_times_says_what_to_do(self) -> None:
        child = self.start()
        child.stdin.write(sentence(class_a(200000031, (29000000, -74200000, 140, 0, 0, 0))) + b"\n")
        child.stdin.flush()
        found = child.lines(2)[-1]
        self.assertEqual(found["state"], "stale")
        self.assertIn("--now", found["words"])


@with_program
class Library(InFolder):
    def test_a_call_of_the_library_gives_the_report_of_the_process(self) -> None:
        text, log = text_of(example("giving_way.toml")), text_of(example("giving_way.log")).encode()
        process, call = ProcessRunner(PROGRAM), LibraryRunner(functools.partial(library.report, program=PROGRAM))
        self.addCleanup(process.close)
        few = text.replace("courses = [0, 150, 300, 450, 600]", "courses = [0]")
        refused = text.replace("risk = 500", "risk = 0")
        runners: tuple[Runner, Runner] = process, call
        for mode, scenario, why in (("plan", text, False), ("plan", few, True), ("audit", text, False),
                                    ("points", refused, False)):
            one, two = (runner.report(mode, scenario, log, why=why) for runner in runners)
            self.assertEqual((one.status, one.text, one.words), (two.status, two.text, two.words))
        reasons = process.report("plan", few, log, why=True).text
        self.assertEqual([runner.report("recheck", few, log, rows=reasons).status for runner in runners], [0, 0])

    def test_a_call_that_fails_or_hangs_returns_a_status(self) -> None:
        def hangs(*_: object, **more: object) -> types.SimpleNamespace:
            time.sleep(1)
            return types.SimpleNamespace(status=0, text=b"", fault="")

        def fails(*_: object, **more: object) -> NoReturn:
            raise MemoryError("memory")
        for call, words in ((hangs, "no answer"), (fails, "memory")):
            self.assertIn(words, status_words(LibraryRunner(call).report("plan", "", b"", timeout=0.1)))
