"""Sea trials: reproducible runs, the counts, and the page."""
import json
import math
import os
import random
import unittest
from dataclasses import replace
from typing import Any

import browser
from given import InFolder, PROGRAM, example, text_of, with_program
from colregs.pilot.runner import ProcessRunner, Report, Runner
from colregs.pilot.scenario import PilotScenario
from colregs.pilot.states import Track
from colregs.trials.meetings import KINDS, Begin, drawn
from colregs.trials.page import page
from colregs.trials.ships import CLASS_B, Plane, Ship, Transmitter
from colregs.trials.summary import groups_of, quartiles, rows_of
from colregs.trials.trial import Breach, Fix, Result, Setting, Trial
from colregs.pilot.motion import KNOT, Rates, moved

SCENARIO = example("giving_way.toml")
OWN = Track(0.0, 14.0)


def result(seed: int = 1, least: float = 1000.0, **more: Any) -> Result:
    """Returns a run in which nothing happened, except the given values."""
    other = Begin(200000100, "OTHER 1", 100, (0.0, 9000.0), Track(180.0, 14.0), "head_on")
    return replace(Result(seed, "head_on", [other], least=least, room=least - 400, replans=10, length=100), **more)


class Drawing(unittest.TestCase):
    def test_all_others_of_a_kind_come_near_and_start_beyond_the_watch_or_the_horizon(self) -> None:
        scenario = PilotScenario.read(SCENARIO)
        for kind in KINDS:
            for seed in range(30):
                _, others = drawn(scenario, OWN, (kind,), (1, 3), random.Random(seed))
                for other in others:
                    self.assertEqual(other.kind, kind)
                    self.assertTrue(
                        KINDS[kind].courses[0] <= (other.track.course + 20) % 360 - 20 <= KINDS[kind].courses[1], other)
                    least = min(
                        math.dist(moved((0.0, 0.0), OWN, second), moved(other.place, other.track, second))
                        for second in range(0, 7200, 5))
                    self.assertLess(least, 1000)
                    self.assertGreater(math.hypot(*other.place), min(scenario.watch, 900 * 0.2 * 14 * KNOT))

    def test_a_ship_turns_and_slows_as_fast_as_she_can(self) -> None:
        ship = Ship(200000100, "A", 100, (0.0, 0.0), Track(350.0, 14.0), Rates(1.0, 0.1))
        ship.order = Track(20.0, 12.0)
        for _ in range(10):
            ship.step()
        self.assertAlmostEqual(ship.state.course, 0.0)
        self.assertAlmostEqual(ship.state.speed, 13.0)
        for _ in range(30):
            ship.step()
        self.assertEqual(ship.state, Track(20.0, 12.0))


@with_program
class Reports(InFolder):
    def test_the_program_reads_what_a_ship_sends(self) -> None:
        scenario = PilotScenario.read(SCENARIO)
        ship = Ship(200000100, "A <b>", 100, (1500.0, -800.0), Track(33.0, 12.3), Rates(1.0, 0.1))
        sender = Transmitter(ship, Plane(scenario.latitude, scenario.longitude), CLASS_B, random.Random(1))
        lines, places = [], {}
        for second in range(150):
            lines += [sent.line for sent in sender.lines(second, 1700000000)]
            places[1700000000 + second] = ship.place
            ship.step()
        rows = self.program("points", SCENARIO, self.write("log",
                                                           b"".join(line + b"\n" for line in lines))).splitlines()
        points = [row.split(",") for row in rows if row.startswith("point")]
        self.assertGreaterEqual(len(points), 2)
        for point in points:
            # five seconds late at most is 32 m at 12.3 knots; the wandering error of place is 8 m by its standard
            # deviation
            self.assertLess(math.dist((int(point[3]) / 10000, int(point[4]) / 10000), places[int(point[2])]), 32 + 40)
            self.assertLess(abs(int(point[5]) - 123), 12)
            self.assertLess(abs(int(point[6]) - 330), 150)


@with_program
class Same(InFolder):
    def trials(self, *words: str, status: int = 0) -> str:
        done = self.within("colregs-trials", SCENARIO, "--program", PROGRAM, "--runs", "2", "--seed", "7", "--kinds",
                           "head_on,crossing_gives", *words)
        self.assertEqual(done[0], status, done[2])
        return done[1]

    def test_a_run_by_its_seed_gives_the_same_bytes(self) -> None:
        for words in ((), ("--others", "planning"), ("--others", "contrary", "--noise", "--sluggish")):
            rows, values, logs = [], [], []
            for jobs, name in (("1", "a"), ("2", "b")):
                rows.append(self.trials(*words, "--jobs", jobs, "--json", name + ".json", "--logs", name))
                told = json.loads(text_of(self.path(name + ".json")))
                times = told.pop("measured")
                self.assertEqual(times["plans"], sum(run["replans"] for run in told["runs"]))
                self.assertEqual([(each["kind"], each["others"], each["plans"]) for each in times["groups"]],
                                 [(each["kind"], each["others"], each["replans"]) for each in told["groups"]])
                values.append(json.dumps(told))
                logs.append(
                    {each: text_of(self.path(os.path.join(name, each))) for each in sorted(os.listdir(self.path(name)))}
                )
            self.assertEqual(rows[0], rows[1])
            self.assertEqual(values[0], values[1])
            self.assertEqual(logs[0], logs[1])
            self.assertEqual(len(logs[0]), 2)

    def test_the_pilot_over_the_log_of_a_run_repeats_its_decisions(self) -> None:
        # the pilot reads own ship's reports by `points`, and cuts its windows at each line; a run knows what was sent,
        # and cuts none so short
        for words in (["--targets", "2"], ["--targets", "2", "--noise"]):
            self.trials(*words, "--runs", "1", "--json", "run.json", "--logs", "logs")
            run = json.loads(text_of(self.path("run.json")))["runs"][0]
            log = os.path.join("logs", f"{run['kind']}_7.log")
            done = self.within("colregs-pilot", SCENARIO, "--program", PROGRAM, "--track", "000,14", "--every", "60",
                               "--replay", "--log", log)
            self.assertEqual(done[0], 0, done[2])
            said = [[line["state"], line["course"], line["speed"]] for line in map(json.loads, done[1].splitlines())]
            self.assertEqual(said[:len(run["states"])], [state[1:] for state in run["states"]])
            self.assertGreater(len(said), 10)

    def test_a_seed_alone_gives_the_same_run_as_among_others(self) -> None:
        self.trials("--json", "two.json")
        self.trials("--json", "one.json", "--runs", "1", "--seed", "8")
        two, one = (json.loads(text_of(self.path(name)))["runs"] for name in ("two.json", "one.json"))
        self.assertEqual(one[0], two[1])

    def test_a_program_that_is_killed_is_named_and_the_status_says_so(self) -> None:
        program = self.write("program", "#!/bin/sh\nkill -9 $$\n")
        os.chmod(program, 0o755)
        done = self.within("colregs-trials", SCENARIO, "--program", program, "--runs", "1")
        self.assertEqual(done[0], 1)
        self.assertIn("signal 9", done[2])

    def test_wrong_arguments_are_refused(self) -> None:
        for words in (
            ["--targets", "0"],
            ["--targets", "4..1"],
            ["--kinds", "x"],
            ["--runs", "0"],
            ["--track", "x"],
            ["--others", "none"],
        ):
            with self.assertRaises(AssertionError):
                self.trials(*words)
        self.assertEqual(self.within("colregs-trials", "none.toml", "--program", PROGRAM)[0], 1)

    def test_two_vessels_without_plans_collide(self) -> None:
        # a pilot that may only keep course is not a pilot: the measure must show that it fails
        values = PilotScenario.read(SCENARIO).with_own(courses=[0], speeds=[0])
        other = Begin(200000100, "OTHER 1", 100, (0.0, 14 * KNOT * 2 * 700), Track(180.0, 14.0), "head_on")
        runner = ProcessRunner(PROGRAM)
        self.addCleanup(runner.close)
        barred = PilotScenario({**values.values, "pilot": {"stages": [{"courses": [0], "speeds": [0]}]}})
        found = Trial(barred, BlindRunner(runner), Setting(begins=(other,), label="fixed"), 1).run()
        self.assertEqual((found.collided, found.entered), ([200000100], [200000100]))
        self.assertLess(found.least, 15)
        self.assertIn("r14a", {breach.rule for breach in found.broken})


class BlindRunner:
    """A runner without escapes: it answers a question without rules that every plan fails."""

    def __init__(self, runner: Runner) -> None:
        self.runner = runner

    def report(self, mode: str, scenario: str, log: bytes, rows: str | None = None, why: bool = False,
               timeout: float = 60) -> Report:
        """Returns the report, but no escape."""
        found = self.runner.report(mode, scenario, log, rows, why, timeout)
        return type(found)(1, "none,1,,,,,\n", "", 0.0) if mode == "plan" and '"watch" = 1\n' in scenario else found


class Summaries(unittest.TestCase):
    def test_quartiles_are_values_of_the_runs(self) -> None:
        self.assertEqual(quartiles([5, 1, 4, 2, 3]), (1, 2, 3, 4, 5))
        self.assertEqual(quartiles([7]), (7, 7, 7, 7, 7))

    def test_shares_count_replans_and_runs(self) -> None:
        group = groups_of([
            result(1, none=1),
            result(2, entered=[200000100]),
            result(3, collided=[200000100], entered=[200000100]),
            result(4, lapsed=2)
        ])[0]
        self.assertEqual((group.runs, group.replans, group.none_share, group.collisions, group.domains, group.lapsed),
                         (4, 40, 2.5, 1, 2, 2))
        self.assertEqual(len(rows_of([group]).splitlines()[1].split(",")),
                         len(rows_of([group]).splitlines()[0].split(",")))


@unittest.skipUnless(browser.installed(), "chromium is not installed")
class Pages(InFolder):
    def test_a_name_with_markup_stays_a_name_and_the_page_uses_no_network(self) -> None:
        name = "</script><img src=x onerror=document.title='taken'>"
        made = result(9, fixes=[Fix(0, [(0, 0), (0, 9000)]), Fix(10, [(0, 70), (0, 8900)])],
                      states=[(0, "clear", 0.0, 14.0)], broken=[Breach("r14a", 200000100, 0, 0, True)])
        made.others = [Begin(200000100, name, 100, (0.0, 9000.0), Track(180.0, 14.0), "head_on")]
        path = self.write("trials.html",
                          page("Trials of <x>", "about", PilotScenario.read(SCENARIO), [made], [made], []))
        with browser.Browser() as tab:
            tab.open(path)
            self.assertEqual(tab.value("document.querySelector('#others tr:nth-child(2) td').textContent"), name)
            self.assertEqual(tab.value("document.title"), "Trials of <x>")
            self.assertIn(f"r14a towards {name} broken", tab.value("document.getElementById('words').textContent"))
            self.assertEqual(tab.value("document.getElementById('legend').textContent"),
                             "cleara rule is broken (line below)")
            # the slider begins where the two are nearest
            self.assertEqual(tab.value("document.getElementById('slider').value"), "1")
            tab.value("const s = document.getElementById('slider'); s.value = 0; s.dispatchEvent(new Event('input')); "
                      "1")
            self.assertIn("0 s: clear", tab.value("document.getElementById('clock').textContent"))
            self.assertEqual(tab.value("document.querySelectorAll('img').length"), 0)
            self.assertEqual(tab.errors, [])
            self.assertEqual([address for address in tab.asked if not address.startswith("file:")], [])
