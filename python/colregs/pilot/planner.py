"""Asks the program for a plan at one moment, and reads its answer."""
from __future__ import annotations

import time
from collections.abc import Callable
from dataclasses import dataclass, replace

from colregs.pilot.choices import Choices, rewritten, widened
from colregs.pilot.motion import Place
from colregs.pilot.runner import Report, Runner, status_words
from colregs.pilot.scenario import PilotScenario, Stage, Window
from colregs.pilot.states import Answer, Cause, Leg, Plan, Reason, Track

LEAST_WAIT = 0.2       # s: the least time for a run, even if the time for an answer is nearly over
# by status (docs/REPORT.md)
CAUSES = {1: Cause.EVERY_PLAN_FAILS, 3: Cause.SCENARIO, 7: Cause.LIMIT, 9: Cause.OWN_UNREADY}


@dataclass(frozen=True)
class Question:
    """A request for a plan at a moment.

    `reported` has the course and speed of own ship's latest report, if it has both; `holding` is what she steers.
    """

    window: Window
    log: bytes
    track: Track
    reported: Track | None
    holding: Track | None = None
    seconds: float = 60            # the time limit of the answer
    place: Place | None = None     # own ship's place in metres on the plane


class Patience:
    """The time left for an answer."""

    def __init__(self, seconds: float) -> None:
        """Starts with `seconds`."""
        self.end = time.monotonic() + seconds

    def left(self) -> float:
        """Returns the seconds that the next run may take."""
        return max(LEAST_WAIT, self.end - time.monotonic())


Barrier = Callable[[Plan, Question], str]
"""Returns the name of the area that a plan enters, or an empty text."""


def read_plan(report: Report, window: Window) -> Plan | None:
    """Returns the plan of a report, or None if its rows are not a plan."""
    rows = report.rows("plan")
    try:
        legs = tuple(
            Leg(
                int(row[3]) / 10,
                int(row[4]) / 10, window.start + int(row[5]) * window.tick, window.start + int(row[6]) * window.tick)
            for row in rows)
        return Plan(int(rows[0][1]), window.ends, legs)
    except (IndexError, ValueError):
        return None


def read_reasons(report: Report, choices: Choices, reported: Track, window: Window) -> tuple[Reason, ...]:
    """Returns the reasons of a report of `plan --why`. The number of a choice is the index of its course times the
    number of speeds, plus the index of its speed."""
    found = []
    for row in report.rows("why"):
        numbers = [divmod(int(number), len(choices.speeds)) for number in row[1].split(".")]
        found.append(
            Reason(tuple((round(reported.course * 10) + choices.courses[course]) % 3600 / 10 for course, _ in numbers),
                   tuple((round(reported.speed * 10) + choices.speeds[speed]) / 10 for _, speed in numbers),
                   int(row[2]), row[3], window.start + int(row[4]) * window.tick))
    return tuple(found)


class Planner:
    """Asks a runner for plans of one scenario."""

    def __init__(self, scenario: PilotScenario, runner: Runner, barrier: Barrier | None = None) -> None:
        """`barrier` finds the area that a plan enters; None without areas."""
        self.scenario, self.runner, self.barrier = scenario, runner, barrier

    def ask(self, question: Question, recheck: bool = True) -> Answer:
        """Returns the first plan of the first stage that has one. Otherwise returns the cause, with an escape if there
        is one."""
        patience, answer, asked = Patience(question.seconds), Answer(cause=Cause.EVERY_PLAN_FAILS), 0
        for stage in self.scenario.stages:
            answer = self.ask_stage(question, stage, patience, recheck)
            asked += answer.asked
            if answer.plan is not None or answer.cause not in (Cause.EVERY_PLAN_FAILS, Cause.AREAS):
                return replace(answer, asked=asked)
        return replace(answer, escape=self.escape(question, patience), asked=asked + 1)

    def ask_stage(self, question: Question, stage: Stage, patience: Patience, recheck: bool) -> Answer:
        """Returns the first plan of a stage that enters no area, or the cause why there is none.

        If a plan enters an area, this removes the course of its first leg from the choices and asks the program again.
        """
        without, area = list[float](), ""
        while True:
            answer = self.ask_once(question, stage, tuple(without), patience, recheck)
            if answer is None:
                return Answer(cause=Cause.AREAS, words="every course enters an area such as " + area,
                              asked=len(without))
            answer = replace(answer, asked=len(without) + 1)
            if answer.plan is None:
                return self.without_areas(answer, area)
            entered = self.barrier(answer.plan, question) if self.barrier else ""
            if not entered:
                return answer
            area = entered
            without.append(answer.plan.legs[0].course)

    def without_areas(self, answer: Answer, area: str) -> Answer:
        """Returns an answer without a plan, with the area as its cause if areas removed courses from the choices."""
        if not area or answer.cause is not Cause.EVERY_PLAN_FAILS:
            return answer
        return replace(answer, cause=Cause.AREAS, words="every plan that avoids areas such as %s fails" % area)

    def ask_once(self, question: Question, stage: Stage, without: tuple[float, ...], patience: Patience,
                 recheck: bool) -> Answer | None:
        """Returns the program's answer without some courses of the first leg, or None if no course is left."""
        # without a report, the program answers that own ship is not ready
        reported = question.reported or question.track
        choices = rewritten(stage.offsets, question.track, reported, without)
        if not choices.courses:
            return None
        scenario = self.scenario.text(question.window, choices, stage)
        report = self.runner.report("plan", scenario, question.log, why=True, timeout=patience.left())
        if report.status == 0:
            plan = read_plan(report, question.window)
            return Answer(plan) if plan else Answer(cause=Cause.PROGRAM, words="cannot read the rows as a plan")
        cause = CAUSES.get(report.status, Cause.PROGRAM)
        if cause is not Cause.EVERY_PLAN_FAILS:
            return Answer(cause=cause, words=status_words(report))
        if not report.rows("none"):
            return Answer(cause=Cause.PROGRAM, words="the program ended with status 1 and no row `none`")
        return self.refusal(question, report, choices, reported, scenario, patience if recheck else None)

    def refusal(self, question: Question, report: Report, choices: Choices, reported: Track, scenario: str,
                patience: Patience | None) -> Answer:
        """Returns the answer that every plan fails, with the reasons. `recheck` confirms them if there is time left.
        """
        checked = None
        if patience is not None:
            again = self.runner.report("recheck", scenario, question.log, rows=report.text, timeout=patience.left())
            checked = {0: True, 10: False}.get(again.status)
        words = "every plan fails: %d courses and %d speeds for a leg" % (len(choices.courses), len(choices.speeds))
        try:
            reasons = read_reasons(report, choices, reported, question.window)
        except (IndexError, ValueError):
            return Answer(cause=Cause.PROGRAM, words="cannot read the rows as reasons")
        return Answer(cause=Cause.EVERY_PLAN_FAILS, words=words, reasons=reasons, checked=checked)

    def escape(self, question: Question, patience: Patience) -> Plan | None:
        """Returns a plan that enters no domain and no area, but may break any rule; or None. It tries the present
        course and speed first."""
        stage = self.scenario.stages[-1]
        reported = question.reported or question.track
        without = list[float]()
        while True:
            choices = rewritten(widened(stage.offsets, question.track, question.holding), question.track, reported,
                                without)
            if not choices.courses:
                return None
            scenario = self.scenario.text(question.window, choices, stage, has_rules=False)
            report = self.runner.report("plan", scenario, question.log, timeout=patience.left())
            plan = read_plan(report, question.window) if report.status == 0 else None
            if plan is None or self.barrier is None or not self.barrier(plan, question):
                return plan
            without.append(plan.legs[0].course)
