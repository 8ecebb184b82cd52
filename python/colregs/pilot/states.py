"""The pilot's decisions: turns an answer of the program into the next course and speed to steer.

All functions are pure: `decide` takes the memory, an answer, the time and the track, and returns the next memory and
the decision.
"""
from __future__ import annotations

from dataclasses import dataclass, replace
from enum import Enum


class State(str, Enum):
    """The state of the pilot, shown to users."""

    CLEAR = "clear"                # the plan is to stay on the track
    MANOEUVRING = "manoeuvring"    # the plan leaves the track
    HELD = "held"                  # no new plan, but the promise of the last one still lasts
    NONE = "none"                  # no new plan, and no promise is left
    OWN_UNREADY = "own_unready"    # own ship's reports are not enough for a plan
    STALE = "stale"                # no new input


class Cause(str, Enum):
    """Why there is no new plan."""

    EVERY_PLAN_FAILS = "every_plan_fails"
    AREAS = "areas"                # each plan that the program offers enters a no-go area
    OWN_UNREADY = "own_unready"
    STALE = "stale"
    SCENARIO = "scenario"          # the program refuses the scenario
    PROGRAM = "program"            # the program is missing, was killed, or gave no answer in time
    LIMIT = "limit"                # the log or the targets exceed a limit of the program


@dataclass(frozen=True)
class Track:
    """The course (degrees) and the speed (knots) that own ship wants."""

    course: float
    speed: float


@dataclass(frozen=True)
class Leg:
    """A course (degrees) and a speed (knots) from one time to another, in seconds since the Unix epoch."""

    course: float
    speed: float
    begins: int
    ends: int


@dataclass(frozen=True)
class Plan:
    """A plan of the program: its number, its time, and its legs. Each leg begins at the end of the one before."""

    number: int
    made: int
    legs: tuple[Leg, ...]

    @property
    def until(self) -> int:
        """Returns the end of the plan's promise, in seconds since the Unix epoch."""
        return self.legs[-1].ends

    def leg_at(self, now: int) -> Leg | None:
        """Returns the leg to steer at a time, or None if the plan is over."""
        return next((leg for leg in self.legs if now < leg.ends), None)

    def keeps_to(self, track: Track) -> bool:
        """Returns whether each leg orders the track's course and speed, to a tenth."""
        return all(orders(leg, track) for leg in self.legs)


@dataclass(frozen=True)
class Reason:
    """Why all plans that begin with these courses (degrees) and speeds (knots) fail: a target and a domain or a rule,
    at a time."""

    courses: tuple[float, ...]
    speeds: tuple[float, ...]
    target: int
    rule: str
    time: int


@dataclass(frozen=True)
class Answer:
    """The answer to one question: a plan, or the cause why there is none, with a text for the reader."""

    plan: Plan | None = None
    cause: Cause | None = None
    words: str = ""
    reasons: tuple[Reason, ...] = ()
    checked: bool | None = None        # whether `recheck` confirms the reasons; None if it did not run
    escape: Plan | None = None         # if there is no plan: one that enters no domain, but may break rules
    asked: int = 1                     # the number of runs of the program


@dataclass(frozen=True)
class Memory:
    """The pilot's memory from one moment to the next: the last plan, and the last course and speed that it ordered."""

    plan: Plan | None = None
    order: Track | None = None


@dataclass(frozen=True)
class Decision:
    """The pilot's decision at a moment. `held_for` is the number of seconds for which a held promise still lasts."""

    state: State
    course: float
    speed: float
    legs: tuple[Leg, ...] = ()
    cause: Cause | None = None
    words: str = ""
    held_for: int | None = None
    reasons: tuple[Reason, ...] = ()
    checked: bool | None = None
    promised: bool = False             # whether a plan with a promise has this course and speed
    # whether a plan that keeps out of all domains, but breaks a rule, has this course and speed
    escaping: bool = False


def swing(before: float, after: float) -> float:
    """Returns the turn from one course to another in degrees, from -180 to less than 180; starboard is positive."""
    return (after - before + 180) % 360 - 180


def decide(memory: Memory, answer: Answer, now: int, track: Track) -> tuple[Memory, Decision]:
    """Returns the next memory and the decision at `now`, in seconds since the Unix epoch.

    The pilot follows a new plan. Without one it follows the last plan while its promise lasts. If that would leave no
    path out of all domains, or no promise is left, it follows the escape if there is one, and otherwise holds the last
    ordered course and speed.
    """
    if answer.plan is not None:
        return followed(answer, answer.plan, now, track)
    held = held_order(memory, now)
    if answer.escape is not None and not (held is not None and orders(answer.escape.legs[0], held)):
        return escaped(answer, answer.escape, now)
    last = held or memory.order or track
    decision = Decision(unplanned_state(answer.cause, held is not None), last.course, last.speed, cause=answer.cause,
                        words=answer.words, reasons=answer.reasons, checked=answer.checked, promised=held is not None)
    if held is None or memory.plan is None:
        return Memory(None, last), decision
    ahead = tuple(each for each in memory.plan.legs if now < each.ends)
    return Memory(memory.plan, last), replace(decision, legs=ahead, held_for=memory.plan.until - now)


def held_order(memory: Memory, now: int) -> Track | None:
    """Returns the course and speed that the last plan orders at a time, or None if its promise is over."""
    leg = memory.plan.leg_at(now) if memory.plan is not None else None
    return Track(leg.course, leg.speed) if leg is not None else None


def orders(leg: Leg, track: Track) -> bool:
    """Returns whether a leg orders a course and a speed, to a tenth."""
    return abs(swing(leg.course, track.course)) < 0.06 and abs(leg.speed - track.speed) < 0.06


def escaped(answer: Answer, escape: Plan, now: int) -> tuple[Memory, Decision]:
    """Returns the memory and the decision if only a plan that breaks a rule is left, which keeps out of all domains.
    """
    leg = escape.leg_at(now) or escape.legs[0]
    decision = Decision(unplanned_state(answer.cause, False), leg.course, leg.speed, escape.legs, cause=answer.cause,
                        words=answer.words, reasons=answer.reasons, checked=answer.checked, escaping=True)
    return Memory(None, Track(leg.course, leg.speed)), decision


def followed(answer: Answer, plan: Plan, now: int, track: Track) -> tuple[Memory, Decision]:
    """Returns the memory and the decision if there is a new plan."""
    leg = plan.leg_at(now) or plan.legs[-1]
    state = State.CLEAR if plan.keeps_to(track) else State.MANOEUVRING
    decision = Decision(state, leg.course, leg.speed, plan.legs, words=answer.words, promised=True)
    return Memory(plan, Track(leg.course, leg.speed)), decision


def unplanned_state(cause: Cause | None, has_promise: bool) -> State:
    """Returns the state if there is no new plan. Stale input and an own ship that is not ready come first, even while a
    promise lasts."""
    if cause is Cause.STALE:
        return State.STALE
    if cause is Cause.OWN_UNREADY:
        return State.OWN_UNREADY
    return State.HELD if has_promise else State.NONE
