"""One run: own ship follows her pilot among other ships in simulated time, and the program audits the whole run."""
from __future__ import annotations

import math
import random
import time
from collections import Counter
from dataclasses import dataclass, field

from colregs.pilot.motion import KNOT, Rates, velocity
from colregs.pilot.pilot import Pilot
from colregs.pilot.planner import Patience, Planner
from colregs.pilot.record import Record
from colregs.pilot.runner import Report, Runner, status_words
from colregs.pilot.scenario import PilotScenario, Window, whole
from colregs.pilot.states import Cause, Decision, State, Track, swing
from colregs.trials.meetings import OWN_LENGTH, Begin, drawn
from colregs.trials.ships import CLASS_A, CLASS_B, EXACT, Errors, Plane, Sent, Ship, Transmitter

START = 1700000040         # the start of each run, in seconds since the Unix epoch: a full minute
WARM = 60                  # s: own ship's pilot begins after all ships have reported
MOST = 7200                # s: no run is longer
AFTER = 180                # s: a run ends this long after own ship has passed all others and is on her track again
HISTORY = 3600             # s
FIX_EVERY = 10             # s between two places of a run in pictures
PATIENCE = 600             # s elapsed: simulated time stands still while the program plans
OTHERS = "straight", "planning", "contrary"


@dataclass(frozen=True)
class Setting:
    """The settings of runs: everything but the seed."""

    kinds: tuple[str, ...] = ("any",)
    targets: tuple[int, int] = (1, 1)
    others: str = "straight"
    noise: bool = False
    sluggish: bool = False
    every: int = 60                    # s between two plans
    track: Track = Track(0.0, 14.0)
    begins: tuple[Begin, ...] = ()     # fixed others instead of drawn ones,
    label: str = ""                    # and the kind of the run


@dataclass
class Fix:
    """All positions at a moment, for pictures: seconds after the start, and places in whole metres, own ship's first.
    """

    second: int
    places: list[tuple[int, int]]


@dataclass
class Breach:
    """A rule that own ship broke in the audit of the whole run; `planned` is true if she followed a new plan when the
    breach began."""

    rule: str
    other: int
    first: int
    last: int
    planned: bool


@dataclass
class Result:
    """The result of a run. Distances are in metres, times in seconds after the start."""

    seed: int
    kind: str
    others: list[Begin] = field(default_factory=list)
    least: float = math.inf
    nearest: int = 0
    room: float = math.inf             # the least distance from the edge of a domain; negative inside
    collided: list[int] = field(default_factory=list)
    entered: list[int] = field(default_factory=list)
    replans: int = 0
    none: int = 0                      # answers that every plan fails
    held: int = 0                      # moments at which own ship held an old plan
    lapsed: int = 0                    # moments without a plan and after the end of the last promise
    escapes: int = 0                   # those of them at which a plan breaks a rule but keeps out of all domains
    other_causes: int = 0              # moments without a plan for other causes
    turns: int = 0                     # moments at which the course to steer changed
    first_turn: float | None = None    # degrees of the first course off the track, starboard positive
    manoeuvred: bool = False
    broken: list[Breach] = field(default_factory=list)
    meetings: list[tuple[int, str]] = field(default_factory=list)
    reasons: dict[str, int] = field(default_factory=dict)
    way_lost: float = 0.0              # metres that she is behind along the track
    off_track: float = 0.0             # metres beside the track at the end
    length: int = 0                    # seconds
    fault: str = ""
    fixes: list[Fix] = field(default_factory=list)
    states: list[tuple[int, str, float, float]] = field(default_factory=list)
    log: bytes = b""
    # elapsed seconds of each plan: measured, and different each time
    seconds: list[float] = field(default_factory=list)

    @property
    def badness(self) -> tuple[bool, bool, int, int, int, float]:
        """Returns the sort key of the worst runs: collisions, domains, lapses, rules, then the least room."""
        return bool(self.collided), bool(self.entered), self.lapsed, len(self.broken), self.none, -self.room


class Sailor:
    """A ship with a pilot."""

    def __init__(self, ship: Ship, pilot: Pilot, wanted: Track) -> None:
        """`wanted` is the track that she wants."""
        self.ship, self.pilot, self.wanted = ship, pilot, wanted
        self.decision: Decision | None = None

    def plan(self, record: Record, now: int, reported: Track | None) -> Decision:
        """Returns the pilot's decision at a time. `reported` is from her latest report."""
        self.pilot.shorten(record, now, Patience(PATIENCE))
        self.decision = self.pilot.step(record, now, self.wanted, reported, PATIENCE, recheck=False)
        return self.decision

    def steer(self, now: int) -> None:
        """Steers by the last decision at a time."""
        if self.decision is None:
            return
        leg = next((leg for leg in self.decision.legs if now < leg.ends), None)
        if leg is not None:
            self.ship.order = Track(leg.course, leg.speed)
        elif self.decision.legs:
            self.ship.order = self.wanted
        else:
            self.ship.order = Track(self.decision.course, self.decision.speed)


class Wrong:
    """One of the others who turns the wrong way: at a moment, to a course."""

    def __init__(self, ship: Ship, until_nearest: float, draw: random.Random) -> None:
        """Draws the moment, between a third and nine tenths of the time to the closest approach, and a turn: mostly to
        port, seldom to starboard."""
        self.ship, self.at = ship, round(until_nearest * draw.uniform(0.35, 0.9))
        turn = draw.uniform(20, 60) * (-1 if draw.random() < 0.8 else 1)
        self.course = (ship.state.course + turn) % 360

    def steer(self, second: int) -> None:
        """Turns her at the moment."""
        if second == self.at:
            self.ship.order = Track(self.course, self.ship.state.speed)


class Trial:
    """One run with its seed."""

    def __init__(self, scenario: PilotScenario, runner: Runner, setting: Setting, seed: int,
                 pictured: bool = False) -> None:
        """Draws the run. Each source of random numbers has its own seed, so that noise changes no encounter."""
        self.scenario, self.runner, self.setting, self.seed, self.pictured = scenario, runner, setting, seed, pictured
        kind, begins = setting.label, list(setting.begins)
        if not begins:
            kind, begins = drawn(scenario, setting.track, setting.kinds, setting.targets,
                                 random.Random(f"{seed} meetings"))
        self.result = Result(seed, kind, begins)
        self.record, self.plane = Record(HISTORY + scenario.gap), Plane(scenario.latitude, scenario.longitude)
        self.noise = random.Random(f"{seed} noise")
        self.rates = Rates(scenario.turn_rate / 10 / scenario.tick, scenario.speed_rate / 10 / scenario.tick)
        self.own = self.make_own()
        self.ships = [self.own.ship] + [
            Ship(begin.mmsi, begin.name, begin.length, begin.place, begin.track, self.rates) for begin in begins
        ]
        self.senders = [
            Transmitter(ship, self.plane, self.errors(ship is self.own.ship), self.noise) for ship in self.ships
        ]
        self.sailors = [self.own] + (self.make_sailors() if setting.others == "planning" else [])
        self.wrong = self.make_wrong(random.Random(f"{seed} contrary")) if setting.others == "contrary" else []
        self.domains = [(ship, self.radius(ship)) for ship in self.ships[1:]]
        self.inside = {ship.mmsi for ship in self.ships[1:] if math.hypot(*ship.place) < self.radius(ship)}
        self.waiting: list[tuple[int, int, Sent]] = []
        self.reported: dict[int, Track | None] = {}        # by the ship's index: her latest course and speed
        self.lines: list[bytes] = []
        self.passed = 0

    def errors(self, own: bool) -> Errors:
        """Returns the errors of a ship's reports. Own ship has a class A transponder."""
        if not self.setting.noise:
            return EXACT
        return CLASS_A if own or self.noise.random() < 0.6 else CLASS_B

    def make_own(self) -> Sailor:
        """Returns own ship. If she is sluggish, she turns and changes speed more slowly than her scenario says."""
        sluggish = random.Random(f"{self.seed} sluggish").uniform(0.4, 0.9) if self.setting.sluggish else 1.0
        ship = Ship(self.scenario.own, "OWN SHIP", OWN_LENGTH, (0.0, 0.0), self.setting.track,
                    Rates(self.rates.turn * sluggish, self.rates.speed * sluggish))
        return Sailor(ship, self.pilot(self.scenario), self.setting.track)

    def pilot(self, scenario: PilotScenario) -> Pilot:
        """Returns a pilot of a scenario."""
        return Pilot(scenario, Planner(scenario, self.runner), HISTORY)

    def make_sailors(self) -> list[Sailor]:
        """Returns the others as ships with pilots, each with the scenario as own ship."""
        return [Sailor(ship, self.pilot(self.scenario.with_own(mmsi=ship.mmsi)), ship.state) for ship in self.ships[1:]]

    def make_wrong(self, draw: random.Random) -> list[Wrong]:
        """Returns the wrong turn of each of the others who makes one."""
        return [Wrong(ship, self.until_nearest(ship), draw) for ship in self.ships[1:]]

    def until_nearest(self, ship: Ship) -> float:
        """Returns the seconds until own ship and another are nearest, if both keep course and speed from the start."""
        apart = ship.place
        mine = velocity(self.setting.track)
        drift = ship.drift[0] - mine[0], ship.drift[1] - mine[1]
        square = drift[0] ** 2 + drift[1] ** 2
        return max(0.0, -(apart[0] * drift[0] + apart[1] * drift[1]) / square) if square else 0.0

    def radius(self, ship: Ship) -> float:
        """Returns the radius of a ship's domain in metres (docs/PLAN.md)."""
        return float(self.scenario.base + self.scenario.lengths * ship.length)

    def run(self) -> Result:
        """Runs to the end; returns the result."""
        for second in range(MOST + 1):
            self.send(second)
            if second >= WARM and second % self.setting.every == 0:
                self.plan(second)
            for sailor in self.sailors:
                sailor.steer(START + second)
            for wrong in self.wrong:
                wrong.steer(second)
            self.measure(second)
            if second % FIX_EVERY == 0 and self.is_over(second):
                break
            for ship in self.ships:
                ship.step()
        self.finish()
        return self.result

    def send(self, second: int) -> None:
        """Sends the lines of each ship in a second; late lines wait until they arrive."""
        for number, sender in enumerate(self.senders):
            if sender.is_due(second):
                self.waiting += [(sent.at, number, sent) for sent in sender.lines(second, START)]
        if self.waiting:
            due = sorted(entry for entry in self.waiting if entry[0] <= START + second)
            self.waiting = [entry for entry in self.waiting if entry[0] > START + second]
            for at, number, sent in due:
                self.record.take(sent.line, at)
                self.lines.append(sent.line)
                self.reported[number] = sent.reported or self.reported.get(number)

    def plan(self, second: int) -> None:
        """Lets each ship with a pilot plan, and counts own ship's decision."""
        for number, sailor in enumerate(self.sailors):
            before, clock = sailor.decision, time.monotonic()
            decision = sailor.plan(self.record, START + second, self.reported.get(number))
            if sailor is self.own:
                self.result.seconds.append(time.monotonic() - clock)
                self.count(second, before, decision)

    def count(self, second: int, before: Decision | None, decision: Decision) -> None:
        """Counts a decision of own ship."""
        result = self.result
        result.replans += 1
        result.none += decision.cause is Cause.EVERY_PLAN_FAILS
        result.other_causes += decision.cause not in (None, Cause.EVERY_PLAN_FAILS)
        result.held += decision.state is State.HELD
        result.lapsed += decision.state is State.NONE
        result.escapes += decision.escaping
        if decision.cause not in (None, Cause.EVERY_PLAN_FAILS):
            result.fault = decision.words
        off = swing(self.setting.track.course, decision.course)
        if abs(off) > 0.06 and result.first_turn is None:
            result.first_turn = round(off, 1)
        result.manoeuvred |= decision.state is State.MANOEUVRING
        result.turns += before is not None and abs(swing(before.course, decision.course)) > 0.06
        for rule, count in Counter(reason.rule for reason in decision.reasons).items():
            result.reasons[rule] = result.reasons.get(rule, 0) + count
        result.states.append((second, decision.state.value, round(decision.course, 1), round(decision.speed, 1)))

    def measure(self, second: int) -> None:
        """Measures the distances of a second."""
        result, (east, north) = self.result, self.ships[0].place
        for ship, radius in self.domains:
            distance = math.hypot(ship.place[0] - east, ship.place[1] - north)
            if distance < result.least:
                result.least, result.nearest = distance, ship.mmsi
            if ship.mmsi not in self.inside:
                result.room = min(result.room, distance - radius)
                if distance < radius and ship.mmsi not in result.entered:
                    result.entered.append(ship.mmsi)
            if distance < (ship.length + OWN_LENGTH) / 2 and ship.mmsi not in result.collided:
                result.collided.append(ship.mmsi)
        if second % FIX_EVERY == 0:
            result.fixes.append(Fix(second, [(round(ship.place[0]), round(ship.place[1])) for ship in self.ships]))

    def is_over(self, second: int) -> bool:
        """Returns whether own ship passed all others some time ago, and has her course and speed again."""
        own, wanted = self.ships[0], self.setting.track
        clear = whole(self.scenario.values, "detect", "clear")
        back = abs(swing(own.state.course, wanted.course)) < 1 and abs(own.state.speed - wanted.speed) < 0.2
        if not back or any(not self.is_past(ship, clear) for ship in self.ships[1:]):
            self.passed = second
        return second - self.passed >= AFTER

    def is_past(self, ship: Ship, clear: int) -> bool:
        """Returns whether own ship and another draw apart, at more than the distance at which a meeting ends."""
        own = self.ships[0]
        apart = ship.place[0] - own.place[0], ship.place[1] - own.place[1]
        drift = ship.drift[0] - own.drift[0], ship.drift[1] - own.drift[1]
        return math.hypot(*apart) > clear and apart[0] * drift[0] + apart[1] * drift[1] > 0

    def finish(self) -> None:
        """Measures the way lost, and lets the program audit the whole run."""
        result = self.result
        result.length = result.fixes[-1].second
        own, seconds = self.ships[0], result.length
        angle = math.radians(self.setting.track.course)
        along = own.place[0] * math.sin(angle) + own.place[1] * math.cos(angle)
        result.off_track = abs(own.place[0] * math.cos(angle) - own.place[1] * math.sin(angle))
        result.way_lost = self.setting.track.speed * KNOT * seconds - along
        self.audit()
        if self.pictured:
            result.log = self.record_of_all()
        else:
            result.fixes = []

    def audit(self) -> None:
        """Adds own ship's meetings and the rules that she broke to the result, from the program's audit of the run."""
        result, tick = self.result, self.scenario.tick
        window = Window(START, tick, max(1, result.length // tick))
        text = self.scenario.text(window, subjects=(self.scenario.own,))
        report = self.runner.report("audit", text, self.record_of_all())
        if report.status != 0:
            result.fault = "the audit: " + status_words(report)
        self.take_audit(report, tick)

    def record_of_all(self) -> bytes:
        """Returns all lines of the run."""
        return b"".join(line + b"\n" for line in self.lines)

    def take_audit(self, report: Report, tick: int) -> None:
        """Reads the rows of the audit."""
        own = str(self.scenario.own)
        self.result.meetings = [(int(row[2]), row[3]) for row in report.rows("meeting") if row[1] == own]
        for row in report.rows("verdict"):
            if row[1] == own and row[4] == "broken":
                first, last = int(row[5]) * tick, int(row[6]) * tick
                self.result.broken.append(Breach(row[3], int(row[2]), first, last, self.had_plan(first)))

    def had_plan(self, second: int) -> bool:
        """Returns whether own ship followed a new plan at a moment."""
        states = [state for at, state, _, _ in self.result.states if at <= second]
        return bool(states) and states[-1] in (State.CLEAR.value, State.MANOEUVRING.value)
