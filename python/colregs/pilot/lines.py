"""The pilot's output: one line of JSON per moment."""
from __future__ import annotations

import json
from collections import Counter
from dataclasses import dataclass

from colregs.model.earth import iso
from colregs.pilot.motion import Approach
from colregs.pilot.scenario import Window
from colregs.pilot.situation import Target
from colregs.pilot.states import Decision, Reason, Track

MOST_REASONS = 20      # reasons that a line lists; its counts by target and rule include all


@dataclass(frozen=True)
class Moment:
    """The content of a line. Ages and working times are in elapsed seconds."""

    time: int
    decision: Decision
    track: Track
    window: Window
    targets: list[Target]
    names: dict[int, tuple[str, int]]
    input_age: float
    own_age: int | None
    took: float | None
    late: bool
    notes: tuple[str, ...]


def approach_json(approach: Approach | None) -> object:
    """Returns a closest approach in metres and seconds."""
    return {"distance": round(approach.distance), "seconds": round(approach.seconds)} if approach else None


def target_json(target: Target, names: dict[int, tuple[str, int]]) -> object:
    """Returns a target: her place, the closest approach, and the rules that bind own ship towards her."""
    name, length = names.get(target.mmsi, ("", 0))
    meeting = target.meeting
    return {
        "mmsi": target.mmsi, "name": name, "length": length, "distance": round(target.distance), "bearing": round(
            target.bearing, 1), "nearest": approach_json(target.kept), "nearest_by_plan": approach_json(target.planned),
        "meeting": {"kind": meeting.kind, "since": iso(meeting.begins), "rules": meeting.rules()} if meeting else None
    }


def reasons_json(reasons: tuple[Reason, ...]) -> object:
    """Returns the reasons why all plans fail: counts by target and rule, and the first reasons in full."""
    counts = Counter((reason.target, reason.rule) for reason in reasons)
    return {
        "by_target": [{"mmsi": target, "rule": rule, "reasons": count}
                      for (target, rule), count in sorted(counts.items())], "first": [{
                          "courses": reason.courses, "speeds": reason.speeds, "mmsi": reason.target,
                          "rule": reason.rule, "time": iso(reason.time)
                      } for reason in reasons[:MOST_REASONS]], "count": len(reasons)
    } if reasons else None


def line_of(moment: Moment) -> str:
    """Returns the line without a line feed."""
    decision = moment.decision
    words = "; ".join(word for word in (decision.words, *moment.notes) if word)
    return json.dumps({
        "time": iso(moment.time), "state": decision.state.value,
        "cause": decision.cause.value if decision.cause else None, "words": words, "course": round(decision.course, 1),
        "speed": round(decision.speed, 1), "promised": decision.promised,
        "escaping": decision.escaping, "held_for": decision.held_for, "track": {
            "course": moment.track.course, "speed": moment.track.speed
        }, "legs": [{"course": leg.course, "speed": leg.speed, "begins": iso(leg.begins), "ends": iso(leg.ends)}
                    for leg in decision.legs], "targets": [
                        target_json(target, moment.names) for target in moment.targets
                    ], "reasons": reasons_json(decision.reasons), "reasons_checked": decision.checked, "window": {
                        "begins": iso(moment.window.start), "ticks": moment.window.ticks
                    }, "input_age": round(moment.input_age, 1), "own_age": moment.own_age,
        "took": None if moment.took is None else round(moment.took, 3), "late": moment.late
    })
