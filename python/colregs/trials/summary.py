"""Totals of trials: for each kind the collisions, domains, distances, answers, rules and way lost, as rows and as
JSON."""
from __future__ import annotations

import math
import statistics
from collections import Counter
from collections.abc import Sequence
from dataclasses import asdict, dataclass

from colregs.trials.trial import Result, Setting

Json = dict[str, object]


@dataclass(frozen=True)
class Group:
    """The runs of one kind with one number of others. Distances are in metres, shares in percent, and quartiles in
    ascending order."""

    kind: str
    others: int
    runs: int
    collisions: int            # runs in which own ship came nearer to another than half the sum of their lengths
    domains: int               # runs in which she entered a domain that she did not start in
    least: tuple[float, ...]   # least distances: the least, the quartiles, the greatest
    replans: int
    none: int
    none_share: float
    none_runs: int
    held: int
    lapsed: int                # moments without a plan and after the end of the last promise
    escapes: int               # those of them with a plan that keeps out of all domains
    broke: int                 # runs in which own ship broke a rule
    broke_share: float
    planned: int               # those of them in which she followed a new plan when a breach began
    rules: dict[str, int]      # runs in which she broke each rule
    reasons: dict[str, int]    # if all plans failed: the reasons
    way_lost: float            # median
    turns: float               # mean number of changes of the course to steer
    faults: int                # runs with an answer that was neither a plan nor `none`


HEAD = ("kind", "others", "runs", "collisions", "domains", "least", "least_quarter", "least_median",
        "least_three_quarters", "replans", "none", "none_percent", "none_runs", "held", "lapsed", "escapes", "broke",
        "broke_percent", "planned", "rules", "way_lost", "turns", "faults")


def quartiles(values: Sequence[float]) -> tuple[float, ...]:
    """Returns the minimum, the quartiles and the maximum of values; each is one of the values."""
    ordered = sorted(values)
    return tuple(round(ordered[k * (len(ordered) - 1) // 4], 1) for k in range(5))


def percent(part: int, whole: int) -> float:
    """Returns the percentage of a part in a whole, to two decimals."""
    return round(100 * part / whole, 2) if whole else 0.0


def group_of(kind: str, others: int, results: Sequence[Result]) -> Group:
    """Returns the totals of the runs of one kind."""
    rules, reasons = Counter[str](), Counter[str]()
    for result in results:
        rules.update({breach.rule for breach in result.broken})
        reasons.update(result.reasons)
    replans, none, broke = (sum(values) for values in zip(*((result.replans, result.none, bool(result.broken))
                                                            for result in results)))
    return Group(kind, others, len(results), sum(bool(result.collided) for result in results),
                 sum(bool(result.entered) for result in results),
                 quartiles([result.least for result in results]), replans, none, percent(none, replans),
                 sum(result.none > 0 for result in results), sum(result.held for result in results),
                 sum(result.lapsed for result in results), sum(result.escapes for result in results), broke,
                 percent(broke,
                         len(results)), sum(any(breach.planned for breach in result.broken) for result in results),
                 dict(sorted(rules.items())), dict(sorted(reasons.items())),
                 round(statistics.median(result.way_lost for result in results), 1),
                 round(statistics.mean(result.turns for result in results), 2),
                 sum(bool(result.fault) for result in results))


def parts_of(results: Sequence[Result]) -> list[tuple[str, int, Sequence[Result]]]:
    """Returns the runs of each kind and number of others, and all of them if there are several kinds or numbers."""
    parts: dict[tuple[str, int], list[Result]] = {}
    for result in results:
        parts.setdefault((result.kind, len(result.others)), []).append(result)
    found: list[tuple[str, int, Sequence[Result]]] = [(*key, part) for key, part in sorted(parts.items())]
    return found + ([("all", 0, results)] if len(found) > 1 else [])


def groups_of(results: Sequence[Result]) -> list[Group]:
    """Returns one group per kind and number of others, and one of all runs if there are several."""
    return [group_of(*part) for part in parts_of(results)]


def rows_of(groups: Sequence[Group]) -> str:
    """Returns the groups as CSV, with a header."""
    lines = [",".join(HEAD)]
    for group in groups:
        rules = " ".join(f"{rule}:{count}" for rule, count in group.rules.items())
        values = (group.kind, group.others or "", group.runs, group.collisions, group.domains, *group.least[:4],
                  group.replans, group.none, group.none_share, group.none_runs, group.held, group.lapsed, group.escapes,
                  group.broke, group.broke_share, group.planned, rules, group.way_lost, group.turns, group.faults)
        lines.append(",".join(str(value) for value in values))
    return "\n".join(lines) + "\n"


def run_json(result: Result) -> Json:
    """Returns one run as JSON, which depends only on the seed and the setting. It has no elapsed times."""
    found = asdict(result)
    for key in ("seconds", "fixes", "log"):
        del found[key]
    return found | {
        "least": round(result.least, 2), "room": round(result.room, 2) if math.isfinite(result.room) else None,
        "way_lost": round(result.way_lost, 2), "off_track": round(result.off_track, 2)
    }


def measured(results: Sequence[Result]) -> Json:
    """Returns the elapsed seconds of the plans, which differ each time."""
    seconds = [value for result in results for value in result.seconds]
    return {"plans": len(seconds), "median": round(statistics.median(seconds), 4), "greatest": round(max(seconds), 4)
            } if seconds else {"plans": 0}


def measured_parts(results: Sequence[Result]) -> list[Json]:
    """Returns the elapsed seconds of the plans of each group."""
    return [{"kind": kind, "others": others} | measured(part) for kind, others, part in parts_of(results)]


def report_json(scenario: str, setting: Setting, results: Sequence[Result], grouped: Sequence[Result]) -> Json:
    """Returns all runs and the named groups. Only the part `measured` differs from one time to the next."""
    return {"scenario": scenario, "setting": asdict(setting), "groups": [asdict(group) for group in groups_of(grouped)],
            "runs": [run_json(result) for result in results],
            "measured": measured(results) | {"groups": measured_parts(grouped)}}


def worst(results: Sequence[Result], count: int) -> list[Result]:
    """Returns the worst `count` runs, the worst first."""
    return sorted(results, key=lambda result: (result.badness, -result.seed), reverse=True)[:count]
