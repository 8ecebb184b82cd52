"""A meeting in a sentence: who met how, what the audit found of the rules with the scenario's numbers, and how near the
two passed."""
from collections.abc import Iterable, Iterator, Mapping

from colregs.model.reports import Case
from colregs.model.rows import Meeting, Verdict
from colregs.model.rules import clock
from colregs.model.ships import type_words

BOTH = {
    "r14a": "neither altered to starboard in time (Rule 14(a))", "r14b": "both altered to port (Rule 14(a))",
    "r14p": "they did not pass port to port (Rule 14(a))", "r8d": "they did not pass at a safe distance (Rule 8(d))",
    "r8b": "no alteration was readily apparent (Rule 8(b))",
}
ONE = {
    "r14a": "{} did not alter to starboard in time (Rule 14(a))", "r14b": "{} altered to port (Rule 14(a))",
    "r14p": "{} did not pass port to port (Rule 14(a))", "r13": "{} did not keep out of the way (Rule 13)",
    "r15": "{} crossed ahead (Rule 15)", "r16": "{} took no early and apparent action (Rule 16)",
    "r17a": "{} did not stand on (Rule 17(a))", "r17b": "{} took no action in extremis (Rule 17(b))",
    "r17c": "{} altered to port (Rule 17(c))", "r18": "{} did not keep out of the way by rank (Rule 18)",
    "r8b": "an alteration of {} was not readily apparent (Rule 8(b))",
    "r8d": "{} did not pass at a safe distance (Rule 8(d))",
}
KINDS = {
    "overtaking": "{0} overtook {1}", "overtaken": "{1} overtook {0}", "head_on": "{0} and {1} met head on",
    "crossing_gives": "{0} and {1} crossed, and {2} was to give way",
    "crossing_stands": "{1} and {0} crossed, and {3} was to give way",
}
Verdicts = Mapping[tuple[int, int], list[Verdict]]


def by_pair(case: Case) -> dict[tuple[int, int], list[Verdict]]:
    """Returns the verdicts by their pairs, the lower MMSI first."""
    found: dict[tuple[int, int], list[Verdict]] = {}
    for row in case.verdicts:
        found.setdefault(row.both, []).append(row)
    return found


def full_name(case: Case, mmsi: int) -> str:
    """Returns a vessel's name with her type and length, as far as they are known."""
    vessel = case.vessels.get(mmsi)
    more = [type_words(vessel.ship_type), f"{vessel.length} m" if vessel.length else ""] if vessel else []
    words = ", ".join(filter(None, more))
    return case.name(mmsi) + (f" ({words})" if words else "")


def minute(case: Case, seconds: float) -> str:
    """Returns a time after the window's start as hours and minutes."""
    return clock(round(case.start + seconds))[:5]


def found_words(case: Case, rows: Iterable[Verdict]) -> Iterator[str]:
    """Yields what the audit found broken, rule by rule."""
    who: dict[str, list[int]] = {}
    for row in rows:
        subjects = who.setdefault(row.rule, [])
        if row.value == "broken" and row.subject not in subjects:
            subjects.append(row.subject)
    for rule in [rule for rule in case.rules if who.get(rule)]:
        names = [case.name(mmsi) for mmsi in who[rule]]
        if len(names) == 2 and rule in BOTH:
            yield BOTH[rule]
        else:
            yield from (ONE.get(rule, "the formula " + rule + " was false for {}").format(name) for name in names)


def sentence(case: Case, row: Meeting, verdicts: Verdicts) -> str:
    """Returns a meeting in a sentence."""
    names = [full_name(case, mmsi) for mmsi in row.pair]
    met = KINDS.get(row.encounter, "{0} and {1} met").format(*names, *map(case.name, row.pair))
    here = [v for v in verdicts.get(row.both, []) if v.first <= row.last and row.first <= v.last]
    found = list(found_words(case, here)) or ["no rule was found broken"]
    words = f"{met} from {minute(case, row.first * case.tick)} UTC on; {', '.join(found)}; "
    if case.lost(row):
        return words + case.lost_words(row) + "."
    seconds = case.nearest(row)[0]
    is_over = seconds < (row.last + 1) * case.tick
    end = "they passed at" if is_over else "they were nearest at the end of what was audited,"
    return f"{words}{end} {format(row.metres, '.1f' if row.metres < 10 else ',.0f')} m at {minute(case, seconds)}."
