"""The rules with their colours and a few words each, and how times and lengths are written."""
import datetime
import math
import re
import time

from colregs.errors import Fault

RULES = {
    "r8b": ("#8c564b", "Rule 8(b): an alteration is readily apparent"),
    "r8d": ("#d55e00", "Rule 8(d): passes at a safe distance"),
    "r13": ("#cc3d8f", "Rule 13: overtaking, keeps out of the way"),
    "r14a": ("#0072b2", "Rule 14(a): alters to starboard"),
    "r14b": ("#009e73", "Rule 14(a): does not alter to port"),
    "r14p": ("#35a7e0", "Rule 14(a): passes port to port"),
    "r15": ("#c79a00", "Rule 15: does not cross ahead"),
    "r16": ("#7b3294", "Rule 16: gives way by early, apparent action"),
    "r17a": ("#3f7d20", "Rule 17(a): stands on until free to act"),
    "r17b": ("#b2182b", "Rule 17(b): acts in extremis"),
    "r17c": ("#01665e", "Rule 17(c): does not alter to port"),
    "r18": ("#6a51a3", "Rule 18: keeps out of the way by rank"),
}
DUTIES = {
    "r8b": "Rule 8(b): an alteration of course or speed is large enough to be readily apparent to the other vessel",
    "r8d": "Rule 8(d): action to avoid collision results in passing at a safe distance",
    "r13": "Rule 13(a): a vessel that overtakes another keeps out of her way",
    "r14a": "Rule 14(a): two vessels that meet head-on each alter course to starboard",
    "r14b": "Rule 14(a): two vessels that meet head-on do not alter course to port",
    "r14p": "Rule 14(a): two vessels that meet head-on pass on each other's port side",
    "r15": "Rule 15: the vessel that gives way in a crossing does not cross ahead of the other",
    "r16": "Rule 16: the vessel that gives way takes early and substantial action to keep well clear",
    "r17a": "Rule 17(a): the vessel that stands on keeps her course and speed, until she may act",
    "r17b": "Rule 17(b): the vessel that stands on acts when the other alone can no longer avoid collision",
    "r17c": "Rule 17(c): in a crossing, the vessel that stands on does not alter to port for one on her own port side",
    "r18": "Rule 18: a vessel keeps out of the way of one that is less able to manoeuvre",
}
ENCOUNTERS = {
    "overtaking": "overtakes",
    "overtaken": "is overtaken",
    "head_on": "meets head-on",
    "crossing_gives": "crosses, gives way",
    "crossing_stands": "crosses, stands on",
    "passing": "passes",
    "unclassified": "is not classed",
}
BOUND = {
    "overtaking": "keep out of the way (Rules 13 and 16)",
    "overtaken": "stand on (Rule 17)",
    "head_on": "alter to starboard (Rule 14)",
    "crossing_gives": "give way (Rules 15 and 16)",
    "crossing_stands": "stand on (Rule 17)",
}
OUTCOMES = {
    "empty": "no byte",
    "long": "more than 1024 bytes",
    "tag": "a tag block of another form, or with a wrong checksum",
    "other": "no sentence of AIS",
    "form": "a sentence of another form",
    "sum": "a sentence with a wrong checksum: damaged on the way",
    "armour": "a byte that no payload has",
    "outside": "a time outside the window",
    "late": "a time that lies further than log.slack behind the latest: lines out of order",
    "part": "a part of a message that goes on in a later line",
    "orphan": "a part of a message whose beginning is missing",
    "short": "fewer bits than the message needs",
    "kind": "a message of a type that is not used, such as that of a base station",
    "notship": "sent under an MMSI that is no ship's",
    "nopos": "a report without a place",
    "far": "a place too far from the scenario's reference",
    "back": "a report that is not later than the one before of this vessel",
    "repeat": "the same report again, within 30 s",
    "jump": "a report that asks for more than log.max_speed: a wrong place, or a shared MMSI",
    "static": "a ship's own data: name, type, size",
    "point": "an accepted report: a point of a track",
}
INK = "#222222"


def colour(rule: str) -> str:
    """Returns the colour of a rule."""
    return RULES.get(rule, ("#555555", ""))[0]


def meaning(rule: str) -> str:
    """Returns what a rule asks, in a few words."""
    return RULES.get(rule, ("", "a formula of the scenario"))[1]


def duty(rule: str) -> str:
    """Returns what a rule asks, in words."""
    return DUTIES.get(rule, "a formula of the scenario")


def utc(seconds: float) -> str:
    """Returns a moment in UTC as a date and a time of day."""
    return time.strftime("%Y-%m-%d %H:%M:%S", time.gmtime(seconds))


def clock(seconds: float) -> str:
    """Returns the time of day of a moment in UTC."""
    return time.strftime("%H:%M:%S", time.gmtime(seconds))


def date(seconds: float) -> str:
    """Returns the date of a moment in UTC."""
    return time.strftime("%d %B %Y", time.gmtime(seconds)).lstrip("0")


def moment(words: str, start: int) -> int:
    """Returns the seconds since the Unix epoch of words as 1700000000, 2023-11-14T22:13:20Z, or 22:13.

    A time of day, as 22:13 or 22:13:20, is the first such moment at or after the minute of `start`.
    """
    if re.fullmatch(r"\d{9,10}", words):
        return int(words)
    found = re.fullmatch(r"(\d\d):(\d\d)(?::(\d\d))?", words)
    if found:
        hours, minutes, seconds = (int(part or 0) for part in found.groups())
        if hours < 24 and minutes < 60 and seconds < 60:
            at = start - start % 86400 + hours * 3600 + minutes * 60 + seconds
            return at if at >= start - start % 60 else at + 86400
    try:
        told = datetime.datetime.fromisoformat(words)
    except ValueError:
        raise Fault(f"`{words}` is no time: write 22:13:20, 2023-11-14T22:13:20Z or 1700000000") from None
    return int((told if told.tzinfo else told.replace(tzinfo=datetime.timezone.utc)).timestamp())


def nice(value: float) -> float:
    """Returns the least of 1, 2 and 5 times a power of ten that is not below the value."""
    power: float = 10.0 ** math.floor(math.log10(value))
    return next(k * power for k in (1, 2, 5, 10) if k * power >= value * 0.999)
