"""What a doctor sees in a scenario alone: keys that do not count, units that look wrong, numbers that are at odds."""
from collections.abc import Iterator, Mapping
from typing import Any, NamedTuple

from colregs.model import keys


class Finding(NamedTuple):
    """A mistake: its name, and a description."""

    name: str
    words: str


# below this a number that is not nought looks like one of another unit
LEAST = {"1/10 degree": 20, "1/10 knot": 3, "m": 20}
LEAST_OF = {
    "act.apparent_turn": 50, "act.apparent_speed": 10, "log.max_speed": 100, "own.courses": 100, "own.speeds": 10,
    "detect.doubt": 2
}
LEAST_SECONDS = {"detect.horizon": 60, "rules.te": 60, "rules.tw": 20, "rules.ta": 20, "rules.t8": 10, "rules.tl": 5}
LOOKS = {"1/10 degree": ("degrees for tenths", 10, "degrees"), "1/10 knot": ("knots for tenths", 10, "knots"),
         "m": ("miles for metres", 1, "m")}
AT_ODDS = [("act.steady_turn", "act.apparent_turn"), ("act.steady_speed", "act.apparent_speed"),
           ("detect.risk", "detect.watch"), ("detect.clear", "detect.watch"), ("detect.risk", "detect.clear"),
           ("rules.close", "detect.watch"), ("rules.safe", "detect.watch")]


def value_at(values: Any, name: str) -> Any:
    """Returns the value of a key, or None."""
    for part in name.split("."):
        values = values.get(part) if isinstance(values, dict) else None
    return values


def numbers_at(values: Mapping[str, Any], name: str) -> list[Any]:
    """Returns the numbers at a key: of a list all of its numbers."""
    found = value_at(values, name)
    found = found if isinstance(found, list) else [found]
    return [number for number in found if isinstance(number, (int, float)) and not isinstance(number, bool)]


def unknown_keys(values: Mapping[str, Any]) -> Iterator[Finding]:
    """Yields keys that do not count."""
    for name in keys.names_of(values):
        doubt = keys.doubt(name)
        if doubt:
            yield Finding(*doubt)
    for name in keys.names_of(values):
        if values.get("version") == 1 and name.startswith("rules.safe_") and name in keys.units():
            yield Finding("key of another version",
                          f"`{name}` is ignored in version 1: give `version = 2` and all four safe distances")


def wrong_units(values: Mapping[str, Any]) -> Iterator[Finding]:
    """Yields numbers that are so small that they look like degrees, knots or miles."""
    for name, unit in keys.units().items():
        told = [abs(number) for number in numbers_at(values, name) if number]
        if not told or unit not in LOOKS or max(told) >= LEAST_OF.get(name, LEAST[unit]):
            continue
        finding, part, word = LOOKS[unit]
        yield Finding(finding, f"`{name} = {value_at(values, name)}` is {format(max(told) / part, 'g')} {word}: the "
                               f"unit is { {'m': 'metres'}.get(unit, unit)}")
    for name, least in LEAST_SECONDS.items():
        if any(0 < number < least for number in numbers_at(values, name)):
            yield Finding("minutes for seconds", f"`{name} = {value_at(values, name)}` is so short that it looks like "
                          "minutes: the unit is s")
    yield from wrong_place_and_time(values)


def wrong_place_and_time(values: Mapping[str, Any]) -> Iterator[Finding]:
    """Yields a reference in degrees and a start in milliseconds."""
    latitude, longitude = (numbers_at(values, "reference." + word) for word in ("lat", "lon"))
    if latitude and longitude and (latitude[0] or longitude[0]) and abs(latitude[0]) <= 90 and abs(longitude[0]) <= 180:
        yield Finding("degrees for the reference", f"`reference` is {latitude[0]:g}, {longitude[0]:g}: the unit is "
                      "1/10000 minute, so a degree is 600000")
    start = numbers_at(values, "window.start")
    if start and start[0] >= 10 ** 11:
        yield Finding("milliseconds for seconds",
                      f"`window.start = {start[0]}` looks like milliseconds: the unit is seconds")


def at_odds(values: Mapping[str, Any]) -> Iterator[Finding]:
    """Yields numbers that contradict each other."""
    for less, more in AT_ODDS:
        small, great = numbers_at(values, less), numbers_at(values, more)
        if small and great and small[0] > great[0]:
            yield Finding("numbers at odds", f"`{less} = {small[0]}` is more than `{more} = {great[0]}`")


def no_effect(values: Mapping[str, Any]) -> Iterator[Finding]:
    """Yields numbers and names with which a rule or the window has little effect."""
    window, tick = (numbers_at(values, name) for name in ("window.ticks", "window.tick"))
    length = window[0] * tick[0] if window and tick else 0
    if length and any(number > length for number in numbers_at(values, "rules.tw")):
        yield Finding("time longer than the window", f"`rules.tw = {value_at(values, 'rules.tw')}` is more than the "
                      f"window's {length} s: what it waits for is never judged")
    gap = numbers_at(values, "log.gap")
    if gap and tick and gap[0] <= tick[0]:
        yield Finding("gap no longer than a tick", f"`log.gap = {gap[0]}` is no more than `window.tick = {tick[0]}`: "
                      "only reports at each tick are joined, and most vessels are not seen")
    if value_at(values, "subjects") == []:
        yield Finding("empty subjects",
                      "`subjects` is an empty list: leave it out to audit all pairs, or name a vessel")
    formulas = values.get("formula")
    if value_at(values, "rules.ranks") == 1 and isinstance(formulas, list) and any(
            isinstance(table, dict) and table.get("name") == "r18" for table in formulas):
        yield Finding("name of a rule", "a formula is called `r18`, which with `rules.ranks = 1` is the name of Rule "
                      "18: give it another one")


def no_ships(values: Mapping[str, Any]) -> Iterator[Finding]:
    """Yields MMSIs of subjects and of own ship that are no ship's."""
    for name in ("subjects", "own.mmsi"):
        for mmsi in numbers_at(values, name):
            if not 200000000 <= mmsi <= 799999999:
                kind = ("an aid to navigation" if 990000000 <= mmsi else
                        "a coast station" if mmsi < 10000000 else "no ship")
                yield Finding("station that is no ship", f"`{name}` has {mmsi}, which is {kind}: a ship's MMSI is from "
                              "200000000 to 799999999")


def findings(values: Mapping[str, Any]) -> Iterator[Finding]:
    """Yields all findings about a scenario."""
    for check in (unknown_keys, wrong_units, at_odds, no_effect, no_ships):
        yield from check(values)
