"""A scenario of the pilot: the values of its file, and the text for one moment with its window and choices."""
from __future__ import annotations

import json
import tomllib
from collections.abc import Mapping
from dataclasses import dataclass

from colregs.errors import Fault
from colregs.pilot.choices import Choices, Offsets

Values = Mapping[str, object]
MOST_TICKS = 20000       # docs/SCENARIO.md


@dataclass(frozen=True)
class Window:
    """A window of time: its start in seconds since the Unix epoch, its tick in seconds, and its number of ticks."""

    start: int
    tick: int
    ticks: int

    @property
    def ends(self) -> int:
        """Returns the time of the last tick, which is now, in seconds since the Unix epoch."""
        return self.start + self.tick * self.ticks


def text_of(words: str) -> str:
    """Returns a text as a TOML basic string, which has the escapes of JSON and one for DEL."""
    return json.dumps(words, ensure_ascii=False).replace("\x7f", "\\u007f")


@dataclass(frozen=True)
class Stage:
    """One set of choices: offsets relative to the track, the number of legs, the ticks of a leg, and the ticks for
    which the last leg is held in addition."""

    offsets: Offsets
    legs: int
    leg_ticks: int
    tail: int

    def seconds(self, tick: int) -> int:
        """Returns the duration of a plan of this stage."""
        return (self.legs * self.leg_ticks + self.tail) * tick


def scalar_text(value: object) -> str:
    """Returns a TOML value other than a table: a number, a boolean, a text, or a list of such values."""
    if isinstance(value, bool):
        return "true" if value else "false"
    if isinstance(value, (int, float)):
        return repr(value)
    if isinstance(value, str):
        return text_of(value)
    if isinstance(value, (list, tuple)):
        return "[%s]" % ", ".join(scalar_text(item) for item in value)
    if isinstance(value, Mapping):
        return "{ %s }" % ", ".join("%s = %s" % (text_of(str(key)), scalar_text(item)) for key, item in value.items())
    return text_of(str(value))


def is_table_list(value: object) -> bool:
    """Returns whether a value is a list of tables. Each table gets its own header."""
    return isinstance(value, list) and bool(value) and all(isinstance(item, Mapping) for item in value)


def table_lines(values: Values) -> list[str]:
    """Returns one line per key of a table."""
    return ["%s = %s" % (text_of(key), scalar_text(value)) for key, value in values.items()]


def document_text(values: Values) -> str:
    """Returns values as a TOML document without comments: first the keys that are not tables, then the tables."""
    lines = table_lines(
        {key: value for key, value in values.items() if not isinstance(value, Mapping) and not is_table_list(value)}
    )
    for key, value in values.items():
        if isinstance(value, Mapping):
            lines += ["[%s]" % text_of(key), *table_lines(value)]
        elif isinstance(value, list) and is_table_list(value):
            for item in value:
                lines += ["[[%s]]" % text_of(key), *table_lines(item)]
    return "\n".join(lines) + "\n"


def whole(values: Values, table: str, key: str) -> int:
    """Returns an integer of a table. Raises Fault with the key if it is not an integer."""
    part = values.get(table)
    value = part.get(key) if isinstance(part, Mapping) else None
    if not isinstance(value, int) or isinstance(value, bool):
        raise Fault("scenario: %s.%s is missing or is not an integer" % (table, key))
    return value


def whole_list(values: Values, table: str, key: str) -> tuple[int, ...]:
    """Returns a list of integers of a table. Raises Fault with the key if it is not one."""
    part = values.get(table)
    value = part.get(key) if isinstance(part, Mapping) else None
    if not isinstance(value, list) or not value or any(type(item) is not int for item in value):
        raise Fault("scenario: %s.%s is missing or is not a list of integers" % (table, key))
    return tuple(value)


class PilotScenario:
    """The values of a scenario that the pilot needs, and the scenario as text for one moment."""

    def __init__(self, values: Values, name: str = "scenario") -> None:
        """`values` are those of a TOML document. Raises Fault with the key that is missing."""
        self.values, self.name = values, name
        self.tick, self.gap = whole(values, "window", "tick"), whole(values, "log", "gap")
        if not 1 <= self.tick <= 60:
            raise Fault("scenario: window.tick: range")
        self.own = whole(values, "own", "mmsi")
        self.stages = self.read_stages()
        self.watch, self.range = whole(values, "detect", "watch"), whole(values, "own", "range")
        self.base, self.lengths = whole(values, "own", "base"), whole(values, "own", "lengths")
        self.latitude, self.longitude = whole(values, "reference", "lat"), whole(values, "reference", "lon")
        self.turn_rate = self.rate("turn_rate", 1800)
        self.speed_rate = self.rate("speed_rate", 1022)

    @classmethod
    def read(cls, path: str) -> PilotScenario:
        """Reads a scenario's file. Raises Fault with the reason if it cannot."""
        try:
            with open(path, "rb") as source:
                return cls(tomllib.loads(source.read().decode("utf-8")), path)
        except OSError as error:
            raise Fault(f"{path}: {(error.strerror or str(error)).lower()}") from None
        except (tomllib.TOMLDecodeError, UnicodeDecodeError) as error:
            raise Fault(f"{path}: not a TOML text in UTF-8: {error}") from None

    def rate(self, key: str, at_once: int) -> int:
        """Returns a rate of own ship per tick, or `at_once` if the scenario has none."""
        own = self.values["own"]
        return whole(self.values, "own", key) if isinstance(own, Mapping) and key in own else at_once

    def read_stages(self) -> tuple[Stage, ...]:
        """Returns the stages of the table `pilot`. A stage takes a missing key from `own`; without stages, `own` is the
        only one."""
        pilot = self.values.get("pilot")
        listed = pilot.get("stages", [{}]) if isinstance(pilot, Mapping) else [{}]
        if not isinstance(listed, list) or not listed or not all(isinstance(item, Mapping) for item in listed):
            raise Fault("scenario: pilot.stages is not a list of tables")
        return tuple(self.read_stage(item) for item in listed)

    def read_stage(self, item: Values) -> Stage:
        """Returns one stage. Raises Fault with the wrong key."""
        values = {"own": self.own_values() | dict(item)}
        return Stage(Offsets(whole_list(values, "own", "courses"), whole_list(values, "own", "speeds")),
                     whole(values, "own", "legs"), whole(values, "own", "leg_ticks"), whole(values, "own", "tail"))

    def own_values(self) -> dict[str, object]:
        """Returns the table of own ship."""
        own = self.values["own"]
        return dict(own) if isinstance(own, Mapping) else {}

    def with_own(self, **changes: object) -> PilotScenario:
        """Returns the scenario with other values in the table of own ship."""
        return PilotScenario({**self.values, "own": self.own_values() | changes}, self.name)

    def with_offsets(self, courses: list[int], speeds: list[int] | None) -> PilotScenario:
        """Returns the scenario with other offsets in each stage; without speeds, each stage keeps its own."""
        changes: dict[str, object] = {"courses": courses} | ({"speeds": speeds} if speeds is not None else {})
        pilot = self.values.get("pilot")
        stages = pilot.get("stages") if isinstance(pilot, Mapping) else None
        values: dict[str, object] = {**self.values, "own": self.own_values() | changes}
        if isinstance(stages, list):
            values["pilot"] = {"stages": [dict(item) | changes for item in stages]}
        return PilotScenario(values, self.name)

    def text(self, window: Window, choices: Choices | None = None, stage: Stage | None = None,
             subjects: tuple[int, ...] = (), has_rules: bool = True) -> str:
        """Returns the scenario for a window, with own ship's choices of a stage, and with subjects if given.

        To switch the rules off, it sets the watch to one metre, so that only the domains are left.
        """
        values: dict[str, object] = {
            key: value for key, value in self.values.items() if key not in ("subjects", "pilot")
        }
        values["window"] = {"start": window.start, "tick": self.tick, "ticks": window.ticks}
        if subjects:
            values["subjects"] = list(subjects)
        own = self.own_values()
        if choices is not None:
            own |= {"courses": list(choices.courses), "speeds": list(choices.speeds)}
        if stage is not None:
            own |= {"legs": stage.legs, "leg_ticks": stage.leg_ticks, "tail": stage.tail}
        values["own"] = own
        detect = self.values.get("detect")
        if not has_rules and isinstance(detect, Mapping):
            values["detect"] = dict(detect) | {"watch": 1}
        return document_text(values)
