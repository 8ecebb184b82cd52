"""The scenario and the window of a case: those that are given, or guessed from its log, with the vessels and the time
that are asked for."""
import argparse
import os
from collections.abc import Container
from dataclasses import dataclass, field

from colregs.case.folder import LOG, SCENARIO, Folder
from colregs.errors import Fault
from colregs.io.files import read_text
from colregs.model import guess
from colregs.model.scenario import MOST_TICKS, read_values, values_of
from colregs.model.scenario_checks import numbers_at
from colregs.model.summaries import capital

GUESSED = ("The scenario was guessed from the log. Its window and place fit the log, but what is near, early or "
           "apparent are the numbers of made-up examples: go through them before a verdict is used.")


@dataclass
class Chosen:
    """The window, if it is not the scenario's, the vessels that are asked for, and in words the reasons, what was left
    out and what is doubtful."""

    start: int | None
    ticks: int | None
    subjects: list[int] = field(default_factory=list)
    reasons: list[str] = field(default_factory=list)
    cuts: list[str] = field(default_factory=list)
    doubts: list[str] = field(default_factory=list)


def choose(given: argparse.Namespace, folder: Folder, program: str) -> Chosen:
    """Writes the scenario of the case, and returns its window and what is to be said of both."""
    asked, found = guess.Asked(given.begin, given.end, given.vessel), Chosen(given.start, given.ticks)
    if given.scenario:
        text = read_text(given.scenario)
        values_of(given.scenario, text)         # refuses what is not TOML by the name that was given
        found.reasons.append(f"The scenario was given: {os.path.basename(given.scenario)}")
        write_scenario(text, asked, folder, program, found)
        choose_window(given.scenario, asked, folder, found)
        return found
    reasons: list[str] = []
    whole, _ = guess.guessed(folder.path(LOG), program, reasons, asked)
    if whole.ticks > MOST_TICKS:
        found.start, found.ticks = whole.start, whole.ticks
        reasons.append(f"the window has {whole.ticks:,} ticks, more than a scenario takes: it is audited in several "
                       "windows, which are joined")
    write_scenario(guess.text_of(whole), asked, folder, program, found)
    found.reasons += map(capital, reasons + guess.window_reasons(whole, whole.ticks, asked))
    found.doubts.append(GUESSED)
    return found


def write_scenario(text: str, asked: guess.Asked, folder: Folder, program: str, found: Chosen) -> None:
    """Writes the scenario, with the vessels that are asked for as its subjects."""
    if asked.vessels:
        found.subjects = guess.named(folder.path(LOG), program, asked.vessels)
        text = guess.with_subjects(text, found.subjects)
        found.reasons.append(f"Pairs without {' or '.join(map(str, found.subjects))} were left out, as --vessel asks")
        found.cuts.append(f"As asked, only pairs with {' or '.join(asked.vessels)} were audited.")
    folder.write(SCENARIO, [text])


def absent_words(found: Chosen, seen: Container[int]) -> list[str]:
    """Returns in words which vessels that are asked for have no position in the window; raises a Fault if none has."""
    absent = [mmsi for mmsi in found.subjects if mmsi not in seen]
    words = [f"{mmsi}, which --vessel asks for, has no position in the window" for mmsi in absent]
    if absent and len(absent) == len(found.subjects):
        raise Fault("; ".join(words))
    return [line + "." for line in words]


def choose_window(name: str, asked: guess.Asked, folder: Folder, found: Chosen) -> None:
    """Takes the window that is asked for instead of that of the scenario that is given."""
    if not asked.begin and not asked.end:
        return
    values = read_values(folder.path(SCENARIO))
    start, tick, ticks = (next(iter(numbers_at(values, f"window.{key}")), 0) for key in ("start", "tick", "ticks"))
    if tick < 1:
        raise Fault(f"{name}: window.tick is no number of seconds")
    first, last = asked.window(start, start + tick * ticks)
    found.start, found.ticks = first, -(-(last - first) // tick)
