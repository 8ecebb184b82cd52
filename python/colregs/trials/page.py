"""The page of trials: one file that needs no network, with the table, the worst runs as pictures with a time slider,
and polar pictures."""
from __future__ import annotations

import html
import json
import os
import re
from collections.abc import Sequence
from dataclasses import asdict

from colregs.pilot.scenario import PilotScenario
from colregs.trials.geometries import RATIOS
from colregs.trials.meetings import OWN_LENGTH
from colregs.trials.summary import Json, groups_of, measured_parts
from colregs.trials.trial import FIX_EVERY, Result

ASSETS = os.path.join(os.path.dirname(os.path.abspath(__file__)), "assets")


def asset(name: str) -> str:
    """Returns the text of a file of the page."""
    with open(os.path.join(ASSETS, name), encoding="utf-8") as source:
        return source.read()


def run_words(result: Result) -> str:
    """Summarizes a run in a few sentences."""
    names = {begin.mmsi: begin.name for begin in result.others}
    words = [
        f"Seed {result.seed}: least distance {result.least:.0f} m, {result.replans} plans, {result.none} times none, "
        f"{result.lapsed} moments without a promise."
    ]
    words += [f"Collision with {', '.join(names[mmsi] for mmsi in result.collided)}."] if result.collided else []
    words += [f"Domain of {', '.join(names[mmsi] for mmsi in result.entered)} entered."] if result.entered else []
    words += [
        f"{breach.rule} towards {names.get(breach.other, breach.other)} broken from {breach.first} to {breach.last} "
        f"s{'' if breach.planned else ', without a new plan'}."
        for breach in result.broken
    ]
    return " ".join(words + ([result.fault] if result.fault else []))


def run_picture(scenario: PilotScenario, result: Result) -> Json:
    """Returns the data that the page draws of a run; own ship is the first vessel, and has no domain."""
    lengths = [begin.length for begin in result.others]
    return {
        "title": result.kind if " " in result.kind else f"{result.kind} {result.seed}",
        "words": run_words(result), "every": FIX_EVERY,
        "names": ["OWN SHIP"] + [begin.name for begin in result.others], "lengths": [OWN_LENGTH] + lengths,
        "radii": [0] + [scenario.base + scenario.lengths * length for length in lengths], "places": [
            fix.places for fix in result.fixes
        ], "states": result.states, "broken": [asdict(breach) for breach in result.broken]
    }


def crossing_picture(results: Sequence[Result]) -> Json | None:
    """Returns the data of the polar pictures, or None without runs for them."""
    values = [{
        "angle": result.seed // 10, "ratio": RATIOS[result.seed % 10], "least": round(result.least, 1),
        "turn": result.first_turn
    } for result in results]
    return {"ratios": RATIOS, "nearest": 300, "values": values} if values else None


def page(title: str, about: str, scenario: PilotScenario, grouped: Sequence[Result], pictured: Sequence[Result],
         crossing: Sequence[Result]) -> str:
    """Returns the text of the page. It escapes the data, so no text in it can end the surrounding script."""
    data = {
        "about": about, "groups": [asdict(group) for group in groups_of(grouped)], "times": measured_parts(grouped),
        "runs": [run_picture(scenario, result) for result in pictured], "crossing": crossing_picture(crossing)
    }
    held = json.dumps(data, separators=(",", ":"), ensure_ascii=False)
    for letter, escaped in (("<", "\\u003c"), ("\u2028", "\\u2028"), ("\u2029", "\\u2029")):
        held = held.replace(letter, escaped)
    parts = {"title": html.escape(title), "style": asset("trials.css"), "data": held, "script": asset("trials.js")}
    return re.sub(r"\{\{(\w+)\}\}", lambda found: parts[found[1]], asset("trials.html"))
