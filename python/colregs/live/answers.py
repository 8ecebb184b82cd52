"""The server's responses besides the page: JSON, GeoJSON (RFC 7946), and metrics for Prometheus."""
import time
from collections.abc import Iterable, Iterator
from typing import Any

from colregs.live.state import State, Values

VESSEL = ("mmsi", "time", "longitude", "latitude", "speed", "course", "heading")
COMPUTED = (
    "distance, closest and closest_at are computed by the server from the newest accepted reports, and not proved"
)


def vessels(state: State) -> list[Values]:
    """Returns the vessels, each with the static data that she sends."""
    with state.lock:
        return [{**state.said_of(mmsi, known), **dict(zip(VESSEL, state.vessel(state.fleet.ships[mmsi])))}
                for mmsi, known in state.fleet.all_about()]


def encounters(state: State) -> list[Values]:
    """Returns the current encounters, with the newest positions of both vessels."""
    with state.lock:
        found = state.encounters.all_values(state.clock or 0)
        return [
            {**one, "positions": [state.place(ship) for mmsi in one["pair"] if (ship := state.fleet.ships.get(mmsi))]}
            for one in found
        ]


def alarms(state: State) -> list[Values]:
    """Returns the alarms, newest first."""
    with state.lock:
        found = [state.alarms.values(item) for item in state.alarms.items.values()]
    return sorted(found, key=lambda item: (-item["first"], item["id"]))


def feature(values: Values, geometry: Values | None, left_out: Iterable[str]) -> Values:
    """Returns a feature of GeoJSON."""
    hidden = set(left_out)
    return {
        "type": "Feature",
        "geometry": geometry,
        "properties": {name: value for name, value in values.items() if name not in hidden},
    }


def geojson(kind: str, found: list[Values]) -> Values:
    """Returns vessels, encounters or alarms as GeoJSON."""
    return {"type": "FeatureCollection", "features": list(features(kind, found))}


def features(kind: str, found: list[Values]) -> Iterator[Values]:
    """Yields vessels and alarms as points, and encounters as lines between their vessels."""
    for values in found:
        if kind == "vessels":
            yield feature(values, {"type": "Point", "coordinates": [values["longitude"], values["latitude"]]},
                          ("longitude", "latitude"))
        elif kind == "encounters":
            line = {"type": "LineString", "coordinates": values["positions"]} if len(values["positions"]) == 2 else None
            yield feature(values, line, ("positions",))
        else:
            place = values.get("position")
            yield feature(values, {"type": "Point", "coordinates": place} if place else None, ("position",))


LISTS = {"vessels": vessels, "encounters": encounters, "alarms": alarms}


def as_json(state: State, kind: str) -> Any:
    """Returns a list for JSON, with the time of the stream's clock."""
    told: Values = {"clock": state.clock, kind: LISTS[kind](state)}
    return {**told, "computed": COMPUTED} if kind == "encounters" else told


def metrics(state: State, health: Values) -> str:
    """Returns the metrics in the text format of Prometheus."""
    lines: list[str] = []

    def add(name: str, kind: str, words: str, values: Iterable[tuple[str, float | None]]) -> None:
        lines.append(f"# HELP colregs_live_{name} {words}\n# TYPE colregs_live_{name} {kind}")
        lines.extend(f"colregs_live_{name}{label} {value:g}" for label, value in values if value is not None)

    with state.lock:
        counts, delays, answered = dict(
            state.alarms.counts), {name: tuple(known)
                                   for name, known in state.alarms.delays.items()}, state.answered
        vessels_now, lasting = len(state.fleet.ships), len(state.encounters.known)
    outcomes = answered.counts if answered else {}
    add("lines_total", "counter", "lines taken since the start", [("", health.get("lines"))])
    add("window_lines", "gauge", "lines of the window so far by outcome",
        [(f'{{outcome="{name}"}}', count) for name, count in outcomes.items()])
    add("clock_lag_seconds", "gauge", "how far the stream's clock is behind this machine's", [("", health.get("lag"))])
    add("quiet_seconds", "gauge", "since the last line came", [("", health.get("quiet"))])
    add("rows_total", "counter", "rows written since the start", [("", health.get("rows"))])
    add("alarms_total", "counter", "alarms that entered a state since the start",
        [(f'{{state="{name}"}}', count) for name, count in counts.items()])
    add("alarm_delay_seconds_sum", "counter", "from the end of an alarm's first step to its item, by the stream's "
                                              "clock",
        [(f'{{state="{name}"}}', total) for name, (total, _) in delays.items()])
    add("alarm_delay_seconds_count", "counter", "alarms in alarm_delay_seconds_sum",
        [(f'{{state="{name}"}}', count) for name, (_, count) in delays.items()])
    add("restarts_total", "counter", "runs of the program that were killed and restarted",
        [("", health.get("restarts"))])
    add("browsers", "gauge", "browsers that are connected", [("", health.get("browsers"))])
    add("vessels", "gauge", "vessels with a position", [("", vessels_now)])
    add("encounters", "gauge", "encounters that last", [("", lasting)])
    add("answer_seconds", "gauge", "how long the last answer to the window so far took",
        [("", answered.seconds if answered else None)])
    add("refused_total", "counter", "requests that were refused", [("", health.get("refused"))])
    return "\n".join(lines) + "\n"


def lag(clock: int | None) -> float | None:
    """Returns by how many seconds a time is behind this machine's clock, or None."""
    return None if clock is None else round(time.time() - clock, 1)
