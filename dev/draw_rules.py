"""Draws the pictures of docs/RULES.md: PYTHONPATH=python python3 -m dev.draw_rules FOLDER

rules_risk.svg, rules_engaged.svg, rules_classes.svg and rules_ranks.svg, with the numbers of examples/crossing.toml.
It computes risk, engaged, past and clear as docs/RULES.md defines them. Every run makes the same pictures.
"""
from __future__ import annotations

import math
import os
import sys
import tomllib
from typing import Any

from colregs.page.svg import Picture
from dev.repository import read

Point = tuple[float, float]      # a place or a way on the plane, or a place in a picture
Numbers = dict[str, Any]      # of a scenario, by table and key
# its kind, both speeds, the course of B, her place from A, and that of A in the picture
Meeting = tuple[str, Point, float, Point, Point]

INK, GREY, PALE, BLUE, RED, GREEN, AMBER = "#222222", "#777777", "#dddddd", "#0072b2", "#c0392b", "#3f7d20", "#c77700"


def numbers() -> Numbers:
    """Returns the scenario whose numbers the pictures show."""
    return tomllib.loads(read("examples", "crossing.toml"))


def nearest(place: Point, way: Point, seconds: float) -> float:
    """Returns the time of closest approach within `seconds`, given B's place from A and her motion per second."""
    dot, square = place[0] * way[0] + place[1] * way[1], way[0] ** 2 + way[1] ** 2
    return min(seconds, max(0.0, -dot / square)) if square else 0.0


def moved(place: Point, way: Point, seconds: float) -> Point:
    return place[0] + way[0] * seconds, place[1] + way[1] * seconds


def at_risk(place: Point, way: Point, detect: dict[str, int]) -> bool:
    ahead = moved(place, way, nearest(place, way, detect["horizon"]))
    return math.hypot(*place) <= detect["watch"] and math.hypot(*ahead) < detect["risk"]


def past_and_clear(place: Point, way: Point, detect: dict[str, int]) -> bool:
    opening = place[0] * way[0] + place[1] * way[1] >= 0
    return opening and not at_risk(place, way, detect) and math.hypot(*place) >= detect["clear"]


def hull(picture: Picture, at: Point, course: float, fill: str, size: float = 9) -> None:
    """Draws a vessel from above, with her bow along the course."""
    angle = math.radians(course)
    points = []
    for along, across in ((1.7, 0), (0.6, 0.55), (-1.3, 0.55), (-1.3, -0.55), (0.6, -0.55)):
        x, y = size * across, -size * along
        points.append(
            (at[0] + x * math.cos(angle) - y * math.sin(angle), at[1] + x * math.sin(angle) + y * math.cos(angle)))
    picture.add("polygon", points=" ".join("%.1f,%.1f" % point for point in points), fill=fill, stroke=INK,
                stroke_width="0.8")


def arrow(picture: Picture, begin: Point, end: Point, stroke: str, width: float = 1.6) -> None:
    picture.line(begin, end, stroke, width)
    angle = math.atan2(end[1] - begin[1], end[0] - begin[0])
    for turn in (2.65, -2.65):
        picture.line(end, (end[0] + 8 * math.cos(angle + turn), end[1] + 8 * math.sin(angle + turn)), stroke, width)


def ring(picture: Picture, at: Point, radius: float, stroke: str, **more: str) -> None:
    picture.add("circle", cx=float(at[0]), cy=float(at[1]), r=float(radius), fill="none", stroke=stroke,
                stroke_width="1.2", **more)


def arc(at: Point, radius: float, first: float, last: float) -> list[Point]:
    """Returns the points of an arc; degrees clockwise from north."""
    return [(at[0] + radius * math.sin(math.radians(d)), at[1] - radius * math.cos(math.radians(d)))
            for d in (first + (last - first) * k / 60 for k in range(61))]


def risk(given: Numbers) -> str:
    detect, scale, origin = given["detect"], 8.0, (110.0, 190.0)
    picture = Picture(760, 380, "Risk: where both go on as they do, they come nearer than the risk's distance")

    def on(place: Point) -> Point:
        return origin[0] + place[0] / scale, origin[1] - place[1] / scale

    ring(picture, origin, detect["risk"] / scale, RED, stroke_dasharray="5 4")
    picture.path(arc(origin, detect["watch"] / scale, 76, 112), GREY, 1.2, stroke_dasharray="5 4")
    picture.words(origin[0], origin[1] + detect["risk"] / scale + 16, "risk: %d m" % detect["risk"], 12, RED, "middle")
    picture.words(630, 362, "watch: %d m" % detect["watch"], 12, GREY, "middle")
    hull(picture, origin, 0, BLUE)
    picture.words(origin[0] - 24, origin[1] + 5, "A", 14, BLUE, "middle", "bold")
    cases = [((3300, 1000), (-8.0, -1.7), ["at risk: comes nearer than %d m" % detect["risk"]]),
             ((3600, -350), (-3.0, 0.15),
              ["not at risk: it would take",
               "longer than the horizon, %d s" % detect["horizon"]]),
             ((3000, -1000), (-8.0, 0.2), ["not at risk: stays farther off"])]
    for place, way, words in cases:
        held = at_risk(place, way, detect)
        if held == words[0].startswith("not"):
            raise SystemExit("draw_rules: the drawing of a case of risk contradicts its computed risk")
        stroke = RED if held else GREEN
        end = moved(place, way, detect["horizon"])
        end = end if end[0] > -600 else moved(place, way, (place[0] + 600) / -way[0])
        picture.line(on(place), on(end), stroke, 1.2, stroke_dasharray="2 4")
        arrow(picture, on(place), on(moved(place, way, 60)), stroke, 2.4)
        picture.dot(on(place), 4, stroke)
        picture.dot(on(moved(place, way, nearest(place, way, detect["horizon"]))), 3.5, stroke)
        picture.words(on(place)[0] + 8, on(place)[1] - 6, "B", 14, stroke, "start", "bold")
        for k, line in enumerate(words):
            picture.words(
                on(moved(place, way, 130))[0] + 40,
                on(place)[1] + 22 + 14 * k, line, 12, stroke, "end", halo=True)
    picture.words(12, 22,
                  "As seen from A: how B moves against her. The arrow is the motion within a step, drawn longer.", 12)
    picture.words(12, 38,
                  "The dots go on with it, to the horizon at most; the dot on them is where they would be nearest.", 12)
    return picture.text()


def engaged(given: Numbers) -> str:
    detect, tick, scale, origin = given["detect"], given["window"]["tick"], 9.6, (250.0, 170.0)
    picture = Picture(720, 400, "Engaged: from risk on, until past and clear")
    place, states, begun = (4250.0, 150.0), [], False
    for step in range(60):
        way = (-12.0, 0.0) if step < 18 else (-11.0, 5.0) if step < 34 else (-12.0, 0.0)
        risky, clear = at_risk(place, way, detect), past_and_clear(place, way, detect)
        begun = risky or (begun and not clear)
        states.append((place, risky, begun, clear))
        place = moved(place, way, tick)

    def on(there: Point) -> Point:
        return origin[0] + there[0] / scale, origin[1] - there[1] / scale

    ring(picture, origin, detect["risk"] / scale, RED, stroke_dasharray="5 4")
    ring(picture, origin, detect["clear"] / scale, GREEN, stroke_dasharray="5 4")
    picture.words(origin[0], origin[1] + detect["risk"] / scale + 16, "risk: %d m" % detect["risk"], 12, RED, "middle")
    picture.words(origin[0], origin[1] + detect["clear"] / scale + 16, "clear: %d m" % detect["clear"], 12, GREEN,
                  "middle")
    hull(picture, origin, 0, BLUE)
    picture.words(origin[0] - 22, origin[1] + 5, "A", 14, BLUE, "middle", "bold")
    for there, risky, held, _ in states:
        picture.dot(on(there), 3.5, RED if risky else AMBER if held else GREY)
    first = next(k for k, state in enumerate(states) if state[2])
    calm = next(k for k in range(first, len(states)) if not states[k][1])
    last = next(k for k in range(first, len(states)) if not states[k][2])
    for k, line, down, side in ((first, "risk begins", 24, "end"), (calm, "no risk, still engaged", -14, "start"),
                                (last, "past and clear", -14, "end")):
        at = on(states[k][0])
        picture.words(at[0] + (20 if k == first else 4), at[1] + down, "step %d: %s" % (k, line), 12, INK, side,
                      halo=True)
    fields = ("risk", 1, RED), ("engaged", 2, AMBER), ("past and clear", 3, GREEN)
    for row, (name, field, stroke) in enumerate(fields):
        y = 326 + 18 * row
        picture.words(112, y + 10, name, 12, INK, "end")
        for k, state in enumerate(states):
            picture.box(120 + 9 * k, y, 8, 12, stroke if state[field] else PALE)
    picture.words(120, 392, "steps 0 to %d, of %d s each" % (len(states) - 1, tick), 11, GREY)
    picture.words(
        12, 22,
        "As seen from A: B comes from the right, and from step 18 on they pass wider. A dot is the first tick of a "
        "step.", 12)
    return picture.text()


def sector(picture: Picture, at: Point, radius: float, first: float, last: float, fill: str) -> None:
    points = [at] + arc(at, radius, first, last)
    picture.add("polygon", points=" ".join("%.1f,%.1f" % point for point in points), fill=fill, stroke="#ffffff",
                stroke_width="1")


def seen(head: float, place: Point) -> float:
    """Returns the bearing of a place from a vessel's head, in degrees."""
    return (math.degrees(math.atan2(place[0], place[1])) - head) % 360


def kind(speeds: Point, course: float, place: Point, given: Numbers) -> str:
    """Returns the kind of a meeting of A, who heads north, and B, by the table of docs/RULES.md."""
    detect, angle = given["detect"], math.radians(course)
    way = speeds[1] * math.sin(angle), speeds[1] * math.cos(angle) - speeds[0]
    closing = place[0] * way[0] + place[1] * way[1] < 0
    other, own = seen(0, place), seen(course, (-place[0], -place[1]))
    if closing and 112.5 < own < 247.5:
        return "overtaking"
    if closing and 112.5 < other < 247.5:
        return "overtaken"
    ahead = all(min(bearing, 360 - bearing) <= detect["ahead"] / 10 for bearing in (other, own))
    if ahead and abs(course - 180) <= detect["reciprocal"] / 10:
        return "head_on"
    if other <= 112.5 and (own >= 247.5 or own == 0):
        return "crossing_gives"
    if own <= 112.5 and (other >= 247.5 or other == 0):
        return "crossing_stands"
    return "passing"


def meeting(picture: Picture, left: float, top: float, case: Meeting, given: Numbers) -> None:
    """Draws A in blue, with her bow up, and B in grey, on a course and in a place."""
    words, speeds, course, place, first = case
    if kind(speeds, course, place, given) != words:
        raise SystemExit("draw_rules: the drawing of a kind contradicts its computed kind")
    at = left + 75 + first[0], top + 85 + first[1]
    picture.box(left, top, 150, 168, "#f7f7f7")
    b, angle = (at[0] + place[0], at[1] - place[1]), math.radians(course)
    hull(picture, at, 0, BLUE)
    arrow(picture, (at[0], at[1] - 18), (at[0], at[1] - 18 - 14 * speeds[0]), BLUE)
    hull(picture, b, course, "#aaaaaa")
    across, up = math.sin(angle), math.cos(angle)
    long = 18 + 14 * speeds[1]
    arrow(picture, (b[0] + 18 * across, b[1] - 18 * up), (b[0] + long * across, b[1] - long * up), GREY)
    picture.words(at[0] - 16, at[1] + 5, "A", 13, BLUE, "middle", "bold")
    picture.words(b[0] + 17 * abs(up), b[1] + 5 + 18 * abs(across), "B", 13, GREY, "middle", "bold")
    picture.words(left + 75, top + 160, words, 13, INK, "middle", "bold")


def classes(given: Numbers) -> str:
    ahead = given["detect"]["ahead"] / 10
    picture = Picture(830, 384, "Where a vessel sees another, and the kinds of a meeting")
    at, radius = (175, 200), 120
    sector(picture, at, radius, 0, 112.5, "#cfe8cf")
    sector(picture, at, radius, 112.5, 247.5, "#e6e6e6")
    sector(picture, at, radius, 247.5, 360, "#f4d3d0")
    sector(picture, at, radius, -ahead, ahead, "#f7e3a1")
    hull(picture, at, 0, BLUE, 11)
    for degrees, words, anchor in ((0, "ahead: %g° to either side" % ahead, "middle"), (112.5, "112.5°", "start"),
                                   (247.5, "247.5°", "end")):
        x, y = arc(at, radius + 6, degrees, degrees)[0]
        picture.words(x, y, words, 12, INK, anchor)
    for degrees, words in ((56, "starboard"), (180, "abaft"), (304, "port")):
        x, y = arc(at, radius * 0.62, degrees, degrees)[0]
        picture.words(x, y + 4, words, 13, INK, "middle")
    picture.words(12, 22, "Bearings from a vessel's own head", 12)
    picture.words(360, 22, "The kinds, as A sees them", 12)
    kinds = [("overtaking", (2, 0.8), 0, (36, 44), (-15, 20)), ("head_on", (1, 1), 180, (2, 90), (0, 42)),
             ("crossing_gives", (1, 1), 270, (52, 40), (-10, 15)), ("overtaken", (0.8, 2), 0, (-36, -48), (20, 0)),
             ("passing", (1, 1), 180, (-45, 64), (22, 24)), ("crossing_stands", (1, 1), 90, (-52, 40), (20, 15))]
    for k, case in enumerate(kinds):
        meeting(picture, 360 + 155 * (k % 3), 34 + 172 * (k // 3), case, given)
    return picture.text()


def ranks(given: Numbers) -> str:
    names = ["power-driven", "sailing", "fishing", "restricted", "not under command"]
    picture = Picture(736, 250, "Who gives way by rank")
    picture.words(12, 22, "A row says what A is, a column what B is. Restricted: in her ability to manoeuvre.", 12)
    for k, name in enumerate(names):
        picture.words(128, 80 + 36 * k, name, 12, INK, "end")
        picture.words(195 + 116 * k, 50, name, 12, INK, "middle")
        for other in range(5):
            gives, stands = k < other and k < 3, other < k and other < 3
            words, fill = (
                ("A gives way", "#cfe0f0") if gives else ("B gives way", "#eeeeee") if stands else ("", "#fafafa")
            )
            picture.box(140 + 116 * other, 60 + 36 * k, 110, 30, fill)
            picture.words(195 + 116 * other, 80 + 36 * k, words, 12, BLUE if gives else GREY, "middle")
    return picture.text()


DRAWINGS = {
    "rules_risk.svg": risk, "rules_engaged.svg": engaged, "rules_classes.svg": classes, "rules_ranks.svg": ranks
}


def drawings() -> dict[str, str]:
    """Returns each drawing by the name of its file in docs/."""
    given = numbers()
    return {name: draw(given) for name, draw in DRAWINGS.items()}


def main() -> None:
    """Writes the drawings into the folder that the argument names."""
    if len(sys.argv) != 2 or sys.argv[1].startswith("-"):
        sys.exit(__doc__)
    for name, text in drawings().items():
        with open(os.path.join(sys.argv[1], name), "w", encoding="utf-8", newline="") as out:
            out.write(text)


if __name__ == "__main__":
    main()
