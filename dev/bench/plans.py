#!/usr/bin/env python3
"""Makes scenarios and logs, plans by two programs on each, and compares what they write.

    dev/bench/plans.py PROGRAM OTHER [--first SEED] [--count N] [--shapes] [--why]

Both programs take `plan SCENARIO` and a log on standard input. Each seed makes one scenario and one log. Own ship is
about to meet other vessels: they cross from either side, come from ahead, are overtaken or overtake, run beside her or
lie still; some alter before now, some are predicted to alter, and some are lost. A message 5, 19 or 24, or none, gives
the length of a vessel. The plans are from one to some thousands, of one to eight legs; own ship may be slow to turn;
and in some seeds she is not ready, too many vessels are near, or the scenario is refused. With --shapes domains are
shapes of six vertices, and a few of these are refused. With --why both programs say why every plan fails, and the plans
are fewer. If statuses or outputs differ, the seed is printed and its files stay in the folder `--keep`.
"""
import math
import random
import sys
from collections.abc import Iterator
from typing import Any

from audits import ATOMS, NAMES, compared, formula, keys, latitude_of, reports, text_of, words
from harbour import damage
from sentences import START, Entry, Vessel, armour, hull_part, name_part, position_report, sentence, tagged, voyage

Place = tuple[float, float]
POSITIONS = 20000000    # plans, their positions and their targets multiplied out are at most so many
MEETINGS = {  # course against own ship's in tenths of a degree, and speed by own ship's, from and to
    "from starboard": (2250, 3150, 0.5, 1.6),
    "from port": (450, 1350, 0.5, 1.6),
    "head on": (1740, 1860, 0.5, 1.6),
    "overtaken": (-200, 200, 0.2, 0.7),
    "overtaking": (-200, 200, 1.3, 2.2),
    "beside": (-60, 60, 0.9, 1.1),
    "any": (0, 3599, 0, 2),
}
UNREADY = ["no report", "too old", "no course", "no speed"]
TAME = [
    "engaged -> clear(150)", "risk -> F[0,{0}] !risk", "(ahead & close(600)) -> false",
    "engaged -> !(ahead & close(900))", "(begin & crossing_gives) -> F[0,{0}] (alters | !engaged)",
    "(engaged & crossing_stands) -> (!to_port | O[0,{0}] close(500))", "(close(400) & opening) -> other_on_port",
    "(engaged U[0,{0}] clear(200)) | !risk | true", "H[0,{0}] (!close(250) | opening)"
]
FAULTS = [("legs = ", "legs = 9 #"), ("courses = [", "courses = [1801, "), ("speeds = [", "speeds = [0.5, "),
          ("leg_ticks = ", "leg_ticks = 7201 #"), ("tail = ", "tail = -1 #"), ("range = ", "ranges = "),
          ("base = ", "base = 100001 #"), ("[own]", "[ours]"),
          ("[own]", "[[predict]]\nmmsi = 200000000\nchanges = [[0, 3600, 0]]\n[own]"), ("[own]", "own = 1\n[ours]"),
          ("[own]", "[[predict]]\nmmsi = 200000000\nchanges = [[60, 0, 0], [60, 1, 0]]\n[own]"),
          ("tail = ", "tail = 7200 #")]


def velocity(course: float, speed: float) -> Place:
    angle, way = math.radians(course / 10), speed / 36000 * 1852
    return way * math.sin(angle), way * math.cos(angle)


def vessel(draw: random.Random, mmsi: int, course: int, speed: int, now: int, place: Place) -> Vessel:
    """Returns a vessel that is at a place now, if she goes straight until then."""
    return {
        "mmsi": mmsi,
        "course": course % 3600,
        "speed": speed,
        "meets": now,
        "off": place,
        "kind": draw.choice([1, 1, 2, 3, 18]),
        "period": draw.choice([5, 10, 20, 30]),
        "phase": 0 if now < 60 else draw.randrange(0, 10),
        "alters": now * draw.uniform(0.1, 1) if draw.random() < 0.15 else None,
        "turn": draw.choice([-400, -150, -60, 60, 150, 400]),
        "slows": draw.choice([0, 0, -60]),
        "lost": (now * draw.uniform(0.3, 1), draw.choice([40, 400])) if draw.random() < 0.1 else None,
        "heading": draw.random() < 0.9,
        "hull": draw.choice(["none", "5", "5", "19", "24", "24 name", "24 size"]),
        "size": (draw.choice([30, 60, 70, 80]), draw.choice([0, 10, 40, 80, 150, 250]),
                 draw.choice([0, 5, 10, 30, 100]), 10, 10),
    }


def target(draw: random.Random, own: Vessel, now: int) -> Vessel:
    """Returns a vessel that is nearest to own ship some minutes after now, if both keep on."""
    least, most, slow, fast = MEETINGS[draw.choice(["from starboard"] * 3 + list(MEETINGS))]
    course = (own["course"] + draw.randint(least, most)) % 3600
    speed = 0 if draw.random() < 0.05 else min(300, round(max(own["speed"], 60) * draw.uniform(slow, fast)))
    mine, hers = velocity(own["course"], own["speed"]), velocity(course, speed)
    until = draw.choice([60, 200, 300, 300, 400, 600, 900]) * draw.uniform(0.7, 1.4)
    miss = draw.choice([0, 0, 100, 200, 400, 1000])
    east, north = ((a - b) * until + draw.gauss(0, miss) for a, b in zip(mine, hers))
    return vessel(draw, 200000000 + draw.randrange(0, 5) * 100000000 + draw.randrange(0, 1000000), course, speed, now,
                  (east, north))


def statics(draw: random.Random, ship: Vessel, k: int, now: int) -> Iterator[Entry]:
    """Yields the messages with a vessel's name and size, before now; a message 19 has them in her reports."""
    name, at = draw.choice(NAMES), min(3 * k, now)
    size = (ship["mmsi"],) + ship["size"]
    if ship["hull"] == "5":
        payload, fill = armour(voyage(ship["mmsi"], name, *ship["size"]))
        yield at, [
            tagged(START + at, sentence(2, 1, k % 10, "A", payload[:56], 0)),
            sentence(2, 2, k % 10, "A", payload[56:], fill)
        ]
    if ship["hull"] in ("24", "24 name"):
        yield at, [tagged(START + at, sentence(1, 1, "", "A", *armour(name_part(ship["mmsi"], name))))]
    if ship["hull"] in ("24", "24 size"):
        yield at, [tagged(START + at, sentence(1, 1, "", "B", *armour(hull_part(*size))))]


def blind_report(own: Vessel, now: int, latitude: int, what: str) -> Entry:
    """Returns a last report of own ship without a course or a speed."""
    north = round(latitude + own["off"][1] / 1852 * 10000)
    east = round(own["off"][0] / 1852 * 10000 / math.cos(math.radians(latitude / 600000)))
    bits = position_report(1, own["mmsi"], north, east, 1023 if what == "no speed" else own["speed"],
                           3600 if what == "no course" else own["course"], 511, 0)
    return now, [tagged(START + now, sentence(1, 1, "", "A", *armour(bits)))]


def lattice(draw: random.Random, tick: int, targets: int) -> list[str]:
    """The lines of own ship's plans: few enough that a run stays short."""
    courses = draw.choice([[0], [0, 300, 600], [0, 300, 600, 900, -300, -600],
                           [0, 100, -100, 200, -200, 300, 400, 600, 900], [0, 200, -200], [0, 150, 300, 450, 600, 900],
                           [draw.randrange(-1800, 1801) for _ in range(draw.randrange(1, 8))],
                           [0] + list(range(-1500, 1501, 300))])
    speeds = draw.choice([[0], [0], [0, -50], [0, -50], [0, -30, -60, -90], [0, -1022], [0, 30],
                          [draw.randrange(-120, 60) for _ in range(2)]])
    legs, seconds = draw.choice([1, 1, 2, 2, 3, 4, 8]), draw.choice([tick, 60, 120, 180, 180, 300, 300, 600])
    leg_ticks, tail = max(1, seconds // tick), draw.choice([0, 0, 1, 10, 30])
    while legs > 1 and ((len(courses) * len(speeds)) ** legs > 6000 or legs * leg_ticks * tick > 3600 or
                        (len(courses) * len(speeds)) ** legs * (legs * leg_ticks + tail) * targets > POSITIONS):
        legs -= 1
    lines = [
        "courses = %s" % courses,
        "speeds = %s" % speeds,
        "legs = %d" % legs,
        "leg_ticks = %d" % leg_ticks,
        "tail = %d" % tail,
        "base = %d" % draw.choice([0, 0, 50, 100, 150, 300]),
        "lengths = %d" % draw.choice([0, 0, 1, 2, 4]),
        "range = %d" % draw.choice([5000, 20000, 50000, 50000])
    ]
    if draw.random() < 0.35:
        lines.append("turn_rate = %d" % draw.choice([1, 10, 30, 100, 300]))
    if draw.random() < 0.35:
        lines.append("speed_rate = %d" % draw.choice([1, 5, 20, 100]))
    return lines


def is_shape(vertices: list[Any]) -> bool:
    edges = [(b[0] - a[0], b[1] - a[1]) for a, b in zip(vertices, vertices[1:] + vertices[:1])]
    return all(edge[1] * after[0] < edge[0] * after[1] and edge[0] * vertex[1] < edge[1] * vertex[0]
               for vertex, edge, after in zip(vertices, edges, edges[1:] + edges[:1]))


def shape(draw: random.Random) -> list[Any]:
    """Six vertices clockwise about a vessel, on an ellipse that reaches farther ahead of her than aft; a few are no
    shape, or no vertices."""
    vertices: list[Any] = []
    while not vertices or not is_shape(vertices):
        long, wide = draw.choice([40, 150, 300, 600, 1150]), draw.choice([20, 80, 150, 300, 600])
        ahead, angles = draw.uniform(-0.2, 0.7), sorted(draw.uniform(0, 2 * math.pi) for _ in range(6))
        vertices = [[round(long * (math.cos(at) + ahead)), round(wide * math.sin(at))] for at in angles]
    if draw.random() < 0.04:
        k = draw.randrange(6)
        vertices = draw.choice([
            vertices[::-1], vertices[:5], vertices + [[1, 1]], vertices[:k] + [[2001, 0]] + vertices[k + 1:],
            vertices[:k] + [[0.5, 0]] + vertices[k + 1:], vertices[:k] + [[1, 2, 3]] + vertices[k + 1:],
            vertices[:k] + [7] + vertices[k + 1:]
        ])
    return vertices


def shaped(seed: int) -> tuple[str, str]:
    text, sentences = make(seed)
    return text.replace("[own]\n", "[own]\nshape = %s\n" % shape(random.Random("shape %d" % seed)), 1), sentences


def changes(draw: random.Random, fleet: list[Vessel], tick: int) -> Iterator[str]:
    """Yields predictions for some vessels of the log, or for one that is not in it."""
    ships = draw.sample(fleet, min(len(fleet), draw.choice([0, 0, 0, 1, 2])))
    if draw.random() < 0.1:
        ships.append({"mmsi": 799999999, "course": 0, "speed": 0})
    for ship in ships:
        after = sorted(draw.sample(range(0, 60), draw.choice([1, 1, 2, 4])))
        yield from ["[[predict]]", "mmsi = %d" % ship["mmsi"], "changes = %s" % [
            [k * tick, (ship["course"] + draw.choice([0, 150, 400, -150, -400])) % 3600,
             max(0, ship["speed"] + draw.choice([0, 0, -30, 40]))] for k in after]]


def added(draw: random.Random, tick: int) -> Iterator[str]:
    """Formulas that a plan may keep, for the most part."""
    for k in range(draw.choice([0, 0, 0, 1, 2])):
        text = draw.choice(TAME).format(draw.choice([1, 3, 8]) * tick)
        if draw.random() < 0.2:
            text = formula(draw, tick, 2)
        elif draw.random() < 0.2:
            text = "(%s & engaged & risk) -> %s" % (draw.choice(ATOMS), text)
        yield from ["[[formula]]", 'name = "u%d"' % (k + 1), 'text = "%s"' % text]


def lenient(draw: random.Random, lines: list[str]) -> list[str]:
    """The scenario with less asked by its rules, so that the domains decide."""
    near = draw.choice([1, 50])
    return [
        "%s = %d" % (line.split(" = ")[0], near) if line.startswith(("safe", "overtake")) else line for line in lines
    ]


def make(seed: int) -> tuple[str, str]:
    draw = random.Random(seed)
    tick, back = draw.choice([1, 2, 5, 10, 10, 10, 15, 30, 60]), draw.choice([0, 0, 0, 37])
    ticks = max(1, draw.choice([tick, 60, 200, 400, 900]) // tick)
    now = ticks * tick + back
    unready = draw.choice(UNREADY) if draw.random() < 0.05 else None
    own = vessel(draw, 300000000 + draw.randrange(1000), draw.randrange(3600), draw.choice([60, 120, 120, 180, 240]),
                 now, (0, 0))
    own["lost"] = (0 if now < 700 else 30, now + 100) if unready == "too old" else None
    crowd = draw.random() < 0.01
    fleet = [target(draw, own, now) for _ in range(70 if crowd else draw.choice([0] + [1] * 12 + [2] * 6 + [3, 3, 5]))]
    lines = keys(draw, fleet or [own], START + back, tick, ticks)
    lines = (lenient(draw, lines) if draw.random() < 0.5 else lines) + list(added(draw, tick))
    lines += ["[own]", "mmsi = %d" % (own["mmsi"] + (unready == "no report"))] + lattice(draw, tick, max(1, len(fleet)))
    text = "\n".join(lines + list(changes(draw, fleet, tick))) + "\n"
    if draw.random() < 0.02:
        text = text.replace(*draw.choice(FAULTS), 1)
    return text, log(draw, [own] + fleet, now, latitude_of(text), unready)


def log(draw: random.Random, fleet: list[Vessel], now: int, latitude: int, unready: str | None) -> str:
    lines, until = [], now + draw.choice([0, 1, 1, 60])
    for k, ship in enumerate(fleet):
        if ship["hull"] == "19":
            ship["kind"], ship["ship"] = 18, (draw.choice(NAMES),) + ship["size"]
        lines += list(reports(draw, ship, until, latitude)) + list(statics(draw, ship, k, now))
    if unready in ("no course", "no speed"):
        lines = [line for line in lines if line[0] < now] + [blind_report(fleet[0], now, latitude, unready)]
    if draw.random() < 0.3:
        lines += list(damage())
    return text_of(draw, lines)


def choice(report: bytes) -> str:
    """Returns what was answered: the first plan, a later one, none, or nothing."""
    rows = [row.split(",") for row in report.decode().split("\n")]
    return next(("none" if row[0] == "none" else "plan 0" if row[1] == "0" else "a later plan"
                 for row in rows
                 if row[0] in ("plan", "none")), "")


def main() -> int:
    global POSITIONS
    args = words(__doc__, "plans-kept", "--shapes", "--why")
    if args.why:
        POSITIONS = 1000000
    same, statuses, choices = 0, dict[int, int](), dict[str, int]()
    for _, mine, theirs in compared(args, "plan", shaped if args.shapes else make, *["--why"] * args.why):
        same += mine == theirs
        statuses[mine[0]] = statuses.get(mine[0], 0) + 1
        choices[choice(mine[1])] = choices.get(choice(mine[1]), 0) + 1
    print("%d of %d the same" % (same, args.count))
    for status, meaning in ((0, "a plan"), (1, "none"), (9, "own ship is not ready")):
        print("%8d ended with %d, %s" % (statuses.pop(status, 0), status, meaning))
    print("%8d ended with others: %s" % (sum(statuses.values()), dict(sorted(statuses.items()))))
    print("%8d of the plans are the first of all, %d a later one" %
          (choices.get("plan 0", 0), choices.get("a later plan", 0)))
    return 0 if same == args.count else 1


if __name__ == "__main__":
    sys.exit(main())
