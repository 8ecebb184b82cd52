#!/usr/bin/env python3
"""Makes scenarios and logs, runs two programs on each, and compares what they write.

    dev/bench/audits.py PROGRAM OTHER [--first SEED] [--count N] [--ranks] [--watch]

Both programs take `audit SCENARIO` and a log on standard input. Each seed makes one scenario, with numbers, formulas
and subjects of its own, and one log: a fleet whose vessels meet head on, cross, overtake or pass; some alter course,
slow down, are lost for a while or send static data; between their reports are damaged lines, and the window may cut the
log at either end. With `--ranks` ranks count: vessels have statuses, which may change, and send ship types, some of
them late. With `--watch` the mode is `watch`, and the alarms must also be at the positions at which the program's own
audit has a rule broken. If statuses or outputs differ, the seed is printed and its files stay in the folder `--keep`.
"""
import argparse
import math
import os
import random
import subprocess
import sys
from collections.abc import Callable, Iterator, Sequence

from harbour import damage
from sentences import START, Entry, Vessel, armour, extended, hull_part, position_report, sentence, tagged, voyage

Run = tuple[int, bytes, bytes]              # the status, and what went to standard output and to standard error
Maker = Callable[[int], tuple[str, str]]    # makes a scenario and a log of a seed
ATOMS = ["true", "false", "seen", "risk", "engaged", "begin", "overtaking", "overtaken", "head_on", "crossing_gives",
         "crossing_stands", "passing", "unclassified", "opening", "other_on_port", "ahead", "alters", "apparent",
         "to_starboard", "to_port", "other_apparent"]
STATUSES = [0, 0, 1, 2, 3, 7, 7, 8, 15, 15, 15]
TYPES = [0, 30, 30, 31, 36, 36, 60, 70]
NAMES = ["ALPHA", "BRAVO, OF HULL", "CHARLIE \"C\"", "DELTA", "ECHO-9", "FOX"]


def bounds(draw: random.Random, tick: int) -> str:
    lower = draw.choice([0, 0, 1, 2]) * tick
    return "[%d,%d]" % (lower, lower + draw.choice([0, 1, 2, 5, 9]) * tick)


def formula(draw: random.Random, tick: int, depth: int, atoms: list[str] = ATOMS) -> str:
    if depth == 0:
        kind = draw.randrange(10)
        if kind == 0:
            return "clear(%d)" % draw.choice([0, 50, 200, 900, 3000])
        if kind == 1:
            return "close(%d)" % draw.choice([100, 300, 1500])
        if kind == 2:
            return "age(%d)" % (draw.randrange(6) * tick)
        return draw.choice(atoms)
    kind = draw.randrange(8)
    if kind == 0:
        return "!" + formula(draw, tick, depth - 1, atoms)
    if kind <= 3:
        return "(%s %s %s)" % (formula(draw, tick, depth - 1, atoms), draw.choice(
            ["&", "|", "->"]), formula(draw, tick, depth - 1, atoms))
    if kind <= 6:
        return "%s%s %s" % (draw.choice("FGOH"), bounds(draw, tick), formula(draw, tick, depth - 1, atoms))
    return "(%s %s%s %s)" % (formula(draw, tick, depth - 1, atoms), draw.choice("US"), bounds(
        draw, tick), formula(draw, tick, depth - 1, atoms))


def formulas(draw: random.Random, tick: int, atoms: list[str]) -> Iterator[str]:
    for k in range(draw.choice([0, 0, 1, 2, 5])):
        yield from [
            "[[formula]]",
            'name = "u%d"' % (k + 1),
            'text = "%s"' % formula(draw, tick, draw.randrange(1, 4), atoms)
        ]


def keys(draw: random.Random, fleet: list[Vessel], start: int, tick: int, ticks: int) -> list[str]:
    """The lines of a scenario, all but its formulas."""
    times = [draw.randrange(0, 12) * tick for _ in range(5)]
    four = draw.random() < 0.3
    lines = ["version = %d" % (2 if four else 1)]
    if draw.random() < 0.3:
        lines.append(
            "subjects = [%s]"
            % ", ".join(str(v["mmsi"]) for v in draw.sample(fleet, draw.randrange(1, min(4, len(fleet)) + 1)))
        )
    lines += ["[window]", "start = %d" % start, "tick = %d" % tick, "ticks = %d" % ticks]
    lines += ["[reference]", "lat = %d" % draw.choice([0, 28549600, -20000000]), "lon = 0"]
    lines += ["[log]", "gap = %d" % max(tick, draw.choice([30, 90, 600])), "slack = %d" % draw.choice([0, 20, 60]),
              "max_speed = %d" % draw.choice([300, 500, 1022])]
    lines += ["[detect]", "watch = %d" % draw.choice([1500, 5000, 9000]), "risk = %d" % draw.choice([150, 500, 1200]),
              "clear = %d" % draw.choice([200, 1000]), "horizon = %d" % (draw.choice([1, 10, 40, 100]) * tick),
              "doubt = %d" % draw.choice([0, 30, 200]), "ahead = %d" % draw.choice([50, 100, 200]),
              "reciprocal = %d" % draw.choice([60, 100, 250])]
    lines += ["[act]", "steady_turn = %d" % draw.choice([0, 50]), "apparent_turn = %d" % draw.choice([100, 200]),
              "steady_speed = %d" % draw.choice([0, 10]), "apparent_speed = %d" % draw.choice([20, 50])]
    lines += ["[rules]", "overtake = %d" % draw.choice([100, 400]), "close = %d" % draw.choice([200, 600])]
    lines += ["%s = %d" % (name, time) for name, time in zip(["t8", "ta", "tl", "tw", "te"], times)]
    if four:
        lines += ["safe_head_on = %d" % draw.choice([100, 400]), "safe_overtaking = %d" % draw.choice([100, 400]),
                  "safe_crossing = %d" % draw.choice([100, 400]), "safe_other = %d" % draw.choice([100, 400])]
    else:
        lines += ["safe = %d" % draw.choice([100, 200, 700])]
    return lines


def scenario(draw: random.Random, fleet: list[Vessel], span: int, atoms: list[str] = ATOMS) -> str:
    tick = draw.choice([1, 2, 5, 7, 10, 10, 15, 30, 60])
    ticks = max(1, min(400, draw.choice([span, span, span // 2, span * 2]) // tick))
    start = START + draw.choice([0, 0, 0, -60, 37, span // 3])
    return "\n".join(keys(draw, fleet, start, tick, ticks) + list(formulas(draw, tick, atoms))) + "\n"


def meeting_fleet(draw: random.Random, span: int) -> Iterator[Vessel]:
    """Yields vessels that come near one point at about one time."""
    base = draw.randrange(0, 3600)
    for k in range(draw.choice([2, 2, 3, 4, 6])):
        course = (base + draw.choice([0, 0, 1800, 1800, 900, 2700, 450, 1350, 3150, 30, 1770])
                  + draw.randrange(-40, 41)) % 3600
        speed = draw.choice([0, 60, 120, 180, 240])
        yield {
            "mmsi": 200000000 + draw.randrange(0, 5) * 100000000 + draw.randrange(0, 1000000),
            "course": course,
            "speed": speed,
            "meets": span * draw.uniform(0.3, 0.8),
            "off": (draw.gauss(0, 250), draw.gauss(0, 250)),
            "kind": draw.choice([1, 1, 3, 18]),
            "period": draw.choice([5, 10, 20, 30]),
            "phase": draw.randrange(0, 10),
            "alters": span * draw.uniform(0.1, 0.9) if draw.random() < 0.6 else None,
            "turn": draw.choice([-600, -300, -60, 60, 300, 600]),
            "slows": draw.choice([0, 0, -60, -120]),
            "lost": (span * draw.uniform(0.2, 0.8), draw.choice([40, 120, 700])) if draw.random() < 0.3 else None,
            "heading": draw.random() < 0.8,
            "voyage": draw.random() < 0.5,
        }


def status_of(vessel: Vessel, elapsed: int) -> int:
    """Returns the navigational status that she sends: 0 if ranks do not count."""
    if "statuses" not in vessel:
        return 0
    first, second, changes = vessel["statuses"]
    return int(first if elapsed < changes else second)


def reported_types(draw: random.Random, fleet: list[Vessel], span: int) -> Iterator[Entry]:
    """Yields ship types, each at any time, some in lines that come later than others with later times."""
    for vessel in fleet:
        for _ in range(draw.choice([0, 1, 1, 2, 3])):
            at = draw.randrange(0, span)
            if draw.random() < 0.5:
                payload, fill = armour(hull_part(vessel["mmsi"], draw.choice(TYPES), 40, 10, 5, 5))
                yield at, [tagged(START + at, sentence(1, 1, "", "A", payload, fill))]
            else:
                payload, fill = armour(voyage(vessel["mmsi"], draw.choice(NAMES), draw.choice(TYPES), 60, 20, 10, 12))
                yield at, [
                    tagged(START + at, sentence(2, 1, at % 10, "A", payload[:56], 0)),
                    sentence(2, 2, at % 10, "A", payload[56:], fill)
                ]


def reports(draw: random.Random, vessel: Vessel, span: int, latitude: int) -> Iterator[Entry]:
    course, speed = vessel["course"], vessel["speed"]
    angle = math.radians(course / 10)
    way = speed * vessel["meets"] / 36000 * 1852
    x, y = vessel["off"][0] - way * math.sin(angle), vessel["off"][1] - way * math.cos(angle)
    at = 0
    for elapsed in range(vessel["phase"], span, vessel["period"]):
        if vessel["alters"] is not None and elapsed >= vessel["alters"] and course == vessel[
                "course"] and speed == vessel["speed"]:
            course, speed = (course + vessel["turn"]) % 3600, max(0, speed + vessel["slows"])
        angle = math.radians(course / 10)
        step = speed * (elapsed - at) / 36000 * 1852
        x, y, at = x + step * math.sin(angle), y + step * math.cos(angle), elapsed
        if vessel["lost"] is not None and vessel["lost"][0] <= elapsed < sum(vessel["lost"]):
            continue
        north = round(latitude + y / 1852 * 10000)
        east = round(x / 1852 * 10000 / math.cos(math.radians(latitude / 600000)))
        heading = course // 10 if vessel["heading"] else 511
        bits = position_report(vessel["kind"], vessel["mmsi"], north, east, speed if draw.random() < 0.97 else 1023,
                               course if draw.random() < 0.97 else 3600, heading, elapsed % 60,
                               status_of(vessel, elapsed))
        payload, fill = armour(extended(bits, *vessel["ship"]) if "ship" in vessel else bits)
        yield elapsed, [tagged(START + elapsed, sentence(1, 1, "", "AB"[elapsed % 2], payload, fill))]


def voyages(draw: random.Random, fleet: list[Vessel]) -> Iterator[Entry]:
    for k, vessel in enumerate(fleet):
        if vessel["voyage"]:
            payload, fill = armour(
                voyage(vessel["mmsi"], draw.choice(NAMES), 60 + k, draw.randrange(200), draw.randrange(100), 10, 12))
            yield 7 * k, [
                tagged(START + 7 * k, sentence(2, 1, k % 10, "A", payload[:56], 0)),
                sentence(2, 2, k % 10, "A", payload[56:], fill)
            ]


def text_of(draw: random.Random, lines: list[Entry]) -> str:
    """The log of lines with their times: most in order, and some later than that."""
    ordered = sorted(lines, key=lambda entry: entry[0] + (draw.choice([0, 0, 0, 15, 70])
                                                          if draw.random() < 0.05 else 0))
    return "".join(line + "\n" for _, texts in ordered for line in texts)


def latitude_of(scenario: str) -> int:
    return int(scenario.split("lat = ")[1].split("\n")[0])


def make(seed: int) -> tuple[str, str]:
    draw = random.Random(seed)
    span = draw.choice([200, 400, 900, 1500])
    fleet = list(meeting_fleet(draw, span))
    text = scenario(draw, fleet, span)
    lines = [entry for vessel in fleet
             for entry in reports(draw, vessel, span, latitude_of(text))] + list(voyages(draw, fleet))
    if draw.random() < 0.5:
        lines += list(damage())
    return text, text_of(draw, lines)


def make_ranked(seed: int) -> tuple[str, str]:
    """The same, where ranks count."""
    draw = random.Random(seed)
    span = draw.choice([200, 400, 900, 1500])
    fleet = list(meeting_fleet(draw, span))
    for vessel in fleet:
        vessel["statuses"] = (draw.choice(STATUSES), draw.choice(STATUSES),
                              draw.choice([span, span, span * draw.random()]))
    text = scenario(draw, fleet, span,
                    ATOMS + ["rank_gives", "rank_stands", "both_power"]).replace("[rules]\n", "[rules]\nranks = 1\n")
    lines = [entry for vessel in fleet
             for entry in reports(draw, vessel, span, latitude_of(text))] + list(reported_types(draw, fleet, span))
    return text, text_of(draw, lines)


def run(program: str, mode: str, folder: str, log: str, options: Sequence[str]) -> Run:
    """The status, and what went to standard output and to standard error."""
    done = subprocess.run([program, mode, "scenario.toml", *options], input=log.encode(), cwd=folder,
                          stdout=subprocess.PIPE, stderr=subprocess.PIPE)
    return done.returncode, done.stdout, done.stderr


def kind_of(row: str) -> str:
    fields = row.split(",")
    return " ".join(
        fields[:1]
        + (fields[3:5] if fields[0] == "verdict" else fields[3:4] if fields[0] in ("meeting", "alarm") else [])
    )


def words(description: str | None, kept: str, *flags: str) -> argparse.Namespace:
    parser = argparse.ArgumentParser(description=description, formatter_class=argparse.RawDescriptionHelpFormatter)
    parser.add_argument("program")
    parser.add_argument("other")
    parser.add_argument("--first", type=int, default=1)
    parser.add_argument("--count", type=int, default=300)
    parser.add_argument("--keep", default=kept)
    for flag in flags:
        parser.add_argument(flag, action="store_true")
    return parser.parse_args()


def write_files(folder: str, text: str, log: str) -> None:
    """Writes a scenario and a log where `run` reads them."""
    os.makedirs(folder, exist_ok=True)
    for name, content in (("scenario.toml", text), ("log", log)):
        with open(os.path.join(folder, name), "w") as out:
            out.write(content)


def compared(args: argparse.Namespace, mode: str, make: Maker, *options: str) -> Iterator[tuple[int, Run, Run]]:
    """Each seed with what both programs made of its files; these are kept where the two differ, in status, report or
    the line of a fault."""
    program, other = os.path.abspath(args.program), os.path.abspath(args.other)
    for seed in range(args.first, args.first + args.count):
        text, log = make(seed)
        folder = os.path.join(args.keep, str(seed))
        write_files(folder, text, log)
        mine, theirs = run(program, mode, folder, log, options), run(other, mode, folder, log, options)
        if mine == theirs:
            for name in ("log", "scenario.toml"):
                os.remove(os.path.join(folder, name))
            os.rmdir(folder)
        else:
            print("seed %d differs: statuses %d and %d" % (seed, mine[0], theirs[0]),
                  *(repr(done[2]) for done in (mine, theirs) if done[2]))
        yield seed, mine, theirs


def breaches(report: bytes) -> list[tuple[str, int]]:
    """Returns the positions at which a rule is broken, from the rows of an audit or of a watch."""
    found = []
    for row in report.decode().split("\n"):
        kind, *fields = row.split(",")
        if kind == "alarm":
            found.append((",".join(fields[:3]), int(fields[3])))
        elif kind == "verdict" and fields[3] == "broken":
            found += [(",".join(fields[:3]), step) for step in range(int(fields[4]), int(fields[5]) + 1)]
    return sorted(found)


def watched_alike(args: argparse.Namespace, make: Maker, seed: int, watched: Run) -> bool:
    """Whether the program's own audit has the same positions, each once."""
    text, log = make(seed)
    os.makedirs(args.keep, exist_ok=True)
    with open(os.path.join(args.keep, "scenario.toml"), "w") as out:
        out.write(text)
    audited = run(os.path.abspath(args.program), "audit", args.keep, log, [])
    alike = audited[0] == watched[0] and breaches(audited[1]) == breaches(watched[1])
    if not alike:
        print("seed %d: the alarms are not at the positions that the audit has broken" % seed)
    return alike


def main() -> int:
    args = words(__doc__, "audits-kept", "--ranks", "--watch")
    same, statuses, kinds = 0, dict[int, int](), dict[str, int]()
    made = make_ranked if args.ranks else make
    for seed, mine, theirs in compared(args, "watch" if args.watch else "audit", made):
        same += mine == theirs and (not args.watch or watched_alike(args, made, seed, mine))
        statuses[mine[0]] = statuses.get(mine[0], 0) + 1
        for row in mine[1].decode().split("\n"):
            kinds[kind_of(row)] = kinds.get(kind_of(row), 0) + 1
    print("%d of %d the same; statuses %s" % (same, args.count, statuses))
    for kind in sorted(kinds):
        if kind:
            print("%8d %s" % (kinds[kind], kind))
    return 0 if same == args.count else 1


if __name__ == "__main__":
    sys.exit(main())
