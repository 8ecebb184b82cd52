#!/usr/bin/env python3
"""Makes situations with no plan, and has two programs check why.

    dev/bench/rechecks.py PROGRAM OTHER [--first SEED] [--count N] [--shapes]

Seeds make situations as for plans.py; it takes the first N in which PROGRAM finds that every plan fails. Both programs
then take `recheck SCENARIO --rows NAME`, with the log on standard input. The whole report of `plan --why` must be
right, and so must the same list in another form. Each of twenty copies that were tampered with must be refused, with
the index at which it is wrong. Ten more have a reason exchanged for one that may hold too: there the two programs must
say the same. If they differ, the seed is printed and its files stay in the folder `--keep`.
"""
import collections
import os
import random
import re
import shutil
import sys
from collections.abc import Iterator

import plans
from audits import Run, run, words, write_files

SURE, OPEN = 20, 10
BIG = 1 << 60
Rows = list[list[str]]


class Situation:
    """The numbers of a scenario that a list of entries goes by, the MMSIs of own ship and of the targets, and the
    reasons."""

    def __init__(self, text: str, report: Rows) -> None:
        def value(key: str) -> str:
            return next(found[1] for found in re.finditer(r"^%s = (-?\d+|\[.*\]$)" % key, text, re.M))

        def number(key: str) -> int:
            return int(value(key))

        self.now, self.legs = number("ticks"), number("legs")
        self.leg_ticks, self.tail = number("leg_ticks"), number("tail")
        self.choices = 1
        for key in ("courses", "speeds"):
            self.choices *= len(value(key).split(","))
        self.own = str(number("mmsi"))
        self.targets = [row[1] for row in report if row[0] == "vessel" and row[1] != self.own]
        self.reasons = ["domain", "r8b", "r8d", "r13", "r14a", "r14b", "r14p", "r15", "r16", "r17a", "r17b", "r17c"]
        self.reasons += re.findall(r'^name = "(\w+)"', text, re.M)

    def horizon(self, legs: int) -> int:
        return self.now + legs * self.leg_ticks + (self.tail if legs == self.legs else 0)


def changed(rows: Rows, k: int, **fields: str) -> Rows:
    """Returns the rows, one of them with other fields."""
    names = ["kind", "choices", "target", "reason", "step", "a", "b"]
    row = [fields.get(name, rows[k][at]) for at, name in enumerate(names)]
    return rows[:k] + [row] + rows[k + 1:]


def tamperings(draw: random.Random, situation: Situation, rows: Rows) -> Iterator[tuple[str, Rows, int]]:
    """By name, each with rows that are not right, and the first index at which they are not."""
    k = draw.randrange(len(rows))
    _, choices, target, reason, step, a, b = rows[k]
    legs, horizon = choices.split("."), situation.horizon(len(choices.split(".")))
    beyond = str(int(draw.choice(legs)) + situation.choices)
    yield "taken out", rows[:k] + rows[k + 1:], k
    yield "told twice", rows[:k] + [rows[k]] + rows[k:], k + 1
    yield "another kind", changed(rows, k, kind=draw.choice(["Why", " why", "whys", ""])), k
    yield "a field too many", rows[:k] + [rows[k] + [""]] + rows[k + 1:], k
    yield "a field too few", rows[:k] + [rows[k][:-1]] + rows[k + 1:], k
    yield "no target", changed(rows, k,
                               target=draw.choice([situation.own, "799999998", "0",
                                                   str(int(target) + (1 << 32))])), k
    yield "a zero in front", changed(
        rows, k, **draw.choice([{"choices": "0" + choices}, {"target": "0" + target}, {"step": "0" + step}])), k
    yield "no number", changed(
        rows, k, **{draw.choice(["choices", "target", "step"]): draw.choice(["", "-1", "+0", "0x1", "1 "])}), k
    yield "behind the horizon", changed(rows, k, step=str(horizon + draw.choice([0, 0, 1, 1 << 32]))), k
    yield "no rule", changed(rows, k, reason=draw.choice(["r99", "Domain", ""]), a="", b=""), k
    yield "a rule with an instant", changed(rows, k, reason=draw.choice(situation.reasons[1:]), a="1", b="1"), k
    yield "half an instant", changed(
        rows, k, reason="domain", **draw.choice([{"a": "1", "b": ""}, {"a": "", "b": "1"}])
    ), k
    yield "no choice", changed(rows, k, choices=beyond), k
    yield "a leg too many", changed(rows, k, choices=".".join(legs + ["0"] * (situation.legs + 1 - len(legs)))), k
    yield "a leg left out", changed(rows, k, choices=".".join(legs[:-1])), k
    if situation.choices > 1:
        at = draw.randrange(len(legs))
        digit = (int(legs[at]) + draw.randrange(1, situation.choices)) % situation.choices
        yield "other plans", changed(rows, k, choices=".".join(legs[:at] + [str(digit)] + legs[at + 1:])), k
        if len(legs) < situation.legs:
            yield "a leg more", changed(rows, k, choices=choices + ".0"), k + 1
    if len(rows) > 1:
        i, j = sorted(draw.sample(range(len(rows)), 2))
        yield "two exchanged", rows[:i] + [rows[j]] + rows[i + 1:j] + [rows[i]] + rows[j + 1:], i
        yield "the last first", rows[-1:] + rows[:-1], 0
    if reason == "domain" and a:
        yield "before now", changed(rows, k, step=str(draw.choice([0, situation.now - 1]))), k
        yield "behind the step's end", changed(rows, k, a=str(int(b) + 1)), k
        yield "over nothing", changed(rows, k, a="0", b="0"), k
        yield "numbers too large", changed(rows, k, a=str(int(a) * BIG), b=str(int(b) * BIG)), k


def exchanges(draw: random.Random, situation: Situation, rows: Rows) -> Iterator[Rows]:
    """Rows with a reason exchanged for one that may hold too."""
    k = draw.randrange(len(rows))
    _, _, target, reason, step, a, b = rows[k]
    near = str(max(0, int(step) + draw.choice([-2, -1, 1, 2])))
    yield changed(rows, k, step=near)
    yield changed(rows, k, target=draw.choice(situation.targets))
    yield changed(rows, k, reason=draw.choice(situation.reasons), step=draw.choice([step, near, "0"]), a="", b="")
    instant = draw.choice([(0, 1), (1, 1), (1, 2), (1, 3), (BIG // 2, BIG - 1), (draw.randrange(1000), 1000)])
    yield changed(rows, k, reason="domain", step=draw.choice([step, near]), a=str(instant[0]), b=str(instant[1]))
    if a:
        scale = draw.choice([2, 3, 1000])
        yield changed(rows, k, a=str(int(a) * scale + draw.choice([-1, 0, 0, 1])), b=str(int(b) * scale))


def text_of(rows: Rows) -> str:
    return "".join(",".join(row) + "\n" for row in rows)


def in_another_form(draw: random.Random, rows: Rows) -> str:
    """The same rows with quotes, other ends of lines, and rows of other kinds between them."""
    text = draw.choice(["", "\ufeff"])
    for row in rows:
        text += draw.choice(["", "", "\n", "x\n", "note,\"why,0\n\"\r\n"])
        text += ",".join(draw.choice(['"%s"', "%s"]) % field for field in row) + draw.choice(["\n", "\r\n", "\r"])
    return text if draw.random() < 0.5 else text.rstrip("\r\n")


def texts(draw: random.Random, situation: Situation, report: Rows, rows: Rows) -> Iterator[tuple[str, str, int | None]]:
    """By name, each text with the index at which it is refused, -1 where it is right, and None where either may be."""
    yield "the report", text_of(report), -1
    yield "another form", in_another_form(draw, rows), -1
    sure = [tampering for _ in range(3) for tampering in tamperings(draw, situation, rows)]
    for name, tampered, k in draw.sample(sure, SURE):
        yield name, text_of(tampered), k
    mixed = [tampered for _ in range(OPEN) for tampered in exchanges(draw, situation, rows)]
    for tampered in draw.sample(mixed, OPEN):
        yield "exchanged", text_of(tampered), None


def wanted(plans_refuted: int, k: int) -> Run:
    """What a run ends with and writes."""
    return (0, b"none,%d,,,,,\n" % plans_refuted, b"") if k < 0 else (10, b"", b"rows: entry %d\n" % k)


def judged(programs: list[str], folder: str, log: str, situation: Situation, report: Rows, rows: Rows,
           draw: random.Random) -> Iterator[tuple[str, Run, Run, bool]]:
    """The name and the answer of each text, and whether both programs gave it as it has to be."""
    refuted = situation.choices ** situation.legs
    for name, text, k in texts(draw, situation, report, rows):
        with open(os.path.join(folder, "why.csv"), "w", encoding="utf-8", newline="") as out:
            out.write(text)
        mine, theirs = (run(program, "recheck", folder, log, ["--rows", "why.csv"]) for program in programs)
        good = mine == theirs and (mine == wanted(refuted, k) if k is not None else mine[0] in (0, 10))
        yield name, mine, theirs, good
        if not good:
            return


def main() -> int:
    args = words(__doc__, "rechecks-kept", "--shapes")
    plans.POSITIONS = 200000
    programs = [os.path.abspath(program) for program in (args.program, args.other)]
    seed, taken, entries, failed, answers = args.first, 0, 0, 0, collections.Counter[tuple[str, str]]()
    while taken < args.count:
        text, log = (plans.shaped if args.shapes else plans.make)(seed)
        folder = os.path.join(args.keep, str(seed))
        write_files(folder, text, log)
        status, written, _ = run(programs[0], "plan", folder, log, ["--why"])
        good = True
        if status == 1:
            report = [row.split(",") for row in written.decode().split("\n")[:-1]]
            rows = [row for row in report if row[0] == "why"]
            taken, entries = taken + 1, entries + len(rows)
            for name, mine, theirs, good in judged(programs, folder, log, Situation(text, report), report, rows,
                                                   random.Random(seed)):
                answers[name, "right" if mine[0] == 0 else "refused"] += 1
                if not good:
                    failed += 1
                    print("seed %d, %s: statuses %d and %d" % (seed, name, mine[0], theirs[0]),
                          *(repr(done[2]) for done in (mine, theirs)))
        if good:
            shutil.rmtree(folder)
        seed += 1
    print("%d situations with no plan, of %d, with %d entries; %d failed" % (taken, seed - args.first, entries, failed))
    for (name, answer), count in sorted(answers.items()):
        print("%8d %s, %s" % (count, name, answer))
    return 1 if failed else 0


if __name__ == "__main__":
    sys.exit(main())
