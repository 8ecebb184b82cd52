"""Two vessels that pass; all figures are computed by hand.

On the equator a minute of longitude is 1852 m, like a minute of latitude. EAST moves east along it from 0 at 10.8
knots, 5.556 m per second, which is 300 units of 1/10000 minute per 10 s. WEST comes towards her, 1000 units
further north, which are 185.2 m or a tenth of a nautical mile, and begins 30000 units away. So they are nearest after
500 s, at 15000 units, 1' 30'' east; and they are nearer than the safe 500 m within 464.4 m to either side of that,
which takes 41.8 s.
"""
from colregs.io.sentences import Fields, block, class_a, sentence, sentences, voyage

EAST, WEST, STILL = 200000301, 200000302, 200000303
START, TICK, STEPS = 1700000000, 10, 100
NEAREST = START + 500           # 22:21:40 UTC on 14 November 2023
LEAST = 185.2
HOSTILE = '<IMG SRC=//X.TEST>,"'      # a name that six-bit text can hold
UNSAFE = 45, 54                 # the first and the last step that have a moment within 41.8 s of that
SCENARIO = """version = 1
window = { start = 1700000000, tick = 10, ticks = 100 }
reference = { lat = 0, lon = 0 }
log = { gap = 60, slack = 30, max_speed = 500 }
detect = { watch = 5000, risk = 500, clear = 1000, horizon = 900, doubt = 0, ahead = 60, reciprocal = 60 }
act = { steady_turn = 50, apparent_turn = 200, steady_speed = 10, apparent_speed = 50 }
rules = { safe = 500, overtake = 300, close = 100, t8 = 60, ta = 120, tl = 30, tw = 120, te = 600 }
"""


def line(second: int, fields: Fields) -> str:
    """A tagged sentence of a message's fields."""
    return (block(START + second) + sentence(fields) + b"\n").decode()


def name(mmsi: int, words: str) -> str:
    """The two parts of a message 5; only the first has a time."""
    first, second = sentences(voyage(mmsi, words, 70, (60, 20, 8, 8), "SEATTLE"), mmsi)
    return (block(START) + first + b"\n" + second + b"\n").decode()


def log(still: bool = False, silent_after: int = STEPS * TICK) -> str:
    """Returns their reports every 10 s; with `still`, also those of a stopped vessel next to the path of EAST, at 0.3
    knots by her receiver.

    WEST is not heard after `silent_after` seconds.
    """
    lines = [name(EAST, "EAST"), name(WEST, "WEST")] + ([name(STILL, HOSTILE)] if still else [])
    for k in range(STEPS + 1):
        lines.append(line(10 * k, class_a(EAST, (0, 300 * k, 108, 900, 90, 0), 0)))
        if 10 * k <= silent_after:
            lines.append(line(10 * k, class_a(WEST, (1000, 30000 - 300 * k, 108, 2700, 270, 0), 0)))
        if still:
            lines.append(line(10 * k, class_a(STILL, (-1000, 15000, 3, 0, 511, 0), 0)))
    return "".join(lines)
