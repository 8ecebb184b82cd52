"""What is kept of the rows of `points` for a join of windows, beside a plain reading of all rows."""
import math
import random
import subprocess
import unittest

import drawn_logs
from given import InFolder, PROGRAM, with_program
from colregs.model.scenario import Scenario
from colregs.shares.seen import SLOWEST, TENTH, rows_to_keep

NUMBERS = (104, 109, 112, 113, 116, 121)        # drawn logs with late and early lines, and vessels that lie still


def plain(rows: list[str], stretches: list[tuple[int, int]]) -> list[bytes]:
    """Returns what is to be kept, row by row."""
    kept, moved, before = [], dict[str, bool](), dict[str, list[str]]()
    for row in rows:
        _, mmsi, at, x, y, speed, _ = row.split(",")
        last = before.get(mmsi)
        way = 0.0
        if last and not last[3]:
            way = math.dist((int(x), int(y)), (int(last[1]), int(last[2]))) / 10000 / max(1, int(at) - int(last[0]))
        moved[mmsi] = moved.get(mmsi, False) or way / TENTH >= SLOWEST or int(speed or 0) >= SLOWEST
        before[mmsi] = [at, x, y, speed]
        if any(first <= int(at) <= end for first, end in stretches):
            kept.append(f"check{row[5:]}\n".encode())
    return kept + [f"still,{mmsi}\n".encode() for mmsi in sorted(moved) if not moved[mmsi]]


class Still(unittest.TestCase):
    def still(self, *rows: str, piece: int = 7) -> list[bytes]:
        text = "".join(f"point,{row}\n" for row in rows).encode() + b"vessel,1,,0,0,2,1\n"
        return list(rows_to_keep((text[k:k + piece] for k in range(0, len(text), piece)), [], 0))

    def test_a_vessel_without_a_speed_lies_still_by_her_way(self) -> None:
        one, metre = "200000001,%d,%d,0,%s,", 10000
        self.assertEqual(self.still(one % (0, 0, ""), one % (100, 20 * metre, "")), [b"still,200000001\n"])
        self.assertEqual(self.still(one % (0, 0, ""), one % (100, 30 * metre, "")), [])
        self.assertEqual(self.still(one % (0, 0, "4"), one % (100, 30 * metre, "4")), [b"still,200000001\n"])
        self.assertEqual(self.still(one % (0, 0, ""), "200000002,50,0,0,5,", one % (100, 30 * metre, "0")), [])
        self.assertEqual(self.still(one % (0, 0, "5"), one % (100, 0, "0")), [])


@with_program
class Kept(InFolder):
    def test_pieces_lack_no_report_near_a_beginning(self) -> None:
        for number in NUMBERS:
            made, draw = drawn_logs.drawn(number), random.Random(number)
            scenario = Scenario(self.write("s.toml", made.text))
            log = b"".join(line + b"\n" for _, line in made.lines)
            points = subprocess.run([PROGRAM, "points", scenario.path], input=log, capture_output=True).stdout
            rows = [row for row in points.decode().splitlines() if row.startswith("point,")]
            for _ in range(20):
                begin, size = drawn_logs.START + draw.randrange(4000), draw.randrange(100, 9000)
                stretches = [(begin, begin + draw.randrange(0, 300)), (begin + 900, begin + 950)]
                pieces = (points[k:k + size] for k in range(0, len(points), size))
                self.assertEqual(list(rows_to_keep(pieces, stretches, scenario.slack)), plain(rows, stretches), number)
