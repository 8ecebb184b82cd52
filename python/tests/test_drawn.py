"""Joins of drawn logs: each is that of one run, is refused, or marks or names each row that differs."""
import unittest

import drawn_logs
from given import PROGRAM, with_program

# some ten CPU seconds, 0.13 each; dev/bench/all runs 20,000. The last ones once differed without a word. The causes:
# a window before that did not see a long meeting; a formula that looks back too far (four times); an overlong line
# before one with the same tag block; a least distance at a step that the later window saw otherwise
NUMBERS = (*range(9000, 9073), 100116, 101031, 208359, 213721, 223115, 204926, 207859)


@with_program
class Drawn(unittest.TestCase):
    def test_drawn_logs_are_those_of_one_run_or_refused_or_marked(self) -> None:
        outcomes = {number: drawn_logs.of_number((number, PROGRAM, None, None)) for number in NUMBERS}
        self.assertEqual({number: one.faults for number, one in outcomes.items() if one is not None and one.faults}, {})
        self.assertIn("equal", {one.word for one in outcomes.values() if one is not None})
