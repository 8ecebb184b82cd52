"""Streams of drawn logs, killed and started again: each row is that of one run, or is marked or named."""
import unittest

import drawn_logs
import drawn_streams
from given import PROGRAM, with_program

# some ten CPU seconds, 0.5 each; dev/bench/all runs 1,000. In 29 alarms of a window lost their marks if its run of
# `watch` ended after that of `audit`
NUMBERS = (*range(1, 16), 29)


@with_program
class DrawnStreams(unittest.TestCase):
    def test_drawn_streams_have_the_rows_of_one_run_or_say_so(self) -> None:
        work = {number: (number, PROGRAM, None, None) for number in NUMBERS}
        outcomes = {number: drawn_logs.of_number(one, drawn_streams.tried) for number, one in work.items()}
        self.assertEqual({number: one.faults for number, one in outcomes.items() if one is not None and one.faults}, {})
        self.assertTrue(any(one.word.endswith("equal") for one in outcomes.values() if one is not None))
