"""The measure of a gate: which processes are checks, and the rows that it adds to the tables."""
from __future__ import annotations

import csv
import os
import signal
import subprocess
import sys
import unittest
from unittest import mock

from dev import gate
from given import TOP, InFolder, text_of


class Checks(unittest.TestCase):
    def test_a_check_is_known_by_its_words_and_its_folder(self) -> None:
        words = ["/kit/bin/rattle", "build", "--crate-name", "low", "src/lib.rt"]
        self.assertEqual(gate.check_of(words, "/clone/crates/low"), ("low", "proof"))
        self.assertEqual(gate.check_of([*words, "--test"], "/clone/crates/low"), ("low", "tests"))
        self.assertEqual(gate.check_of(words, "/tmp/rt-edit-12-x"), ("low", "edits"))
        self.assertIsNone(gate.check_of(["/kit/bin/rattle", "fmt"], "/clone/crates/low"))
        self.assertIsNone(gate.check_of(["clang", "--crate-name", "low"], "/clone/crates/low"))

    def test_a_crate_that_was_cached_has_no_row(self) -> None:
        table = {("low", "proof"): 12.4, ("low", "edits"): 33.6, ("high", "tests"): 5.0}
        with mock.patch.object(gate, "edits_of", return_value=2):
            self.assertEqual(
                gate.crate_rows(table, ["low", "middle", "high"], "2026-12-01", "abc"),
                [["2026-12-01", "abc", "low", "12", "", "2", "34"], ["2026-12-01", "abc", "high", "", "5", "2", ""]])


class Watched(InFolder):
    # A gate: two checks, by their words, which last for three looks; then the signal that ends the measure.
    RUN = """: > looks
python -c "$0" --of $$ & measure=$!
for crate in low high; do
  (exec -a /kit/rattle bash -c 'first=$(wc -c < looks)
until [ $(wc -c < looks) -gt $((first + 3)) ]; do sleep 0.1; done' x build --crate-name $crate)
done
kill -SIGNAL $measure; wait $measure"""
    MEASURE = """import sys
sys.path.insert(0, TOP)
from dev import gate
gate.RUNS, gate.CRATES = "runs", "crates"
gate.listed_crates = lambda: {"low": [], "high": []}
look = gate.Seen.look
def noted(seen, root):
    found = look(seen, root)
    with open("looks", "a") as out:
        out.write(".")
    return found
gate.Seen.look = noted
sys.exit(gate.main())"""

    def rows_after(self, number: signal.Signals) -> list[list[str]]:
        """Returns the rows of the crates after a gate whose measure got this signal."""
        run = self.RUN.replace("python", sys.executable, 1).replace("SIGNAL", str(int(number)))
        done = subprocess.run(["bash", "-c", run, self.MEASURE.replace("TOP", repr(TOP))], cwd=self.folder,
                              capture_output=True, text=True, timeout=600)
        self.assertNotIn("Traceback", done.stderr)
        return (
            list(csv.reader(text_of(self.path("crates")).splitlines())) if os.path.exists(self.path("crates")) else []
        )

    def test_a_gate_that_passes_adds_its_rows_and_one_that_does_not_adds_none(self) -> None:
        self.assertEqual(self.rows_after(signal.SIGKILL), [])
        self.assertEqual([row[2:] for row in self.rows_after(signal.SIGTERM)],
                         [["low", "0", "", "", ""], ["high", "0", "", "", ""]])
        self.assertEqual([len(row) for row in csv.reader(text_of(self.path("runs")).splitlines())], [6])


if __name__ == "__main__":
    unittest.main()
