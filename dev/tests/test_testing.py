"""`./test`: what it counts, and how it ends. The texts are those that `rt try --test` and unittest write."""
from __future__ import annotations

import os
import subprocess
import sys
import tempfile
import unittest

from dev.cases import Case, Result, first_difference
from dev.testing import Count, counted
from given import TOP, InFolder

TRIED = """tests: 3
test vessel_ranks::the_last_report_that_has_come ... ok
test result: ok. 43 passed; 0 failed; 0 ignored; 0 filtered out
run=ended status=0 runners=1 proved=no
"""


class Counts(unittest.TestCase):
    def test_the_counts_of_a_crates_tests(self) -> None:
        self.assertEqual(counted(TRIED, 0), Count(43, 0))
        self.assertEqual(counted(TRIED.replace("ok. 43 passed; 0", "FAILED. 41 passed; 2"), 101), Count(41, 2))

    def test_a_run_of_tests_that_stops_at_a_fault_has_failed(self) -> None:
        self.assertEqual(counted(TRIED.partition("test result")[0] + "run=fault proved=no\n", 4), Count(0, 1))
        self.assertEqual(counted(TRIED, 6), Count(43, 1))

    def test_tests_of_unittest_with_skipped_and_failed_ones(self) -> None:
        self.assertEqual(counted("...s\nRan 133 tests in 220.048s\n\nOK (skipped=6)\n", 0), Count(127, 0))
        self.assertEqual(counted("Ran 9 tests in 31.1s\n\nFAILED (failures=1, errors=2, skipped=1)\n", 1), Count(5, 3))
        self.assertEqual(counted("Ran 0 tests in 0.000s\n\nOK\n", 1), Count(0, 1))

    def test_a_check_is_one_test(self) -> None:
        self.assertEqual((counted("all is well\n", 0), counted("a fault\n", 1), counted("", -9)),
                         (Count(1, 0), Count(0, 1), Count(0, 1)))


class Cases(InFolder):
    def case(self, **files: str) -> Case:
        """Returns a case with these files, which runs a shell script as its program."""
        good = {
            "status": "3", "stdout": "ab###\n", "stderr": "why\n", "args": "scenario\nwhy\n", "log": "",
            "scenario": "ab", "lengthened": "scenario 5"
        }
        for name, text in {**good, **files}.items():
            self.write(name, text)
        return Case(self.folder)

    def fault(self, case: Case) -> str | None:
        """Returns what is wrong with the run of a program that writes its file and its second argument."""
        with tempfile.TemporaryDirectory() as place:
            program = os.path.join(place, "program")
            with open(program, "w", encoding="utf-8") as out:
                out.write("#!/bin/sh\ncat $1; echo; echo $2 >&2; exit 3\n")
            os.chmod(program, 0o755)
            return case.fault(program)

    def test_a_case_is_compared_byte_for_byte(self) -> None:
        self.assertIsNone(self.fault(self.case()))
        self.assertEqual(self.fault(self.case(status="0")), "status 3, want 0; standard error b'why\\n'")
        self.assertEqual(self.fault(self.case(stdout="ab####\n")),
                         "standard output, line 1: got b'ab###', want b'ab####'")
        self.assertEqual(self.fault(self.case(stderr="")), "standard error b'why\\n', want b''")
        self.assertIn("no number in `status`", self.fault(self.case(status="")) or "")

    def test_a_line_that_is_missing_is_named(self) -> None:
        self.assertEqual(first_difference(b"a\nb", b"a"), "line 2: got b'b', want b'(no line)'")
        self.assertIsNone(Result(0, b"a", b"").difference(Result(0, b"a", b"")))


class Command(unittest.TestCase):
    def run_of(self, *words: str) -> subprocess.CompletedProcess[str]:
        """Runs `./test` with these arguments."""
        return subprocess.run([sys.executable, os.path.join(TOP, "test"), *words], capture_output=True, text=True,
                              timeout=600)

    def test_wrong_uses_end_with_status_2_and_run_nothing(self) -> None:
        for words, said in ((["no such job"], "no job's name begins with no such job"),
                            (["--program", "/no/program"], "/no/program is not an executable file")):
            done = self.run_of(*words)
            self.assertEqual((done.returncode, done.stdout), (2, ""))
            self.assertIn(said, done.stderr)

    def test_a_program_that_writes_something_else_fails(self) -> None:
        done = self.run_of("--program", "/bin/true", "cases")
        self.assertEqual(done.returncode, 1)
        self.assertRegex(done.stdout, r"\n\d+ passed, [1-9]\d+ failed\n$")


if __name__ == "__main__":
    unittest.main()
