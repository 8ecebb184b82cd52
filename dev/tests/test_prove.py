"""`./colregs --prove`: how the crates are proved and the program is built."""
from __future__ import annotations

import os
import signal
import time
import unittest

from dev.tests.made_up_kit import InRepository
from given import text_of

PROVE = ("./colregs", "--prove")
RAN = (0, "ran points a.toml\na log\n", "")


class Prove(InRepository):
    def test_it_proves_and_builds_and_from_then_on_the_program_runs_silently(self) -> None:
        status, out, err = self.run_of(*PROVE)
        self.assertEqual((status, out), (0, ""), err)
        self.assertIn("colregs: proving 5 crates side by side; the proofs of 0 others are cached", err)
        self.assertIn("all 5 crates are proved, and the program is built", err)
        self.assertRegex(text_of(self.calls), r"middle jobs=\d of_kit=2\n")
        proved = self.proved()
        self.assertEqual((proved[0], sorted(proved[1:4]), proved[4:]),
                         ("low", ["beside", "high", "middle"], ["colregs"]))
        self.assertLess(proved.index("middle"), proved.index("high"))
        self.assertEqual(self.run_of("./colregs", "points", "a.toml"), RAN)
        self.assertEqual(self.called(), [])

    def test_a_changed_source_is_proved_with_the_crates_above_it(self) -> None:
        self.run_of(*PROVE)
        self.proved()
        self.source("crates/middle/src/lib.rt", "// other sources")
        self.assertIn("the proofs of 2 others are cached", self.run_of(*PROVE)[2])
        self.assertEqual(self.proved(), ["middle", "high", "colregs"])
        self.assertEqual(self.run_of("./colregs", "points", "a.toml"), RAN)

    def test_another_kit_proves_all_again(self) -> None:
        self.run_of(*PROVE)
        self.proved()
        self.run_of(*PROVE, LOGIC="2")
        self.assertEqual(len(self.proved()), 5)

    def test_lines_name_the_crates_in_progress(self) -> None:
        status, _, err = self.run_of(*PROVE, "--each", "0.5", TAKES="2.2")
        self.assertEqual(status, 0)
        self.assertRegex(err, r"colregs: crate [34] of 5, (high|beside), [012] s")

    def test_a_crate_that_fails_is_reported_with_its_words_and_the_others_are_cached(self) -> None:
        status, _, err = self.run_of(*PROVE, FAILS="high")
        self.assertEqual(status, 21)
        self.assertIn("error: this is why", err)
        self.assertIn("colregs: high is not proved", err)
        self.assertRegex(err, "[23] of 5 crates are proved and cached")
        self.proved()
        self.assertEqual(self.run_of(*PROVE)[0], 0)
        self.assertEqual([it for it in self.proved() if it != "beside"], ["high", "colregs"])

    def test_facts_that_no_handle_allows_are_refused(self) -> None:
        for name, word in (("high", " may-wait=1"), ("colregs", " main=Net")):
            status, _, err = self.run_of(*PROVE, **{"BEYOND_" + name: word})
            self.assertEqual(status, 21)
            self.assertIn("%s is refused, since its proof also states%s" % (name, word), err)

    def test_an_older_program_does_not_replace_a_failed_build(self) -> None:
        self.run_of(*PROVE)
        self.source("crates/low/src/lib.rt", "// other sources")
        self.assertEqual(self.run_of(*PROVE, UNLINKED="1")[0], 21)
        self.assertIn("crates/low/src/lib.rt changed since the proof", self.run_of("./colregs", "points", "a.toml")[2])

    def test_a_source_that_changes_while_another_crate_is_proved_is_reported(self) -> None:
        run = self.start(*PROVE, "--each", "0.1", TAKES="3")
        assert run.stderr is not None
        for line in run.stderr:
            if "high" in line:
                break
        self.source("crates/low/src/lib.rt", "// other sources")
        _, err = run.communicate(timeout=300)
        self.assertEqual(run.returncode, 21)
        self.assertIn("changed while the program was proved", err)

    def test_if_it_is_stopped_the_proofs_stop_and_it_continues_from_there(self) -> None:
        for number, status in ((signal.SIGTERM, 130), (signal.SIGKILL, -signal.SIGKILL)):
            run = self.start(*PROVE, "--each", "0.2", TAKES="20")
            assert run.stderr is not None
            for line in run.stderr:
                if "high" in line:
                    break
            run.send_signal(number)
            run.communicate(timeout=300)
            self.assertEqual(run.returncode, status)
        for _ in range(3000):
            if not self.running():
                break
            time.sleep(0.1)
        self.assertEqual(self.running(), [])
        self.proved()
        self.assertIn("the proofs of 2 others are cached", self.run_of(*PROVE)[2])
        self.assertEqual(sorted(self.proved()), ["beside", "colregs", "high"])
        self.assertEqual(
            [it for it in os.listdir(os.path.join(self.top, "crates/colregs/out/rlib")) if it.startswith("at-work")],
            [])


if __name__ == "__main__":
    unittest.main()
