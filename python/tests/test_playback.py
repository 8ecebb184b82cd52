"""The playback of a case's page in a browser, its sentences, and its sweep, by an hour in a strait (strait.py)."""
import csv
import re
import sqlite3
import unittest

import browser
import strait
from given import with_program
from colregs.case import sweep
from colregs.errors import Fault
from colregs.model.rows import Verdict


class Sweeps(unittest.TestCase):
    def test_values_are_those_of_the_words(self) -> None:
        self.assertEqual(sweep.sweep_of("ta=60..360:60"), sweep.Sweep("rules.ta", (60, 120, 180, 240, 300, 360)))
        self.assertEqual(sweep.sweep_of("detect.risk=300,500"), sweep.Sweep("detect.risk", (300, 500)))
        for word, told in (("ta=60", "has 2 to 100 values"), ("none=1,2", "is no number"), ("gap=1,2", "is no number"),
                           ("ta=1..9:0", "2 to 100"), ("ta", "write")):
            with self.assertRaisesRegex(Fault, told):
                sweep.sweep_of(word)

    def test_verdicts_that_overlap_are_one_line(self) -> None:
        """Steps of 10 s: the first two values break the rule at steps 10 to 12 and 11 to 20, the third not at all; a
        verdict two hours later is another."""
        reports: list[list[Verdict]] = [
            [Verdict(1, 2, "r16", "broken", 10, 12)],
            [Verdict(1, 2, "r16", "broken", 11, 20), Verdict(1, 2, "r16", "open", 800, 801)], []]
        self.assertEqual(sweep.lines_of(reports, 10), [
            sweep.Line(1, 2, "r16", 100, 210, ("broken", "broken", "")),
            sweep.Line(1, 2, "r16", 8000, 8020, ("", "open", ""))
        ])

    def test_cells_are_no_formulas(self) -> None:
        self.assertEqual([sweep.safe(word) for word in ("=1+1", "@A", "-5", "+5", "ELM", "")],
                         ["'=1+1", "'@A", "'-5", "'+5", "ELM", ""])


@with_program
class Page(strait.InStrait):
    def setUp(self) -> None:
        super().setUp()
        self.said = self.make("made", "--sweep", "safe=100,500")

    def test_a_meeting_is_described_in_a_sentence(self) -> None:
        base = sqlite3.connect(self.path("made/case.db"))
        self.addCleanup(base.close)
        words = base.execute("select in_words from meeting where subject = ? and other = ?",
                             (strait.CEDAR, strait.CHERRY)).fetchone()[0]
        self.assertRegex(words, r"CEDAR \(cargo, 80 m\) and CHERRY \(tanker, 80 m\) met head on from 22:\d\d UTC on; "
                                r"neither altered to starboard in time \(Rule 14\(a\)\); "
                         r"contact lost 22:39:20; .* if both went on: 120 m")
        self.assertRegex(self.said, r"THROUGH \d+ \(cargo, 80 m\) overtook THROUGH \d+ .* did not keep out of the way "
                                    r"\(Rule 13\).*150 m at")

    def test_the_sweep_says_which_verdicts_depend_on_the_number(self) -> None:
        """CEDAR and CHERRY lose contact far from each other. Those in the lanes pass at 150 m: too near if 500 m are
        safe, and not if 100 m are."""
        with open(self.path("made/sweep.csv"), encoding="utf-8", newline="") as source:
            rows = list(csv.DictReader(source))
        unsafe = {(int(row["subject"]), row["rules.safe=100"], row["rules.safe=500"])
                  for row in rows
                  if row["rule"] == "r8d"}
        self.assertIn((strait.TRAFFIC[0], "", "broken"), unsafe)
        self.assertRegex(self.said, r"With rules.safe from 100 to 500, \d+ of \d+ verdicts depend on the number")

    @unittest.skipUnless(browser.installed(), "chromium is not installed")
    def test_the_playback_moves_all_vessels_and_the_charts(self) -> None:
        with browser.Browser() as tab:
            tab.open(self.path("made/case.html"), "")
            number = tab.value("HELD.meetings.findIndex(m => m.pair.some(k => HELD.vessels[k].mmsi === "
                               f"{strait.CEDAR})) + 1")
            tab.value(f"location.hash = '#meeting{number}'")
            tab.wait("Playback.time === begins(HELD.meetings[%d])" % (number - 1))
            tab.value("Playback.set(1500)")
            self.assertEqual(tab.value("document.querySelector('#play-clock').textContent"), "22:38:20 UTC")
            self.assertEqual(tab.value("document.querySelector('#charts .moment').getAttribute('visibility')"),
                             "visible")
            found = tab.value("approach(HELD.meetings[%d].pair, 1500)" % (number - 1))
            self.assertAlmostEqual(found["least"], strait.LEAST, delta=3)
            self.assertAlmostEqual(found["time"], strait.NEAREST - 1500, delta=3)
            for name in ("cpa", "tcpa", "distance"):
                self.assertGreaterEqual(tab.value(f"document.querySelectorAll('#charts polyline.{name}').length"), 1,
                                        name)
            self.assertEqual(tab.value("document.querySelectorAll('#charts line.duty').length"), 2)
            self.assertEqual(tab.value("document.querySelectorAll('#chosen-words .duty').length"), 2)
            self.assertEqual(tab.value("HELD.vessels.find(v => v.name === 'CEDAR').hull"), [60, 20, 8, 8])
            if tab.value("document.querySelector('#play-canvas') !== null"):
                self.assertEqual(tab.value("Playback.seen"), len(list(strait.vessels())))
                paper = ("(c => [...c.getContext('2d').getImageData(0, 0, c.width, c.height).data].some(v => v))"
                         "(document.querySelector('#play-canvas'))")
                self.assertTrue(tab.value(paper))
            tab.value("document.querySelector('#play-speed').value = 60, "
                      "document.querySelector('#play-toggle').click()")
            tab.wait("Playback.time > 1510")
            tab.value("document.querySelector('#play-toggle').click()")
            self.assertEqual(tab.value("document.querySelector('#play-toggle').textContent"), "play")
            tab.value("document.querySelector('#play-whole').click()")
            self.assertEqual(tab.value("Number(document.querySelector('#play-time').max)"), strait.STEPS * strait.TICK)
            self.assertEqual(tab.value("document.querySelectorAll('#sweep tbody tr').length") > 0, True)
            tab.printed(self.path("paper.pdf"))
            self.assertEqual(tab.errors, [])
            self.assertEqual([address for address in tab.asked if not address.startswith(("file://", "data:"))], [])
        with open(self.path("paper.pdf"), "rb") as source:
            self.assertTrue(re.match(rb"%PDF-", source.read(8)))


if __name__ == "__main__":
    unittest.main()
