"""Marks on the meetings of an hour in a strait (strait.py), whose paths show what each pair does; and ship types and
statuses in words."""
import sqlite3
import unittest
from typing import Any

import browser
import strait
from given import with_program
from colregs.model import ships


class Words(unittest.TestCase):
    def test_types_and_statuses_are_those_of_the_recommendation(self) -> None:
        """ITU-R M.1371-5: table 53 has the types, table 45 the statuses."""
        self.assertEqual(
            [ships.type_words(kind) for kind in (30, 36, 37, 50, 52, 60, 79, 80, 0, 255)],
            ["fishing", "sailing", "pleasure craft", "pilot", "tug", "passenger", "cargo", "tanker", "", ""])
        self.assertEqual([ships.status_words(status) for status in (0, 1, 2, 5, 7, 8, 15, None)], [
            "under way using engine", "at anchor", "not under command", "moored", "engaged in fishing",
            "under way sailing", "", ""
        ])


@with_program
class Strait(strait.InStrait):
    def setUp(self) -> None:
        super().setUp()
        self.said = self.make("made", "--all")

    def asked(self, what: str, where: str = "1", values: tuple[int, ...] = ()) -> list[Any]:
        """Returns rows of the case's meetings."""
        base = sqlite3.connect(self.path("made/case.db"))
        self.addCleanup(base.close)
        return base.execute(f"select distinct {what} from meeting where {where}", values).fetchall()

    def of(self, one: int, two: int, what: str) -> list[Any]:
        """Returns rows of the meetings of two vessels."""
        return self.asked(what, "min(subject, other) = ? and max(subject, other) = ?", (min(one, two), max(one, two)))

    def test_each_planted_pair_has_its_mark_and_the_others_have_none(self) -> None:
        marks = "at_rest, alongside, in_tow, fishing, pilot, contact_lost is not null"
        self.assertEqual(self.of(strait.CEDAR, strait.CHERRY, marks), [("", 0, 0, 0, 0, 1)])
        self.assertEqual(self.of(strait.SHIP, strait.PILOT, marks), [("", 1, 0, 0, 1, 0)])
        self.assertEqual(self.of(strait.TUG, strait.BARGE, marks), [("", 0, 1, 0, 0, 0)])
        self.assertEqual(self.of(strait.NET, strait.TRAWL, marks), [("", 0, 0, 1, 0, 0)])
        for one, two in zip(strait.MOORED[::2], strait.MOORED[1::2]):
            self.assertEqual(self.of(one, two, marks), [("both", 1, 0, 0, 0, 0)])
        known = set(strait.TRAFFIC)
        through = self.asked(marks, f"subject in ({','.join('?' * len(known))})", tuple(known))
        self.assertEqual(through, [("", 0, 0, 0, 0, 0)])

    def test_the_vanished_pair_is_named_with_how_near_both_would_have_come(self) -> None:
        """By their paths: 120 m at 22:43:20, after a last report at 22:39:20."""
        self.assertRegex(self.said, r"(CEDAR and CHERRY|CHERRY and CEDAR): contact lost 22:39:20; .*; if both went on: "
                                    r"120 m at 22:43:(19|20|21) ")
        least, at = self.of(strait.CEDAR, strait.CHERRY, "if_both_went_on, if_both_went_on_at")[0]
        self.assertAlmostEqual(least, strait.LEAST, delta=1)

    def test_type_and_status_are_in_words(self) -> None:
        self.assertEqual(self.asked("subject_is", "subject = ?", (strait.NET,)), [("fishing, engaged in fishing",)])
        self.assertEqual(self.asked("subject_is", "subject = ?", (strait.MOORED[0],)), [("cargo, moored",)])

    @unittest.skipUnless(browser.installed(), "chromium is not installed")
    def test_the_page_filters_by_marks_and_lists_unmarked_first(self) -> None:
        with browser.Browser() as tab:
            tab.open(self.path("made/case.html"), "")
            rows = "[...document.querySelectorAll('#meetings tbody tr')].map(row => row.textContent)"
            tick = ("(name) => [...document.querySelectorAll('#meetings label')]"
                    ".find(label => label.textContent.trim() === name).querySelector('input').click()")
            self.assertNotIn("MOORED", tab.value(f"{rows}[0]"))
            self.assertIn("MOORED", tab.value(f"{rows}.join()"))
            tab.value(f"({tick})('without marks')")
            text = tab.value(f"{rows}.join()")
            self.assertIn("THROUGH", text)
            for name in ("MOORED", "TUG", "PILOT", "TRAWL"):
                self.assertNotIn(name, text)
            tab.value(f"({tick})('contact lost')")
            self.assertEqual(tab.value(f"{rows}.length"), 1)
            self.assertIn("if both went on: 120 m", tab.value(f"{rows}[0]"))
            self.assertIn("120 if both went on", tab.value(f"{rows}[0]"))
            self.assertIn("CEDAR", tab.value("document.querySelector('#chosen').textContent"))
            number = tab.value("HELD.meetings.findIndex(m => m.pair.some(k => HELD.vessels[k].mmsi === "
                               f"{strait.NORTH})) + 1")
            tab.value(f"location.hash = '#meeting{number}'")
            tab.wait("document.querySelector('#chosen').textContent.includes('NORTH')")
            self.assertEqual(tab.value("document.querySelectorAll('#charts polyline.courses').length"), 2)
            self.assertEqual(tab.value("document.querySelectorAll('#marks li').length"), 6)
            self.assertEqual(tab.errors, [])


if __name__ == "__main__":
    unittest.main()
