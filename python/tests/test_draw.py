"""The pictures: well-formed, with the vessels and the numbers of their reports."""
import re
import unittest
import xml.etree.ElementTree

from given import InFolder, PROGRAM, example, text_of, with_program


def words_of(text: str) -> str:
    """Returns all texts of a picture; raises ParseError if it is not XML."""
    return " ".join("".join(element.itertext())
                    for element in xml.etree.ElementTree.fromstring(text).iter()
                    if element.tag.endswith("text"))


@with_program
class Pictures(InFolder):
    def drawn(self, *words: str) -> str:
        """Runs the tool; returns the words of the picture of tracks."""
        status, out, error = self.within("colregs-draw", *words)
        self.assertEqual((status, out, error), (0, "", ""))
        return words_of(text_of(self.path("out.svg")))

    def test_a_plan_shows_its_number_its_legs_and_all_vessels(self) -> None:
        scenario, report = example("giving_way.toml"), text_of(example("giving_way.csv"))
        words = self.drawn(scenario, "out", "--log", example("giving_way.log"), "--program", PROGRAM, "--plan")
        legs = re.findall(r"(?m)^plan,(\d+),(\d+),(\d+),(\d+),", report)
        self.assertGreater(len(legs), 0)
        for number, leg, course, speed in legs:
            self.assertIn(f"plan {number} ", words + " ")
            self.assertIn(f"leg {leg}: {int(course) / 10:05.1f}\u00b0, {int(speed) / 10:.1f} knots", words)
        for name in re.findall(r"(?m)^vessel,\d+,([^,]+),", report):
            self.assertIn(name, words)

    def test_a_failed_plan_is_reported(self) -> None:
        text = text_of(example("giving_way.toml"))
        tight = re.sub(r"(?m)^(base\s*=\s*)\d+", r"\g<1>5000", text)
        self.assertNotEqual(tight, text)
        words = self.drawn(self.write("tight.toml", tight), "out", "--log", example("giving_way.log"), "--program",
                           PROGRAM, "--plan")
        self.assertRegex(words, r"none of \d+ plans passes")

    def test_an_audit_selects_the_requested_vessels_and_time(self) -> None:
        words = self.drawn(example("crossing.toml"), "out", "--log", example("crossing.log"), "--program", PROGRAM,
                           "--pair", "LARCH", "MAPLE", "--from", "22:18", "--to", "22:24", "--title", "Two of them")
        self.assertTrue("LARCH" in words and "MAPLE" in words and "Two of them" in words)
        self.assertIn("22:18:00 to 22:24:00 UTC", words)
        self.assertIn("UTC", words_of(text_of(self.path("out_times.svg"))))

    def test_options_that_contradict_each_other_are_refused(self) -> None:
        log = ["--log", example("crossing.log"), "--program", PROGRAM]
        refusals: tuple[tuple[list[str], str], ...] = (
            (["--plan", "p", "--pair", "a", "b", "--points", "x"], "--pair, --from and --to are of an audit"),
            ([], "give --log, or --points and --audit or --plan, or the folder of a case"),
            ([*log, "--from", "25:00"], "is no time"),
            ([*log, "--pair", "LARCH", "NOBODY"], "`NOBODY` is no vessel of the points"),
        )
        for words, said in refusals:
            status, _, error = self.within("colregs-draw", example("crossing.toml"), "out", *words)
            self.assertNotEqual(status, 0)
            self.assertIn(said, error)


if __name__ == "__main__":
    unittest.main()
