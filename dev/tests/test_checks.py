"""`dev/check`: each check passes what is right and names what is wrong, on texts made for it."""
from __future__ import annotations

import os
import subprocess
import sys
import unittest
from unittest import mock

from colregs.io.sentences import class_a, sentence
from dev import edits
from dev.checking import Findings, module, names, summary
from dev.checks import commands, contracts, crates, english, gate, manual, pages, program, reading, repeats, rules
from dev.formulas import Definitions, Text
from given import TOP, InFolder

HELP = """Audits a log

Usage: colregs [OPTIONS] <MODE> <SCENARIO>

          - points: the points of a log
          - audit:  how rules were kept

      --rows <FILE>
          the rows to check
  -h, --help

Exit status:
  0  the report is written whole
  2  invalid command line
"""
MANUAL = """.SH MODES
.TP
.B points
the points of a log, and more
.TP
.B audit
how rules were kept
.SH OPTIONS
.TP
.BI --rows " FILE"
the rows to check
.SH "EXIT STATUS"
.TP
.B 0
the report is written whole
.SH LIMITS
.TP
.B 9
no status
"""


class Manual(unittest.TestCase):
    def test_help_and_the_manual_page_are_read_entry_by_entry(self) -> None:
        listed = manual.Help.of(HELP)
        self.assertEqual(listed.modes, {"points": "the points of a log", "audit": "how rules were kept"})
        self.assertEqual(listed.options, {"--rows FILE": "the rows to check", "-h --help": "As the only word: print"})
        self.assertEqual(sorted(listed.statuses), ["0", "2", "21"])
        self.assertEqual(manual.entries(manual.section(MANUAL, "EXIT STATUS")), {"0": "the report is written whole"})

    def test_an_entry_that_is_missing_or_differs_is_a_fault(self) -> None:
        found, listed = Findings(), manual.Help.of(HELP)
        manual.compare(found, "mode", listed.modes, manual.entries(manual.section(MANUAL, "MODES")))
        self.assertEqual(found.faults, [])
        manual.compare(found, "status", listed.statuses, manual.entries(manual.section(MANUAL, "EXIT STATUS")))
        self.assertEqual(found.faults, ["docs/colregs.1: status 2 is missing", "docs/colregs.1: status 21 is missing"])
        manual.compare(found, "mode", listed.modes,
                       {"points": "other words", "audit": "how rules were kept", "drill": "x"})
        self.assertIn("docs/colregs.1: mode drill is not in --help", found.faults)
        self.assertIn("docs/colregs.1: mode points is 'other words', and --help says 'the points of a log'",
                      found.faults)


class Pages(unittest.TestCase):
    def test_links_lead_to_files_and_headings(self) -> None:
        good = ("# Head `x` of it\n[a](README.md) [b](#head-x-of-it) [c](https://a.example) `[d](nowhere)`\n"
                "```\n[e](nowhere)\n```\n")
        self.assertEqual(list(pages.broken_links("PAGE.md", good.replace("#head-x-of-it", "README.md#install"))), [])
        self.assertEqual(pages.anchors(good), {"head-x-of-it"})
        self.assertEqual(list(pages.broken_links("docs/PAGE.md", "[a](../nowhere.md) [b](../README.md#nowhere)")),
                         ["docs/PAGE.md: no file ../nowhere.md", "docs/PAGE.md: no heading ../README.md#nowhere"])

    def test_each_crate_has_one_row_or_a_place_in_the_drawing(self) -> None:
        listed: dict[str, list[str]] = {"colregs": ["low"], "colregs_c": ["low"], "low": [], "low_rows": ["low"]}
        drawing = "```\ncolregs  colregs_c\nlow\n```\n"
        self.assertEqual(list(pages.crates_in_map(drawing + "| `low_rows` | x |\n", listed)), [])
        self.assertEqual(list(pages.crates_in_map(drawing.replace("\nlow", ""), listed)),
                         ["docs/MAP.md: low_rows has 0 rows", "docs/MAP.md: the drawing lacks low"])

    def test_decisions_are_in_order_and_rule_something_out(self) -> None:
        self.assertEqual(
            list(pages.decisions("## A\n1. **So.** Why.\n   *Not:* that.\n2. **So.** Why.\n   *Not:* that.\n")), [])
        self.assertEqual(
            list(pages.decisions("1. **So.** Why.\n3. **So.** Why.\n   *Not:* that.\n")),
            ["docs/DECISIONS.md: 1 does not say what it rules out", "docs/DECISIONS.md: 3 is at the place of 2"])


class Commands(InFolder):
    PAGE = """```console
$ echo a; echo b >&2
a
b
$ cat <<END
> x
> END
..
```
text
```console
$ exit 3
```
""".split("\n")

    def test_blocks_have_their_commands_and_outputs(self) -> None:
        (first, second), (third,) = commands.blocks(self.PAGE)
        self.assertEqual((first.text, first.shown, first.line), ("echo a; echo b >&2", ["a", "b"], 1))
        self.assertEqual((second.text, second.shown, third.text), ("cat <<END\nx\nEND", [".."], "exit 3"))
        self.assertTrue(second.writes(["any", "lines"]) and first.writes(["a", "b"]))
        self.assertFalse(first.writes(["a"]) or first.writes(["a", "b", "c"]) or third.writes(["x"]))

    def test_a_block_runs_as_one_script_and_a_command_that_ends_it_leaves_the_others_out(self) -> None:
        blocks = list(commands.blocks(self.PAGE))
        self.assertEqual(commands.run(blocks[0], self.folder), [["a", "b"], ["x"]])
        self.assertEqual(len(commands.run([*blocks[1], *blocks[0]], self.folder)), 1)

    def test_a_command_in_another_kind_of_block_is_refused(self) -> None:
        for text in ("```\n$ ls\n```", "```bash\nls\n```", "```console\nb\n```"):
            with self.assertRaises(ValueError):
                list(commands.blocks(text.split("\n")))

    def test_missing_commands_of_a_machine_are_named(self) -> None:
        with mock.patch("shutil.which", return_value=None):
            self.assertEqual(commands.Command("./colregs audit | jq .", 0).lacks(), "jq")
            self.assertIsNone(commands.Command("./colregs audit > rows.jq", 0).lacks())


class Crates(unittest.TestCase):
    def test_a_crate_is_named_by_a_path_or_as_a_module_of_definitions(self) -> None:
        for code in ("use motion::Point;", "let p = motion::Point::new();", "use Rattle.motion.specs.Points"):
            self.assertTrue(crates.is_named("motion", code), code)
        for code in ("use emotion::Point;", "other::motion::Point", "let motion = 1;",
                     "use Rattle.motion_laws.specs.Points"):
            self.assertFalse(crates.is_named("motion", code), code)


class English(unittest.TestCase):
    def found(self, path: str, text: str) -> list[tuple[int, str]]:
        """Returns the lines and words that are found in a text."""
        return [(it.line, it.words) for it in english.findings(path, text)]

    def test_pages_without_code_comments_and_texts_are_read(self) -> None:
        self.assertEqual(
            self.found("A.md", "It is told.\n```\nIt is told.\n```\n`is told`\nanew\n"), [(1, "is told"), (6, "anew")]
        )
        self.assertEqual(self.found("a.rt", 'let anew = 1; // begins anew\nlet x = "is passed over";\n'),
                         [(1, "anew"), (2, "passed over")])
        self.assertEqual(self.found("a.antt", "anew = 1 -- in place of it\n"), [(1, "in place of")])
        self.assertEqual(
            self.found("a.py", 'anew = 1\n"""One.\n\nIt tells.\n"""\n# mends\n'), [(4, "tells"), (6, "mends")]
        )
        self.assertEqual(self.found("data.csv", "anew\n"), [])

    def test_clean_files_and_allowed_words(self) -> None:
        allowed = english.Allowed("# a comment\nclean docs/*.md\nclean crates/motion/\nallow docs/A.md: once "
                                  "more\nallow docs/B.md: anew\nfree docs\n")
        self.assertTrue(allowed.is_clean("docs/A.md"))
        self.assertFalse(allowed.is_clean("README.md"))
        self.assertTrue(allowed.is_clean("crates/motion/proofs/legs/Legs/push/Answers.antt"))
        self.assertFalse(allowed.is_clean("crates/motion_rows/src/lib.rt"))
        self.assertTrue(allowed.allows(english.Finding("docs/A.md", 1, "once more", "again")))
        self.assertFalse(allowed.allows(english.Finding("docs/A.md", 1, "anew", "again")))
        self.assertEqual((allowed.unused, allowed.unknown), ({("docs/B.md", "anew")}, ["free docs"]))


class Edits(unittest.TestCase):
    FILES = {"src/lib.rt": "a < b\nc < d\n"}

    def test_an_edit_changes_a_line_that_occurs_once_in_its_file(self) -> None:
        for words, want in (
            ("file: src/lib.rt\nold: a < b\nnew: a > b\n", ""),
            ("file: src/lib.rt\nold: a < b\nnew: c < d\nold: c < d\nnew:\n", "`c < d` is in src/lib.rt 2 times"),
            ("file: src/lib.rt\nold: e\nnew: f\n", "`e` is in src/lib.rt 0 times"),
            ("file: src/main.rt\nold: a\nnew: b\n", "the crate has no file src/main.rt"),
            ("old: a\nnew: b\n", "a line `new:` is before any line `file:` or `old:`"),
            ("file: src/lib.rt\n", "it has no lines `old:` and `new:`"),
        ):
            self.assertEqual(edits.fault_in(words, self.FILES.get), want, words)


class Gate(unittest.TestCase):
    def runs(self, *minutes: str) -> list[gate.Row]:
        """Returns runs of the gate that took these CPU minutes."""
        return [{"cpu_minutes": it, "commit": it, "why_longer": ""} for it in minutes]

    def test_a_run_that_took_over_five_minutes_more_is_found(self) -> None:
        self.assertEqual([(row["commit"], more)
                          for row, more in gate.longer(self.runs("150", "155", "", "160.5", "120", "124"))],
                         [("160.5", 5.5)])

    def test_the_crates_that_grew_most_are_named(self) -> None:
        rows = [{"commit": commit, "crate": crate, "proof_s": proof, "tests_s": "", "edit_checks_s": "4"}
                for commit, crate, proof in (("a", "low", "10"), ("a", "high", "20"), ("b", "low", "70"),
                                             ("b", "high", "19"), ("b", "new", "5"))]
        self.assertEqual(gate.grown(rows, "b", "a"), ["low +60 s", "new +9 s"])


class Reading(unittest.TestCase):
    TEXT = """use Rattle.low.specs.Points.{point, ◌≤◌}
use Rattle.low.specs.Ways as ways
pub head : Nat
head = point ≤ ways.of tail -- other

pub tail : Nat
tail = 1
other : Nat
"""

    def test_definitions_cite_by_names_by_operators_and_through_modules(self) -> None:
        with mock.patch.object(reading.Place, "is_ours", lambda self: True):
            definitions = reading.Module(self.TEXT)
            points, ways = ("low", "Points"), ("low", "Ways")
            self.assertEqual(set(definitions.cites("head")),
                             {(points, "point"), (points, "◌≤◌"), (ways, "of"), (None, "tail")})
            self.assertEqual(set(definitions.cites("tail")), set())


class Rules(unittest.TestCase):
    def test_a_text_is_parsed_by_the_grammar(self) -> None:
        self.assertEqual(Text("!risk & F[0,20] near(5) | a -> b", 10).tree(),
                         ("->", ("|", ("&", ("!", ("risk",)), ("F", 0, 2, ("near", 5))), ("a",)), ("b",)))
        self.assertEqual(Text("a S[10,20] b", 10).tree(), ("S", 1, 2, ("a",), ("b",)))
        for text in ("F[0,15] a", "a &", "(a", "A", "a b"):
            with self.assertRaises((ValueError, IndexError), msg=text):
                Text(text, 10).tree()

    def test_definitions_compute_to_the_tree_of_their_first_clause_that_fits(self) -> None:
        text = """both a b = pair And a b
a and b = both a b
rule tick numbers =
  leaf (HeadOn) and span F 0 (numbers.late / tick) (negation (leaf (Near (numbers.safe)))) -- why
"""
        tree = Definitions(text).call("rule", [10, {"late": 60, "safe": 5}])
        self.assertEqual(tree, ("&", ("head_on",), ("F", 0, 6, ("!", ("near", 5)))))
        with self.assertRaises(ValueError):
            Definitions(text).call("no_such", [])

    def test_only_vessels_with_an_odd_number_are_made_to_fish(self) -> None:
        def line(mmsi: int, status: int) -> str:
            return sentence(class_a(mmsi, (1, 2, 3, 4, 5, 6), status)).decode() + "\n"

        self.assertEqual(rules.fishing(line(200000003, 0)), line(200000003, 7))
        self.assertEqual(rules.fishing(line(200000001, 15)), line(200000001, 7))
        self.assertEqual(rules.fishing(line(200000002, 0)), line(200000002, 0))
        self.assertEqual(rules.fishing("no sentence\n"), "no sentence\n")


class Contracts(unittest.TestCase):
    def test_long_lines_of_clauses_are_found_and_those_of_code_are_not(self) -> None:
        wide = "x" * 100
        text = f"""fn a()
    requires {{ {wide} }}
    ensures few {{ a
        → {wide} }}
{{
    call({wide});
}}
ghost keeper = {{ {wide} }};
ghost use {wide};
"""
        self.assertEqual(list(contracts.long_lines(text)), [2, 4, 8])


class Repeats(unittest.TestCase):
    def test_a_repeated_run_of_twelve_lines_is_reported_once_and_whole(self) -> None:
        run = [f"    let row_{k} = take({k});" for k in range(14)]
        texts = {"a.rt": "\n".join(["fn a()", *run, "{}"]), "b.rt": "\n".join([*run[:5], "", "// a word", *run[5:]])}
        self.assertEqual([(str(one), str(other)) for one, other in repeats.repeats(texts)],
                         [("a.rt:2-15", "b.rt:1-16")])

    def test_eleven_lines_and_imports_are_no_repeat(self) -> None:
        run = "\n".join(f"let row_{k} = take({k});" for k in range(11))
        imports = "\n".join(f"use crate::part_{k};" for k in range(20))
        self.assertEqual(list(repeats.repeats({"a.rt": imports + "\n" + run, "b.rt": imports + "\n" + run})), [])


class Command(unittest.TestCase):
    def run_of(self, *words: str) -> subprocess.CompletedProcess[str]:
        """Runs `dev/check` with these arguments."""
        return subprocess.run([sys.executable, os.path.join(TOP, "dev", "check"), *words], capture_output=True,
                              text=True, timeout=300)

    def test_each_check_is_listed_with_one_line(self) -> None:
        self.assertEqual([line.split()[0] for line in self.run_of("--list").stdout.splitlines()], names())
        for name in names():
            self.assertTrue(summary(name) and isinstance(module(name).NEEDS_PROGRAM, bool))

    def test_wrong_uses_end_with_a_status_and_a_line(self) -> None:
        self.assertEqual(self.run_of("no_such").returncode, 2)
        self.assertIn("/no/program is not an executable file",
                      self.run_of("--program", "/no/program", "limits").stderr)

    def test_a_program_that_does_something_else_fails(self) -> None:
        done = self.run_of("--program", "/bin/echo", "program", "limits")
        self.assertEqual((done.returncode, done.stdout.splitlines()[-1]), (1, "0 passed, 2 failed"))
        self.assertIn(
            "program: `points scenario.toml <&-`, status and standard error: (0, ''), want (5, 'log: not read')",
            done.stdout)
        found = Findings("/bin/echo")
        program.check(found)
        self.assertGreater(len(found.faults), 10)


if __name__ == "__main__":
    unittest.main()
