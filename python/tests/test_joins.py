"""Joins that could be silently wrong: each equals that of one run, or is refused, or marks the rows in question."""
import csv
import gzip
import io
import json
import math
import os
import unittest
import unittest.mock
from collections.abc import Iterable, Iterator
from typing import Any

import crowd
from drawn_logs import METRE, START, in_parts, scenario_text, stamped, voyage
from given import InFolder, PROGRAM, text_of, with_program
from colregs.errors import Fault
from colregs.io import sentences
from colregs.io.lines import Joiner, Sentence, bits_of, line_of, sentence_of, stamp_of, stamp_of_block
from colregs.model.formulas import YES, sight_of
from colregs.model.scenario import Scenario
from colregs.run.limits import next_step
from colregs.shares.cutter import Cut, share_of_files
from colregs.shares.jobs import whole_result
from colregs.shares.reads import COPY, LINES, SEEK, SKIP, Read, Window, read_of, reads_of
from colregs.shares.spans import Believed, Block, Span, believed, read_span

Row = tuple[float, bytes]
YACHT, CARGO, EAST, NORTH = 200000001, 200000002, 200000003, 200000004
SCENARIO = scenario_text(2160)
RANKS = SCENARIO + "ranks = 1\n"
CROSSING = 3 * 3600 + 1800          # s after the start at which two vessels cross, far from the first window


def way(mmsi: int, knots: int, course: int, at: int, offset: int, x: float = 0.0, y: float = 0.0, to: int = 21600,
        every: int = 30, status: int = 15) -> Iterator[Row]:
    """Returns the reports of a vessel that is at a place at a time, with their arrival times."""
    for second in range(offset, to, every):
        far = knots * 1852 / 3600 * (second - at)
        east, north = x + far * math.sin(math.radians(course)), y + far * math.cos(math.radians(course))
        fields = sentences.class_a(
            mmsi, (round(north * METRE), round(east * METRE), knots * 10, course * 10, course, second % 60), status)
        yield second, stamped(second, sentences.sentence(fields))


def two(at: int = CROSSING, to: int = 21600) -> list[Row]:
    """A yacht that gives way by her course, and a cargo ship, who meet in a crossing."""
    return [*way(YACHT, 8, 90, at, 5, to=to), *way(CARGO, 12, 0, at, 7, x=100, status=0, to=to)]


def read_part(line: bytes) -> Sentence:
    """The sentence of a line, which has one."""
    sentence = sentence_of(line)
    assert sentence is not None
    return sentence


@with_program
class Joins(InFolder):
    def many(self, *words: str, status: int = 0) -> tuple[Any, str, str]:
        done = self.within("colregs-many", *words, "--program", PROGRAM)
        self.assertEqual(done[0], status, done[2])
        return done

    def log(self, rows: Iterable[Row], name: str = "log.gz") -> None:
        self.write(name, gzip.compress(b"".join(line + b"\n" for _, line in sorted(rows, key=lambda row: row[0])), 1))

    def joined(self, *words: str, files: tuple[str, ...] = ("log.gz",),
               scenario: str = SCENARIO) -> tuple[list[str], list[str]]:
        """The joined rows of meetings and verdicts, and those of one run."""
        self.write("s.toml", scenario)
        self.write("jobs", self.many("plan", "s.toml", *files, *words)[1])
        self.many("jobs", "--jobs", "2")
        self.write("whole", b"".join(gzip.decompress(open(self.path(name), "rb").read()) for name in files))
        return crowd.stretches(self.many("join", "jobs")[1]), crowd.stretches(
            self.program("audit", self.path("s.toml"), self.path("whole")))

    def doubts(self) -> list[dict[str, str]]:
        return list(csv.DictReader(io.StringIO(text_of(self.path("jobs.kept/doubts.csv")))))


class Windows(Joins):
    def test_a_ship_type_that_was_reported_once_counts_in_every_window(self) -> None:
        self.log([*two(), (6, stamped(6, sentences.sentence(sentences.hull_part(YACHT, 36, (0, 0, 0, 0)))))])
        joined, whole = self.joined("--ticks-each", "360", scenario=RANKS)
        self.assertIn(f"verdict,{CARGO},{YACHT},r16,broken", "\n".join(whole))          # power gives way to sail
        self.assertEqual(joined, whole)
        job = json.loads(text_of(self.path("jobs")).splitlines()[3])
        self.assertEqual(job["types"], {str(YACHT): 36})

    def test_a_ship_type_in_parts_of_two_files_counts_too(self) -> None:
        rows, parts = sorted(two(), key=lambda row: row[0]), in_parts(voyage(YACHT, 36), b"1", b"A", 0)
        self.log([*[row for row in rows if row[0] < 40], (39, stamped(39, parts[0]))], "one.gz")
        self.log([(40, parts[1]), *[row for row in rows if row[0] >= 40]], "two.gz")
        joined, whole = self.joined("--ticks-each", "360", files=("one.gz", "two.gz"), scenario=RANKS)
        self.assertIn(f"verdict,{CARGO},{YACHT},r16,broken", "\n".join(whole))
        self.assertEqual(joined, whole)

    def test_two_vessels_with_one_mmsi_are_doubtful(self) -> None:
        self.log([*way(YACHT, 0, 0, 0, 0, x=30000), *two(at=CROSSING)])
        for each in ("333", "360", "361"):
            joined, whole = self.joined("--ticks-each", each)
            self.assertEqual([row for row in joined if not row.endswith(",doubt")], whole, each)
            if len(joined) > len(whole):
                self.assertIn(str(YACHT), [doubt["subject"] for doubt in self.doubts()], each)

    def test_a_users_formula_that_looks_back_beyond_the_gap(self) -> None:
        rows = list(way(CARGO, 0, 0, 0, 7, to=10800))
        for second, line in [
                *way(YACHT, 5, 90, 3300, 5, y=150, to=4500), *way(YACHT, 5, 270, 5700, 4505, y=150, to=10800)
        ]:
            rows.append((second, line))
        self.log(rows)
        formula = '[[formula]]\nname = "again"\ntext = "begin -> !O[300,3600] begin"\n'
        scenario = SCENARIO.replace("ticks = 2160", "ticks = 1080") + formula
        for each, overlap in (("300", "3000"), ("200", "2000"), ("150", "6000")):
            joined, whole = self.joined("--ticks-each", each, "--overlap", overlap, scenario=scenario)
            self.assertIn(",again,broken,", "\n".join(whole))
            unmarked = [row for row in joined if row.count(",") == 6]
            self.assertLessEqual(set(unmarked), set(whole))
            missing = {row for row in whole if row not in unmarked}
            self.assertTrue(all("again" in row for row in missing), missing)
            self.assertTrue(not missing or self.doubts(), missing)

    def test_a_meeting_longer_than_the_overlap_is_one_row_and_its_verdicts_are_marked(self) -> None:
        self.log([
            *way(YACHT, 0, 0, 0, 5, to=10800), *way(CARGO, 0, 0, 0, 7, x=50, to=10800),
            *way(EAST, 9, 0, 5000, 3, x=2000, to=10800), *way(NORTH, 9, 180, 5000, 4, x=2100, to=10800)
        ])
        joined, whole = self.joined("--ticks-each", "100", scenario=SCENARIO.replace("ticks = 2160", "ticks = 1080"))
        meetings = [row for row in whole if row.startswith("meeting,")]
        self.assertIn(f"meeting,{YACHT},{CARGO},", "\n".join(meetings))
        self.assertEqual([row for row in joined if row.startswith("meeting,")], meetings)
        under_way = [row for row in whole if str(EAST) in row]
        self.assertEqual([row for row in joined if str(EAST) in row], under_way)
        moored = text_of(self.path("jobs.kept/moored.csv")).splitlines()
        self.assertEqual([line.split(",")[:2] for line in moored[1:]],
                         [[str(YACHT), str(CARGO)], [str(CARGO), str(YACHT)]])
        marked = [row for row in joined if row.endswith(",cut")]
        self.assertTrue(all({str(YACHT), str(CARGO)} == set(row.split(",")[1:3]) for row in marked))

    def test_one_stamp_ten_years_ahead_makes_no_windows(self) -> None:
        rows = two(to=14400)
        self.log([*rows, (100, stamped(10 ** 8 * 3, sentences.sentence(sentences.class_a(CARGO, (0, 0, 0, 0, 0, 0)))))])
        self.write("s.toml", SCENARIO)
        done = self.many("plan", "s.toml", "log.gz", "--ticks-each", "360")
        self.assertEqual(len(done[1].splitlines()), 3)
        self.assertIn("1 lines have a time more than a day before or after all others", done[2])

    def test_windows_begin_shortly_before_the_first_line(self) -> None:
        self.log(two())
        joined, whole = self.joined("--ticks-each", "360")
        early = SCENARIO.replace(f"start = {START}", f"start = {START - 50_000_000}")
        self.write("early.toml", early)
        jobs = [
            json.loads(line)
            for line in self.many("plan", "early.toml", "log.gz", "--ticks-each", "360")[1].splitlines()
        ]
        self.assertLess(len(jobs), 10)
        self.assertTrue(START - 20000 < jobs[0]["start"] <= START)
        moved, _ = self.joined("--ticks-each", "360", scenario=early)
        self.assertEqual(len(moved), len(whole))
        self.write("late.toml", SCENARIO.replace(f"start = {START}", f"start = {START + 7200}"))
        self.assertIn("lines are before the start and are not audited",
                      self.many("plan", "late.toml", "log.gz", "--ticks-each", "360")[2])


class Plans(Joins):
    def test_a_stored_index_gives_the_same_plan_without_reading_the_files_again(self) -> None:
        rows = sorted(two(), key=lambda row: row[0])
        self.log([row for row in rows if row[0] < 9000], "one.gz")
        self.log([row for row in rows if row[0] >= 9000], "two.gz")
        self.write("s.toml", SCENARIO)
        words = ["s.toml", "one.gz", "two.gz", "--ticks-each", "360"]
        ways: tuple[list[str], ...] = ([], ["--ticks", "1000"])
        for more in ways:
            plan = self.many("plan", *words, *more)[1]
            self.assertEqual(self.many("plan", *words, *more, "--index", "index")[1], plan)
            with unittest.mock.patch("colregs.shares.index.read_span",
                                     side_effect=AssertionError if not more else read_span):
                self.assertEqual(self.many("plan", *words, *more, "--index", "index")[1], plan)
            # next to the file, if no folder is named
            self.assertTrue(os.path.exists(self.path(".one.gz.colregs-index")))
        self.log(rows, "two.gz")
        self.assertEqual(self.many("plan", *words, "--index", "index")[1], self.many("plan", *words)[1])
        for name in os.listdir(self.path("index")):
            self.write("index/" + name, "{")
        self.assertEqual(self.many("plan", *words, "--index", "index")[1], self.many("plan", *words)[1])


class Tiles(Joins):
    def test_a_file_that_changed_after_the_plan_is_refused(self) -> None:
        rows = [*two(at=1500, to=3600), *way(EAST, 8, 90, 1500, 9, x=20000, to=3600)]
        self.log(rows)
        self.write("s.toml", SCENARIO)
        self.write("jobs", self.many("plan", "s.toml", "log.gz", "--tiles", "2x1")[1])
        self.log([*rows, *way(NORTH, 12, 0, 1500, 11, x=20100, to=3600)])
        self.assertIn("log.gz changed after the jobs were planned: plan again", self.many("jobs", status=1)[2])
        self.assertIn("log.gz changed after the jobs were planned: plan again", self.many("join", "jobs", status=1)[2])

    def four(self) -> list[Row]:
        return [
            *two(at=1500, to=3600), *way(EAST, 8, 90, 1500, 9, x=40000, to=3600),
            *way(NORTH, 12, 0, 1500, 11, x=40100, to=3600)
        ]

    def test_a_damaged_first_part_of_another_vessel_takes_no_part_away(self) -> None:
        first, last = in_parts(voyage(YACHT, 36), b"3", b"A", 0)
        damaged = in_parts(voyage(EAST, 70), b"3", b"A", 1)[0]
        self.log(
            [*self.four(), (600, stamped(600, first)), (600.1, stamped(600, damaged)), (600.2, stamped(600, last))])
        joined, whole = self.joined("--tiles", "2x1", "--ticks", "400", scenario=RANKS)
        self.assertIn(f"verdict,{CARGO},{YACHT},r16,broken", "\n".join(whole))
        self.assertEqual(joined, whole)

    def test_an_overlong_line_of_another_vessel_moves_no_clock(self) -> None:
        fields = sentences.class_a(EAST, (0, round(38000 * METRE), 80, 900, 90, 0))
        self.log([*self.four(), (1000, stamped(3400, sentences.sentence(fields) + b" " + b"x" * 2000))])
        joined, whole = self.joined("--tiles", "2x1", "--ticks", "400")
        self.assertEqual(len([row for row in whole if row.startswith("meeting,")]), 4)
        self.assertEqual(joined, whole)


class KeptResults(Joins):
    def test_an_empty_or_incomplete_result_is_computed_again(self) -> None:
        self.log(two())
        joined, _ = self.joined("--ticks-each", "360")
        names = sorted(name for name in os.listdir(self.path("jobs.kept")) if name.endswith(".csv") and len(name) > 60)
        for name, size in ((names[0], 0), (names[1], 40)):
            os.truncate(self.path("jobs.kept/" + name), size)
        error = self.many("join", "jobs", status=1)[2]
        self.assertIn("2 of 5 jobs have no result yet", error)
        self.assertIn("3 were cached, 2 ran, 0 failed", self.many("jobs")[2])
        self.assertEqual(crowd.stretches(self.many("join", "jobs")[1]), joined)

    def test_a_result_ends_with_the_checksum_of_its_lines(self) -> None:
        self.log(two())
        self.joined("--ticks-each", "360")
        name = next(name for name in os.listdir(self.path("jobs.kept")) if len(name) > 60)
        text = open(self.path("jobs.kept/" + name), "rb").read()
        self.assertIsNotNone(whole_result(text))
        for wrong in (text[:-1], text[1:], text.replace(b"r8d", b"r8b", 1), b"", b"\n"):
            self.assertIsNone(whole_result(wrong))
        self.assertEqual(os.stat(self.path("jobs.kept/" + name)).st_mode & 0o777, 0o666 & ~self.mask())

    def mask(self) -> int:
        mask = os.umask(0)
        os.umask(mask)
        return mask

    def test_a_share_with_too_many_vessels_or_bytes_is_split_by_itself(self) -> None:
        self.write("log.gz", gzip.compress(crowd.wide(), 1))
        self.write("s.toml", crowd.SCENARIO.replace("watch = 5000", "watch = 900").replace("risk = 500", "risk = 100"))
        self.write("jobs", self.many("plan", "s.toml", "log.gz", "--ticks", "10")[1])
        self.assertEqual(len(text_of(self.path("jobs")).splitlines()), 1)
        self.many("jobs")
        meetings = [row.split(",") for row in self.many("join", "jobs")[1].splitlines() if row.startswith("meeting,")]
        self.assertEqual(sorted((int(row[1]), int(row[2])) for row in meetings),
                         [(200000001 + k, 200000001 + (k ^ 1)) for k in range(4200)])
        self.log([
            *two(at=1500, to=3600), *way(EAST, 8, 90, 1500, 9, x=40000, to=3600),
            *way(NORTH, 12, 0, 1500, 11, x=40100, to=3600)
        ])
        size = sum(len(line) + 1 for line in gzip.decompress(open(self.path("log.gz"), "rb").read()).splitlines())
        small = SCENARIO.replace("max_speed = 400", f"max_speed = 400, max_bytes = {size * 3 // 4}")
        self.write("s.toml", small)
        self.write("jobs", self.many("plan", "s.toml", "log.gz", "--ticks", "400")[1])
        self.many("jobs")
        self.write("whole", gzip.decompress(open(self.path("log.gz"), "rb").read()))
        self.write("whole.toml", SCENARIO)
        self.assertEqual(crowd.stretches(self.many("join", "jobs")[1]),
                         crowd.stretches(self.program("audit", self.path("whole.toml"), self.path("whole"))))

    def test_a_share_with_too_many_pairs_is_split_by_itself(self) -> None:
        log = crowd.log(100, 8000).encode()
        self.write("log.gz", gzip.compress(log, 1))
        self.write("s.toml", crowd.SCENARIO)
        found = []
        ways: tuple[list[str], ...] = ([], ["--group", "25"])
        for words in ways:
            self.write("jobs", self.many("plan", "s.toml", "log.gz", "--ticks", str(crowd.STEPS), *words)[1])
            self.many("jobs", "--jobs", "2")
            found.append(crowd.stretches(self.many("join", "jobs")[1]))
        self.assertGreater(len(found[0]), 200)
        self.assertEqual(found[0], found[1])


class Parts(InFolder):
    def test_lines_are_read_as_the_program_reads_them(self) -> None:
        # docs/LOG.md, each by hand: the sum of `c:1700000001` is 5E
        good = b"\\c:1700000001*5E\\!AIVDM,1,1,,B,12vg22hP2<G:B?4KVut3Q2l20000,0*27"
        for line, stamp in (
            (good, 1700000001),
            (good[:16] + b"F" + good[17:], None),
            (b"\\c:1700000001000*6E\\", 1700000001),
            (good + b"x" * 1024, None),
            (b"\\c:17x*00\\", None),
            (b"\\s:a!b,c:5*" + b"%02X" % sentences.total(b"s:a!b,c:5") + b"\\!", 5),
            (b"!AIVDM", None),
        ):
            self.assertEqual(stamp_of(line), stamp, line)
        self.assertEqual(stamp_of_block(b"\\*00\\"), None)
        self.assertIsNotNone(sentence_of(good + b"\r\n"))
        for wrong in (good[:-1] + b"8", good.replace(b",1,1,", b",1,2,"), good + b"x", good[1:],
                      good.replace(b"12vg", b"12v\x80")):
            self.assertIsNone(sentence_of(wrong), wrong)
        self.assertEqual(bits_of([read_part(good)]).number(8, 30), 200000011)
        self.assertEqual(line_of(b"a\r\n"), b"a")

    def test_parts_are_joined_by_the_last_ones_of_their_key(self) -> None:
        first, last = (read_part(part) for part in in_parts(voyage(YACHT, 36), b"1", b"A", 0))
        self.assertEqual(Joiner().take(last, 5), None)
        joiner = Joiner()
        joiner.take(first, 5)
        self.assertEqual(joiner.take(last, 36), None)                  # more than 30 s after the first
        joiner.take(first, 40)
        message = joiner.take(last, 70)
        assert message is not None
        self.assertEqual((message.time, message.earliest, bits_of(message.parts).number(232, 8)), (70, 40, 36))

    def test_the_sight_of_a_formula(self) -> None:
        for text, back, ahead, meetings, no_edge in (("engaged -> clear(100)", 0, 0, True,
                                                      True), ("begin -> !O[60,900] begin", 900, 0, True,
                                                              True), ("H[0,600] engaged -> seen", 600, 0, True, False),
                                                     ("O[0,600] engaged -> seen", 600, 0, True,
                                                      True), ("engaged -> H[0,60] seen", 60, 0, True,
                                                              False), ("clear(100)", 0, 0, False, True),
                                                     ("G[0,60] F[10,20] !engaged", 0, 80, True,
                                                      True), ("risk & seen U[0,30] begin -> false", 0, 30, True, True),
                                                     ("(engaged S[0,300] begin) -> !ahead", 300, 0, True, True)):
            sight = sight_of(text)
            self.assertEqual((sight.back, sight.ahead, sight.values == {YES}, sight.no_edge),
                             (back, ahead, meetings, no_edge), text)

    def test_a_text_that_is_no_formula_is_refused(self) -> None:
        # by the grammar of docs/FORMULAS.md, and none deeper than anybody writes
        for text in ("", "seen seen", "G[0,60 seen", "G[x,60] seen", "G seen", "clear(x)", "clear", "seen &", "#", "U",
                     "seen U[0,60]", "(" * 300 + "seen" + ")" * 300, "!" * 300 + "seen"):
            with self.assertRaisesRegex(Fault, "is no formula, at its byte", msg=text):
                sight_of(text)

    def test_times_of_few_lines_are_not_believed(self) -> None:
        spans = [
            Span("a", "", {10: [500, 36000, 39000], 11: [400, 39600, 40000]}),
            Span("b", "", {99: [2, 356400, 356500], 999: [1, 3596400, 3596400]})
        ]
        found = believed(spans, 0)
        self.assertEqual((found.first, found.last, found.outside, found.farthest), (36000, 40000, 3, 3596400))
        spans.append(Span("c", "", {99: [100, 356400, 356500]}))
        self.assertEqual(believed(spans, 0).last, 356500)
        early = [Span("a", "", {1: [3, 3600, 3700], 99: [500, 356400, 359000]})]
        self.assertEqual((believed(early, 0).first, believed(early, 0).outside, believed(early, 0).farthest),
                         (356400, 3, 3600))
        self.assertEqual(believed([], 5), Believed(5, 5))

    def test_blocks_are_skipped_copied_or_cut(self) -> None:
        window, block = Window(100, 200, 0, 1000), Block(10, True, 120, 180, 150)
        for one, clock, read in (
            (block, None, Read(COPY, 10, 150, 180)),
            (block, 200, Read(COPY, 10, 150, 180)),
            (block, 201, Read(LINES, 10)),
            (block._replace(begins=False), None, Read(LINES, 10)),
            (Block(10, True, 1, 0, 0), None, Read(LINES, 10)),
            (block._replace(greatest=201), None, Read(LINES, 10)),
            (Block(10, True, 20, 99, 99), None, Read(SKIP, 10, 99, 99)),
            (Block(10, True, 20, 100, 99), None, Read(LINES, 10)),
            (Block(10, True, 201, 1000, 300), None, Read(SKIP, 10, 300, 1000)),
            (Block(10, True, 201, 1001, 300), None, Read(LINES, 10)),
            (Block(10, True, 1001, 1002, 1002), None, Read(SKIP, 10, 1002)),
        ):
            self.assertEqual(read_of(one, window, clock), read, one)
        self.assertEqual(Block(1, True, 5, 6, 6).joined(Block(2, False, 1, 0, 0)), Block(3, True, 5, 6, 6))
        self.assertEqual(Block(1, True, 5, 9, 6).joined(Block(2, True, 4, 8, 7)), Block(3, True, 4, 9, 7))

    def test_a_compressed_file_starts_at_the_member_before_the_needed_bytes(self) -> None:
        lines = [stamped(second, b"!x" * 90) + b"\n" for second in range(0, 30000)]
        name = self.write("log.gz",
                          b"".join(gzip.compress(b"".join(lines[k:k + 5000]), 1) for k in range(0, 30000, 5000)))
        span = read_span(name, None)
        self.assertGreater(len(span.members), 1)
        window = Window(START + 21000, START + 22000, START, START + 30000)
        reads = reads_of([span], window, None) or []
        self.assertEqual(reads[0][0].what, SEEK)
        cut = Cut(*window, slack=0)
        self.assertEqual(b"".join(share_of_files([name], reads, cut)), b"".join(lines[21000:22001]))
        self.assertEqual(read_span(self.write("log", b"".join(lines)), None).hours, span.hours)

    def test_a_scenario_of_ranks_says_so(self) -> None:
        self.assertTrue(Scenario(self.write("s.toml", RANKS)).ranks)
        self.assertFalse(Scenario(self.write("s.toml", SCENARIO)).ranks)

    def test_each_limit_has_its_number_and_a_next_step(self) -> None:
        # the texts of docs/REPORT.md
        for words, number, step in (
            ("limit: log 1073741824", "1 GiB", "split the log"),
            ("limit: vessels 4096", "4096", "--tiles"),
            ("limit: pairs 4096", "4096", "subjects"),
            ("limit: targets 64", "64", "own.range"),
            ("limit: scenario 1048576", "1 MiB", "shorten"),
            ("limit: rows 16777216", "16 MiB", "rows"),
        ):
            self.assertIn(number, next_step(7, words))
            self.assertIn(step, next_step(7, words))
        self.assertEqual((next_step(3, "scenario: window.ticks: range"), next_step(7, "")), ("", ""))
