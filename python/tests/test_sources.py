"""Logs of receivers, gpsd, AIS-catcher, SignalK and OpenCPN; compressed files, encodings, order, and unreadable
input."""
import bz2
import gzip
import lzma
import os
import random
import shutil
import subprocess
import time
import unittest
import zipfile
from collections.abc import Iterable

import test_tables
import test_times
from given import InFolder, example, needs, text_of, with_program
from colregs.io import sentences
from colregs.io.logs import timed
from colregs.errors import Fault
from colregs.io.sources import Gathered, Unread, gather
from encounters import ENCOUNTERS

S = "!AIVDM,1,1,,B,12vg22hP2<G:B?4KVut3Q2l20000,0*27"
T = "!AIVDM,1,1,,B,12vg22hP2<G:BQDKVut3Q2lF0000,0*4D"


def sentence(body: str) -> str:
    total = 0
    for letter in body:
        total ^= ord(letter)
    return f"${body}*{total:02X}"


def rmc(clock: str, date: str, valid: str = "A", place: str = "4815.0000,N,12334.9406,W", way: str = "14.0,090.0",
        talker: str = "GP") -> str:
    return sentence(f"{talker}RMC,{clock},{valid},{place},{way},{date},,,A")


def base_station(second: int, repeat: int = 0) -> str:
    fields = [(4, 6), (repeat, 2), (2655651, 30), (2023, 14), (11, 4), (14, 5), (22, 5), (13, 6), (second, 6), (0, 90)]
    return sentences.sentence(fields).decode()


class Sources(InFolder):
    def gathered(self, text: str | bytes, mmsi: int | None = None, offset: int = 0) -> tuple[Gathered, list[str]]:
        """Returns what came of a log, and the log that was made, line by line."""
        found = gather([self.write("log", text)], self.path("out"), mmsi=mmsi, offset=offset)
        return found, text_of(self.path("out")).splitlines()

    def times(self, text: str, **more: int) -> list[int]:
        return [int(line[3:13]) for line in self.gathered(text, **more)[1]]


class Receivers(Sources):
    def test_rmc_and_zda_give_the_time_of_what_follows(self) -> None:
        log = [
            rmc("221321.00", "141123"), S,
            sentence("GPZDA,221331.00,14,11,2023,00,00"), T,
            sentence("GPGGA,221331,,,,,0,,,,,,,,"),
            rmc("221341", "141123", talker="GN"), S
        ]
        found, made = self.gathered("\n".join(log))
        self.assertEqual(made, ["\\c:1700000001*5E\\" + S, "\\c:1700000011*5F\\" + T, "\\c:1700000021*5C\\" + S])
        self.assertEqual(found.aside, {"other sentence (GGA)": 1})
        self.assertIn("own ship's places stand in 2 lines", found.notes[0])

    def test_the_date_rolls_over_at_new_year_and_if_it_lags(self) -> None:
        new_year = [rmc("235959", "311223"), S, rmc("000000", "010124"), T]
        self.assertEqual(self.times("\n".join(new_year)), [1704067199, 1704067200])
        lagging = [rmc("235959", "311223"), S, rmc("000000", "311223"), T, rmc("000001", "010124"), S]
        self.assertEqual(self.times("\n".join(lagging)), [1704067199, 1704067200, 1704067201])
        weeks = [rmc("221321", "141123"), S, rmc("221322", "300304"), T]          # 1024 weeks before
        self.assertEqual(self.times("\n".join(weeks)), [1700000001, 1700000002])

    def test_a_fix_without_validity_gives_no_time(self) -> None:
        void = rmc("221331", "060180", "V", ",,,", ",")
        found, made = self.gathered("\n".join([void, S, sentence("GPZDA,221331,06,01,1980,00,00"), T]))
        self.assertEqual((found.sentences, found.untimed), (0, 2))
        self.assertEqual(made, [S, T])                                           # no time in the whole log: unchanged
        self.assertEqual(found.aside["RMC without a valid fix"], 1)
        _, made = self.gathered("\n".join([rmc("221321", "141123"), S, void, T]))
        self.assertEqual(made, ["\\c:1700000001*5E\\" + S])                    # it is unknown how long after
        unset = rmc("000010", "060180")
        self.assertEqual(self.gathered(unset + "\n" + S)[0].aside["RMC of a clock that is not set"], 1)

    def test_a_gap_of_the_receiver_gets_no_invented_time(self) -> None:
        log = [rmc("221321", "141123"), S, rmc("222321", "141123"), T]
        found, made = self.gathered("\n".join(log))
        self.assertEqual(made, ["\\c:1700000601*58\\" + T])
        self.assertEqual(found.unread["a sentence in a gap between two times"], Unread(1, S))

    def test_base_stations_give_the_time_if_nothing_else_does(self) -> None:
        """Message 4 of 2023-11-14 22:13:21 and :31; of a receiver's clock beside it the receiver's counts, and a
        repeated one never does."""
        base = [base_station(second) for second in (21, 31)]
        found, made = self.gathered("\n".join([base[0], S, base[1], T]))
        self.assertEqual([(int(line[3:13]), line[17:]) for line in made],
                         list(zip((1700000001,) * 2 + (1700000011,) * 2, (base[0], S, base[1], T))))
        self.assertEqual(found.forms, {"no time of its own: that of a base station (message 4)": 4})
        self.assertEqual(self.times("\n".join([rmc("221351", "141123"), base[0], S])), [1700000031] * 2)
        self.assertEqual(self.times("\n".join(["1700000100 " + T, base[0], S])), [1700000100] * 3)
        self.assertEqual(self.gathered(base_station(21, repeat=1) + "\n" + S)[0].first, None)

    def test_lines_before_the_first_time_are_reported(self) -> None:
        found, made = self.gathered("\n".join([S, rmc("221331", "141123"), T]))
        self.assertEqual((len(made), found.unread["a sentence before the first time of its log"]), (1, Unread(1, S)))

    def test_a_clock_in_local_time_is_found_by_the_receivers_own(self) -> None:
        log = ["2023-11-14 23:13:21 " + rmc("221321", "141123"), "2023-11-14 23:13:21 " + S]
        found, _ = self.gathered("\n".join(log))
        self.assertIn("ahead of the receiver's UTC by 1:00 hours; give an offset of +01:00", "".join(found.notes))

    @needs("gpsdecode")
    def test_own_ship_comes_from_rmc_if_her_mmsi_is_given(self) -> None:
        log = [rmc("221321", "141123"), sentence("HEHDT,091.4,T"), rmc("221322", "141123"), rmc("221322.5", "141123")]
        found, made = self.gathered("\n".join(log), mmsi=200000031)
        self.assertEqual((found.own, [line[17:23] for line in made]), (2, ["!AIVDO", "!AIVDO"]))
        read = subprocess.run(["gpsdecode", "-j"], input="".join(line[17:] + "\n" for line in made),
                              capture_output=True, text=True).stdout
        self.assertIn('"mmsi":200000031,"scaled":true,"status":15', read)
        self.assertIn(
            '"speed":14.0,"accuracy":false,"lon":-123.582343,"lat":48.250000,"course":90.0,"heading":91,"second":22',
            read)

    @with_program
    def test_plan_runs_on_a_log_that_was_only_received(self) -> None:
        """The log of giving_way without own ship's reports, and a receiver that reports her every ten seconds, with the
        data of encounters.py."""
        others = [
            line for line in text_of(example("giving_way.log")).splitlines()
            if "12vg27h" not in line and ",52vg27h" not in line
        ]
        log = []
        for k in range(18):
            log.append(
                rmc("22%02d%02d" % divmod(13 * 60 + 21 + 10 * k, 60), "141123", place=own_place(1 + 10 * k),
                    way="14.0,000.0"))
        found = gather([self.write("receiver", "\n".join(log)),
                        self.write("heard", "\n".join(others))], self.path("out"), mmsi=200000031)
        self.assertEqual(found.own, 18)
        plan = self.program("plan", example("giving_way.toml"), self.path("out"))
        kept = [row for row in text_of(example("giving_way.csv")).splitlines() if row.startswith("plan")]
        self.assertEqual([row for row in plan.splitlines() if row.startswith("plan")], kept)


def own_place(second: int) -> str:
    """Returns the place of OAK: at 29000000 north, -74200000 east in 1/10000 minute, 1297 m to the south, moving north
    at 14 knots."""
    latitude = round(29000000 + (-1297 + second * 14 * 1852 / 3600) / 1852 * 10000)
    return f"{latitude // 600000:02d}{latitude % 600000 / 10000:07.4f},N,12340.0000,W"


class Servers(Sources):
    def test_gpspipe_raw_with_a_time_of_its_own(self) -> None:
        for stamp in ("Tue Nov 14 22:13:21 2023: ", "2023-11-14T22:13:21.000Z: "):
            log = stamp + '{"class":"VERSION","release":"3.22"}\n' + stamp + S + "\n"
            found, made = self.gathered(log)
            self.assertEqual((made, found.aside, found.unread),
                             (["\\c:1700000001*5E\\" + S], {"JSON of gpsd that is no report": 1}, {}))

    @needs("gpsdecode")
    def test_gpsds_json_becomes_the_same_reports(self) -> None:
        """gpsdecode writes the JSON of gpspipe -w; its TPV are made here."""
        bare = "".join(line.rsplit("\\", 1)[-1] + "\n" for line in text_of(example("crossing.log")).splitlines()[:40])
        for option in ("-j", "-ju"):
            told = subprocess.run(["gpsdecode", option], input=bare, capture_output=True, text=True).stdout
            tpv = '{"class":"TPV","device":"/dev/ttyUSB0","mode":3,"time":"2023-11-14T22:13:21.000Z","lat":48.25,"lon":-123.5}\n'
            found, made = self.gathered("".join(tpv + line + "\n" for line in told.splitlines()))
            self.assertEqual((found.unread, {line[3:13] for line in made}), ({}, {"1700000001"}))
            again = subprocess.run(["gpsdecode", option], input="".join(line[17:] + "\n" for line in made),
                                   capture_output=True, text=True).stdout
            self.assertEqual(positions(again), positions(told))

    @needs("gpsdecode")
    @with_program
    def test_the_examples_through_gpsds_json_have_the_same_report(self) -> None:
        """gpsdecode reads each example; a TPV before each message has its time. In the message's own units nothing is
        lost."""
        for name in ENCOUNTERS:
            bare, clocks = [], []
            for at, line in timed(text_of(example(name + ".log")).encode().splitlines()):
                bare.append(line.rpartition(b"\\")[2])
                clocks += [] if bare[-1].startswith(b"!AIVDM,2,1,") else [at]
            told = subprocess.run(["gpsdecode", "-ju"], input=b"\n".join(bare) + b"\n",
                                  capture_output=True).stdout.decode().splitlines()
            self.assertEqual(len(told), len(clocks))
            tpv = '{"class":"TPV","mode":3,"time":"%s.000Z"}\n%s\n'
            log = "".join(tpv % (time.strftime("%Y-%m-%dT%H:%M:%S", time.gmtime(at)), line)
                          for at, line in zip(clocks, told))
            with self.subTest(name):
                found, _ = self.gathered(log)
                self.assertEqual(found.unread, {})
                report = self.program("audit", example(name + ".toml"), self.path("out"))
                self.assertEqual(counted_out(report), counted_out(text_of(example(name + ".csv"))))

    def test_aiscatchers_values_become_a_report_if_it_has_no_sentence(self) -> None:
        values = (
            '{"class":"AIS","device":"AIS-catcher","rxtime":"20231114221321","scaled":true,"channel":"B","type":1,"repeat":0,"mmsi":200000011,'
            '"status":0,"turn":-128,"speed":14.0,"accuracy":false,"lon":-123.582343,"lat":48.25,"course":90.0,"heading":90,"second":1}'
        )
        found, made = self.gathered(values)
        # A for B alone changes the sum, by 3
        self.assertEqual(made[0][17:], S.replace(",B,", ",A,").replace("*27", "*24"))
        self.assertEqual((found.first, list(found.forms)), (1700000001, ["AIS-catcher's JSON (sentences made of its "
                                                                         "values)"]))

    def test_signalk_keeps_sentences_and_deltas(self) -> None:
        delta = (
            '1700000001000;I;{"context":"vessels.urn:mrn:imo:mmsi:200000011","updates":[{"timestamp":"2023-11-14T22:13:21.000Z","values":'
            '[{"path":"navigation.position","value":{"latitude":48.25,"longitude":-123.5823433}},{"path":"navigation.speedOverGround",'
            '"value":7.2022},{"path":"navigation.courseOverGroundTrue","value":1.5707963},{"path":"navigation.headingTrue","value":1.5708}]}]}'
        )
        found, made = self.gathered(f"1700000001000;N;{S}\n{delta}\n")
        self.assertEqual((found.unread, len(made)), ({}, 2))
        self.assertEqual(made[0], "\\c:1700000001*5E\\" + S)
        # the same report up to its second, but for its channel and its status, 15 instead of 0, which makes six bits
        # 111111 of 110000
        self.assertEqual(made[1][17:53], "!AIVDM,1,1,,A,12vg22wP2<G:B?4KVut3Q2")

    def test_opencpns_recorder_with_a_head_and_its_monitor_with_a_receiver(self) -> None:
        vdr = f'received_at,protocol,msg_type,source,raw_data\n2023-11-14T22:13:21.123Z,NMEA0183,,COM3,"{S}"\n'
        found, made = self.gathered(vdr)
        self.assertEqual((made, found.unread), (["\\c:1700000001*5E\\" + S], {}))
        monitor = f"14:13:21.5 (COM3) {rmc('221321', '141123')}\n14:13:21.7 (COM3) {S}\n"
        self.assertEqual(self.gathered(monitor)[1], ["\\c:1700000001*5E\\" + S])


def positions(told: str) -> list[str]:
    """Returns the lines of position reports, from the MMSI on, without the status and the rest of a message 1."""
    return [line[line.index('"mmsi"'):].split('"status"')[0] + line[line.index('"speed"'):].split(',"maneuver"')[0]
            for line in told.splitlines() if '"type":1,' in line]


def counted_out(report: str) -> list[str]:
    """Returns a report without its counts of lines."""
    return [row for row in report.splitlines() if not row.startswith("lines,")]


class Blocks(Sources):
    def test_other_fields_of_a_tag_block_stay_and_a_wrong_checksum_is_reported(self) -> None:
        found, made = self.gathered(f"\\g:1-2-7,s:r1,c:1700000001*3D\\{S}\n\\c:1700000001*00\\{T}\n")
        self.assertEqual(made, ["\\c:1700000001,g:1-2-7,s:r1*3D\\" + S])
        self.assertEqual(found.unread["a tag block with a wrong checksum"].count, 1)

    def test_a_part_without_a_time_stays_with_the_part_before(self) -> None:
        found, made = self.gathered(text_of(example("crossing.log")))
        self.assertEqual(made[1], "\\c:1700000000*5F\\!AIVDM,2,2,0,A,1@0000000000000,2*55")
        self.assertEqual((found.sentences, found.back, found.unread), (312, 0, {}))

    def test_a_time_counts_for_few_lines_after_it(self) -> None:
        """A part always has the time of its message; other lines have it if the next time is near, or if few lines
        follow it."""
        parts = ["\\c:1700000000*5F\\!AIVDM,2,1,0,A,52vg22h000000000000Dhl000000000000000016;@N::000004i@E53,0*77",
                 "!AIVDM,2,2,0,A,1@0000000000000,2*55"]
        self.assertEqual(self.times("\n".join([*parts, "1700009000 " + T])), [1700000000, 1700000000, 1700009000])
        self.assertEqual(self.times("\n".join(["1700000000 " + S] + [T] * 30 + ["1700000001 " + S])),
                         [1700000000] * 31 + [1700000001])
        found, made = self.gathered("\n".join(["1700000000 " + S] + [T] * 300))
        self.assertEqual((len(made), found.unread["a sentence in a gap between two times"].count), (11, 290))

    def test_lines_that_run_back_are_sorted_and_parts_stay_in_order(self) -> None:
        lines = text_of(example("crossing.log")).splitlines()
        found, made = self.gathered("\n".join(lines[100:] + lines[:100]))
        self.assertEqual((made, found.back > 0), (gather_lines(self, lines), True))
        self.assertIn("sorted by time", " ".join(found.notes))

    def test_a_clock_that_was_not_set_is_reported(self) -> None:
        log = "\n".join(f"{1700000000 + 10 * k} {S}" for k in range(2000)) + "\n1000000000 " + T
        self.assertIn("1 sentence has a time more than a day off nearly all others, as 2001-09-09",
                      "".join(self.gathered(log)[0].notes))
        self.assertEqual(self.gathered(f"1700000000 {S}\n1700090000 {T}")[0].notes, [])

    def test_every_line_is_counted_once(self) -> None:
        log = f"\n\n# a comment\n{S},1700000001\nnonsense\n$GPGGA,1*00\n!AIVDM,1,1,,A,123\n{{\"a\":1}}\n{{broken\n\xff\xfe\n"
        found, _ = self.gathered(log.encode("latin-1"))
        counted = (
            sum(found.forms.values()) + sum(found.aside.values()) + sum(told.count for told in found.unread.values())
        )
        self.assertEqual((counted, found.lines()), (10, 10))
        self.assertEqual(sorted(found.unread), [
            "JSON without a sentence", "a line with no sentence and no row", "a sentence without its checksum, or cut off"])


def gather_lines(test: InFolder, lines: Iterable[str]) -> list[str]:
    gather([test.write("whole", "\n".join(lines))], test.path("sorted"))
    return text_of(test.path("sorted")).splitlines()


class Mutated(Sources):
    def test_any_bytes_break_nothing_and_lose_no_line(self) -> None:
        """Lines of all forms and tables with bytes inserted, removed and changed, from seeds."""
        chance = random.Random(1)
        clocks = rmc("221321", "141123"), sentence("HEHDT,091.4,T"), base_station(21)
        plain = [line.encode() for line in (*test_times.FORMS, *test_times.UNSURE, *clocks)]
        tables = [table.encode().splitlines() for table in (test_tables.CADASTRE, test_tables.DMA, test_tables.HUB_RAW)]
        for _ in range(150):
            lines = [chance.choice(plain) for _ in range(8)] + (chance.choice(tables) if chance.random() < 0.5 else [])
            log = self.write("log", b"\n".join(mutated(chance, line) for line in lines))
            found = gather([log], self.path("out"), mmsi=200000031)
            counted = sum(found.forms.values()) + sum(found.aside.values()) + sum(told.count
                                                                                  for told in found.unread.values())
            self.assertGreaterEqual(counted, found.lines())


def mutated(chance: random.Random, line: bytes) -> bytes:
    """Returns the line with up to three bytes inserted, changed or removed; some bytes are special here."""
    for _ in range(chance.randrange(4)):
        at, byte = chance.randrange(len(line) + 1), bytes(
            [chance.choice([chance.randrange(256), *b",.;:\"\\!$*{}[]0"])])
        line = line[:at] + chance.choice([byte, b""]) + line[at + chance.randrange(3):]
    return line


class Files(Sources):
    TEXT = (f"{S},1700000001\r\n{T},1700000011\r\n").encode()
    MADE = ["\\c:1700000001*5E\\" + S, "\\c:1700000011*5F\\" + T]

    def test_compressed_files_are_decompressed(self) -> None:
        made = {
            "gzip": gzip.compress(self.TEXT), "xz": lzma.compress(self.TEXT), "bzip2": bz2.compress(self.TEXT),
            "plain": self.TEXT
        }
        if shutil.which("zstd"):
            made["zstd"] = subprocess.run(["zstd", "-qc"], input=self.TEXT, capture_output=True).stdout
        with zipfile.ZipFile(self.path("zip"), "w") as out:
            out.writestr("day/log.txt", self.TEXT)
        with open(self.path("zip"), "rb") as source:
            made["zip"] = source.read()
        for name, packed in made.items():
            with self.subTest(name):
                found, lines = self.gathered(packed)
                self.assertEqual((lines, found.files[0].packed, found.files[0].lines), (self.MADE, name, 2))

    def test_a_damaged_or_incomplete_file_is_refused(self) -> None:
        cut_off = gzip.compress(self.TEXT)[:14], lzma.compress(self.TEXT)[:-10]
        for packed in (*cut_off, b"PK\x03\x04nonsense", b"\x1f\x8bnonsense", b"\x28\xb5\x2f\xfd.."):
            with self.subTest(packed[:4]), self.assertRaisesRegex(Fault, "damaged or cut off|install the command zstd"):
                self.gathered(packed)

    def test_utf_16_and_byte_order_marks(self) -> None:
        text = self.TEXT.decode()
        for words in (text.encode("utf-16-le"), b"\xff\xfe" + text.encode("utf-16-le"),
                      b"\xfe\xff" + text.encode("utf-16-be"), b"\xef\xbb\xbf" + self.TEXT,
                      self.TEXT.replace(b"\r\n", b"\r"), gzip.compress(b"\xff\xfe" + text.encode("utf-16-le"))):
            with self.subTest(words[:4]):
                found, made = self.gathered(words)
                self.assertEqual((made, found.unread), (self.MADE, {}))

    def test_several_logs_become_one_by_time(self) -> None:
        found = gather([self.write("b", T + ",1700000011"), self.write("a", S + ",1700000001")], self.path("out"))
        self.assertEqual((text_of(self.path("out")).splitlines(), [part.name for part in found.files]),
                         (self.MADE, ["b", "a"]))

    def test_a_file_that_is_not_a_log_ends_with_a_message_and_a_status(self) -> None:
        empty = [self.write("empty", "")]
        for words, told in ((["nothing"], "cannot read nothing: no such file"), (["."], "is a folder"),
                            (empty, "no sentence and no row")):
            status, out, error = self.tool("tagged", *words)
            self.assertEqual((status, out), (1, ""))
            self.assertIn(told, error)
        status, _, error = self.tool("tagged", source=b"\x00" * 3000000 + b"\n" + bytes(range(256)) * 40)
        self.assertEqual(status, 1)
        self.assertIn("more than a million bytes", error)

    def test_a_pipe_is_read_and_a_device_is_not(self) -> None:
        os.mkfifo(self.path("pipe"))
        with subprocess.Popen(["sh", "-c", "gzip -c > pipe"], stdin=subprocess.PIPE, cwd=self.folder) as child:
            assert child.stdin is not None
            child.stdin.write(self.TEXT)
            child.stdin.close()
            found = gather([self.path("pipe")], self.path("out"))
        self.assertEqual((text_of(self.path("out")).splitlines(), found.files[0].name, found.files[0].packed),
                         (self.MADE, "pipe", "gzip"))
        with self.assertRaisesRegex(Fault, "is a device"):
            gather(["/dev/zero"], self.path("out"))

    def test_sentences_are_stamped_when_they_arrive(self) -> None:
        before = int(time.time())
        status, out, _ = self.tool("tagged", "--now", source=(f"{S}\r\nnothing\n\\c:1700000001*5E\\{T}\n").encode())
        lines = out.splitlines()
        self.assertEqual((status, lines[0][17:], lines[1:]), (0, S, ["nothing", "\\c:1700000001*5E\\" + T]))
        self.assertTrue(before <= int(lines[0][3:13]) <= time.time())

    def test_an_input_log_is_not_overwritten(self) -> None:
        log = self.write("log", self.TEXT)
        with self.assertRaisesRegex(Fault, "is also an input"):
            gather([log], log)


if __name__ == "__main__":
    unittest.main()
