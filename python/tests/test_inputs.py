"""More forms of logs, each with times, places and speeds computed by hand: network captures, Danish raw data, tables,
JSON, GPX, and receivers' clocks."""
import datetime
import gzip
import json
import struct
import unittest

from given import InFolder, text_of
from colregs.io import clocks, tables, units
from colregs.io.forms import Reading, Times, Unsure
from colregs.io.lines import bits_of, sentence_of
from colregs.io.sentences import block
from colregs.io.sources import Gathered, gather
from colregs.errors import Fault

S = b"!AIVDM,1,1,,B,12vg22hP2<G:B?4KVut3Q2l20000,0*27"      # off the examples, of 1700000001
AT = 1700000001                                             # 14 November 2023, 22:13:21 UTC
TAGGED = block(AT).decode() + S.decode() + "\n"


def udp(payload: bytes, ipv6: bool = False) -> bytes:
    """Returns an Ethernet packet with a UDP payload (RFC 768, 791 and 8200)."""
    data = struct.pack(">4H", 4000, 10110, 8 + len(payload), 0) + payload
    if ipv6:
        return bytes(12) + b"\x86\xdd" + struct.pack(">IHBB", 6 << 28, len(data), 17, 64) + bytes(32) + data
    return bytes(12) + b"\x08\x00" + struct.pack(">BBHHHBBH8s", 0x45, 0, 20 + len(data), 1, 0, 64, 17, 0,
                                                 bytes(8)) + data


def pcap(order: str, magic: int, *packets: bytes, link: int = 1) -> bytes:
    """Returns a pcap of a link type by its specification: an hour of packets, one per second."""
    head = struct.pack(order + "IHHiIII", magic, 2, 4, 0, 0, 65535, link)
    return head + b"".join(
        struct.pack(order + "4I", AT + k, 5, len(data), len(data)) + data for k, data in enumerate(packets))


def pcapng(*packets: bytes) -> bytes:
    """Returns a pcapng with a section, an interface whose times are nanoseconds, and enhanced packets."""
    def framed(kind: int, body: bytes) -> bytes:
        body += bytes(-len(body) % 4)
        return struct.pack("<II", kind, 12 + len(body)) + body + struct.pack("<I", 12 + len(body))
    made = framed(0x0A0D0D0A, struct.pack("<IHHq", 0x1A2B3C4D, 1, 0, -1))
    made += framed(1, struct.pack("<HHI", 1, 0, 65535) + struct.pack("<HHBxxx", 9, 1, 9) + bytes(4))
    for k, data in enumerate(packets):
        stamp = (AT + k) * 10 ** 9 + 5
        made += framed(6, struct.pack("<5I", 0, stamp >> 32, stamp & 0xFFFFFFFF, len(data), len(data)) + data)
    return made


class Logs(InFolder):
    def made(self, log: str | bytes, name: str = "log", mmsi: int | None = None,
             **reading: object) -> tuple[Gathered, str]:
        how = Reading(**reading)        # type: ignore[arg-type]
        found = gather([self.write(name, log)], self.path("out"), mmsi=mmsi, reading=how)
        return found, text_of(self.path("out"))

    def report(self, line: str) -> tuple[int, int, float, float, float, float]:
        """Returns time, MMSI, knots, longitude, latitude and course of a message 1 in a line (ITU-R M.1371-5, table
        48)."""
        sentence = sentence_of(line.encode())
        assert sentence is not None
        bits = bits_of([sentence])
        east, north = bits.number(61, 28), bits.number(89, 27)
        return (int(line[3:13]), bits.number(8, 30), bits.number(50, 10) / 10, (east - (east >> 27 << 28)) / 600000,
                (north - (north >> 26 << 27)) / 600000, bits.number(116, 12) / 10)


class Captures(Logs):
    def test_the_lines_of_udp_have_the_captures_time(self) -> None:
        one, other = udp(S + b"\r\n"), udp(b"noise\n" + S, ipv6=True)
        logs = [pcap(order, magic, one, other)
                for order in "<>"
                for magic in (0xA1B2C3D4, 0xA1B23C4D)] + [pcapng(one, other)]
        for log in logs:
            _, out = self.made(log)
            self.assertEqual(out, TAGGED + TAGGED.replace(block(AT).decode(), block(AT + 1).decode()))

    def test_packets_without_udp_or_incomplete_ones_do_not_hide_the_others(self) -> None:
        _, out = self.made(pcap("<", 0xA1B2C3D4, udp(S), b"short", udp(S))[:-20])
        self.assertEqual(out, TAGGED)
        for size in range(4, 80, 7):
            for log in pcap("<", 0xA1B2C3D4, udp(S)), pcapng(udp(S)):
                self.assertRegex(self.made(log[:size])[0].notes[0], "^log is cut off|no sentence and no row")

    def test_each_link_type_has_its_own_head_before_the_packet(self) -> None:
        """The heads of LINKTYPE_ETHERNET with a tag of IEEE 802.1Q, NULL, RAW, LINUX_SLL and LINUX_SLL2, and one whose
        packets are none of the Internet."""
        four, six = udp(S)[14:], udp(S, ipv6=True)[14:]
        sll, sll2 = bytes(14), bytes(18)
        for link, head in ((1, bytes(12) + b"\x81\x00\x00\x05"), (113, sll), (276, b"")):
            for kind, data in ((b"\x08\x00", four), (b"\x86\xdd", six)):
                packet = head + kind + (sll2 if link == 276 else b"") + data
                self.assertEqual(self.made(pcap("<", 0xA1B2C3D4, packet, link=link))[1], TAGGED, link)
        for link, head in ((0, b"\x02\x00\x00\x00"), (101, b"")):
            for data in (four, six):
                self.assertEqual(self.made(pcap("<", 0xA1B2C3D4, head + data, link=link))[1], TAGGED, link)
        self.assertEqual(self.made(pcap("<", 0xA1B2C3D4, four, link=147))[1], "")

    def test_a_later_fragment_gives_no_line(self) -> None:
        packet = bytearray(udp(S))
        packet[14 + 7] = 1                      # the fragment's offset in 8 bytes (RFC 791)
        self.assertEqual(self.made(pcap("<", 0xA1B2C3D4, bytes(packet), udp(S)))[1].count("\n"), 1)

    def test_a_compressed_capture_is_read(self) -> None:
        found, out = self.made(gzip.compress(pcap("<", 0xA1B2C3D4, udp(S))))
        self.assertEqual((out, found.files[0].packed), (TAGGED, "gzip, as a capture"))


class Cut(Logs):
    def test_an_incomplete_gzip_is_read_to_its_end_and_reported(self) -> None:
        lines = "".join(f"{block(AT + k).decode()}{S.decode()}\n" for k in range(3000))
        found, out = self.made(gzip.compress(lines.encode())[:-2000], "log.gz")
        self.assertTrue(lines.startswith(out[:-1]))
        self.assertGreater(out.count("\n"), 100)
        self.assertRegex(found.notes[0], r"log.gz is cut off: it was read as far as it goes, [\d,]+ lines")


class Danish(Logs):
    def test_pghp_says_when_the_next_sentence_was_heard(self) -> None:
        """The form of the Danish raw data: year, month, day, hour, minute, second, millisecond, and more."""
        body = "PGHP,1,2023,11,14,22,13,21,123,219,,2190047,1,27"
        total = 0
        for letter in body.encode():
            total ^= letter
        _, out = self.made(f"${body}*{total:02X}\n".encode() + S + b"\n")
        self.assertEqual(out, TAGGED)


class TimesOfDay(Logs):
    def test_times_without_a_date_use_the_given_one_and_continue_after_midnight(self) -> None:
        times = Times(date=datetime.date(2023, 11, 14))
        self.assertEqual([(times.read(text) or (0,))[0] - AT
                          for text in (b"22:13:21 ", b"23:59:59", b"00:00:01", b"23:59:58", b"00:00:02")],
                         [0, 6398, 6400, 6397, 6401])

    def test_an_unreadable_date_is_reported_even_if_one_is_given(self) -> None:
        with self.assertRaisesRegex(Unsure, "day and month may be exchanged"):
            Times(date=datetime.date(2023, 11, 14)).read(b"14/11/2023 22:13:21")

    def test_syslog_has_the_year_of_the_date_and_the_next_one_after_new_year(self) -> None:
        found = Times(date=datetime.date(2023, 1, 1)).read(b"Nov 14 22:13:21 host ais[7]: ")
        self.assertEqual(found, (AT, "date of syslog, with the year of --date"))
        times = Times(date=datetime.date(2023, 12, 31))
        self.assertEqual([(times.read(text) or (0,))[0] for text in (b"Dec 31 23:59:59", b"Jan  1 00:00:00")],
                         [1704067199, 1704067200])

    def test_twelve_hours_and_the_day_first(self) -> None:
        for text in (b"2023-11-14 10:13:21 PM", b"14-Nov-2023 10:13:21 p.m."):
            self.assertEqual((Times().read(text) or (0,))[0], AT, text)
        for text in (b"14/11/2023 22:13:21", b"14-11-2023 10:13:21 PM", b"14/11/23 22:13:21"):
            self.assertEqual((Times(day_first=True).read(text) or (0,))[0], AT, text)
        self.assertEqual((Times().read(b"2023-11-14 12:00:00 AM") or (0,))[0], 1699920000)
        for text in (b"14/11/2023 22:13:21", b"22:13:21"):
            with self.assertRaises(Unsure):
                Times().read(text)


class Tables(Logs):
    def test_other_heads_tenths_and_commas(self) -> None:
        """MarineTraffic's heads, and a table with decimal commas."""
        for table in ("MMSI,STATUS,SPEED (knots x10),LON,LAT,COURSE,HEADING,TIMESTAMP "
                      "UTC\n200000011,0,140,-123.582340,48.250000,90,91,2023-11-14 22:13:21\n",
                      "mmsi;time;latitude;longitude;speed;course\n200000011;2023-11-14 "
                      "22:13:21;48,25;-123,58234;14,0;90,0\n",
                      "mmsi,time,latitude,longitude,speed,course\n200000011,2023-11-14 22:13:21,48\u00b015.000' "
                      "N,123\u00b034.9404' W,14.0,90.0\n"):
            found, out = self.made(table)
            self.assertEqual(found.unread, {})
            self.assertEqual(self.report(out.splitlines()[-1]), (AT, 200000011, 14.0, -123.58234, 48.25, 90.0), table)

    def test_columns_are_named_by_the_user(self) -> None:
        table = "ship,when,y,x,v\n200000011,2023-11-14 22:13:21,48.25,-123.58234,14.0\n"
        _, out = self.made(table,
                           columns=tuple(tables.columns_of("mmsi=ship,time=when,latitude=y,longitude=x,speed=V")))
        self.assertEqual(self.report(out)[:5], (AT, 200000011, 14.0, -123.58234, 48.25))
        _, out = self.made(table.replace("14.0", "140"), columns=tuple(
            tables.columns_of("mmsi=ship,time=when,latitude=y,longitude=x,speedx10=v")))
        self.assertEqual(self.report(out)[2], 14.0)
        for words, told in ("depth=z", "`depth` is no column"), ("mmsi=", "no column with a head"), (
                "speed=v,speedx10=w", "`speed` has two heads"):
            with self.assertRaisesRegex(Fault, told):
                tables.columns_of(words)
        found, _ = self.made(table, columns=(("mmsi", "vessel"), ("time", "when")))
        self.assertRegex(" ".join(found.words()), "known as mmsi, latitude, longitude among .*; --columns names "
                                                  "`vessel`, which is not there")

    def test_an_unknown_header_is_named_with_its_columns(self) -> None:
        found, _ = self.made("# by hand\nship,when,y,x,v\n200000011,2023-11-14 22:13:21,48.25,-123.58234,14.0\n")
        self.assertRegex(" ".join(found.words()), "a table whose head is not known: no column is known as mmsi, time, "
                                                  "latitude, longitude among ship, when, y, x, v; "
                         "name them by --columns")

    def test_degrees_and_minutes(self) -> None:
        for text, value in (("48 15 N", 48.25), ("48\u00b015'00\" S", -48.25), ("123\u00b034.9404'W", -123.58234),
                            ("-48 15", -48.25), ("48,25", 48.25), ("E 12.5", 12.5), ("4815.00S", -48.25),
                            ("123-34.9404W", -123.58234)):
            self.assertAlmostEqual(units.degrees(text) or 0, value, places=9, msg=text)
        for text in ("48 75 N", "north", "4815.00", "48-75.0N"):
            with self.assertRaises(ValueError):
                units.degrees(text)


class Jsons(Logs):
    def test_aishub_and_aisstream(self) -> None:
        """In the forms of their documentation."""
        hub = [{"ERROR": False, "USERNAME": "A", "FORMAT": "HUMAN", "RECORDS": 1},
               [{
                   "MMSI": 200000011, "TIME": "2023-11-14 22:13:21 GMT", "LONGITUDE": -123.58234, "LATITUDE": 48.25,
                   "COG": 90, "SOG": 14, "HEADING": 91, "ROT": 0, "NAVSTAT": 0, "IMO": 0, "NAME": "ELM",
                   "CALLSIGN": "WDA1234", "TYPE": 70, "A": 100, "B": 20, "C": 10, "D": 10, "DRAUGHT": 5, "DEST": "KIEL",
                   "ETA": ""
               }]]
        about = {
            "MMSI": 200000011, "ShipName": "ELM", "latitude": 48.25, "longitude": -123.58234,
            "time_utc": "2023-11-14 22:13:21.318353 +0000 UTC"
        }
        stream = {
            "MessageType": "PositionReport", "MetaData": about, "Message": {
                "PositionReport": {
                    "Cog": 90, "Latitude": 48.25, "Longitude": -123.58234, "NavigationalStatus": 0, "Sog": 14,
                    "TrueHeading": 91, "UserID": 200000011, "Timestamp": 21
                }
            }
        }
        for value in (hub, stream):
            found, out = self.made(json.dumps(value) + "\n")
            self.assertEqual(found.unread, {})
            self.assertEqual(self.report(out.splitlines()[-1]), (AT, 200000011, 14.0, -123.58234, 48.25, 90.0))


class OwnShip(Logs):
    def test_gpx_is_own_ships_with_her_mmsi(self) -> None:
        """7.2022 m/s are 14 knots."""
        track = ('<?xml version="1.0"?>\n<gpx version="1.0"><trk><trkseg>\n<trkpt lat="48.25" '
                 'lon="-123.58234"><ele>2</ele><time>2023-11-14T22:13:21Z</time>'
                 '<course>90</course><speed>7.2022</speed></trkpt>\n<trkpt lat="48.26" '
                 'lon="-123.6">\n<time>2023-11-14T22:13:31Z</time>\n</trkpt></trkseg></trk></gpx>\n')
        _, out = self.made(track, "track.gpx", mmsi=200000031)
        lines = out.splitlines()
        self.assertEqual(self.report(lines[0]), (AT, 200000031, 14.0, -123.58234, 48.25, 90.0))
        self.assertEqual(self.report(lines[1])[:5], (AT + 10, 200000031, 102.3, -123.6, 48.26))
        found, _ = self.made(track, "track.gpx")
        self.assertEqual(found.aside["point of a GPX track, which is own ship's with --mmsi"], 2)


class Clocks(Logs):
    def log(self, apart: int) -> bytes:
        """Returns forty messages that R1 heard, and R2 whose clock is ahead."""
        lines = []
        for k in range(40):
            payload = S.replace(b"0000,0*27", b"00%02d,0" % k)
            total = 0
            for letter in payload[1:]:
                total ^= letter
            sentence = payload + b"*%02X" % total
            lines += [(at, block(at, b"s:" + name) + sentence + b"\n")
                      for at, name in ((AT + 10 * k, b"R1"), (AT + 10 * k + apart, b"R2"))]
        return b"".join(line for _, line in sorted(lines))

    def test_a_clock_that_is_ahead_is_named_and_set_right(self) -> None:
        found, out = self.made(self.log(25))
        words = [note for note in found.notes if "clock" in note]
        self.assertEqual(words, ["the clock of R2 is 25 s ahead of that of R1, by 40 messages that both heard: --align "
                                 "sets it right"])
        found, out = self.made(self.log(25), align=True)
        self.assertEqual(clocks.ahead(self.path("out")), [])
        self.assertEqual((found.first, found.last), (AT, AT + 390))
        self.assertEqual(sorted(int(line[3:13]) for line in out.splitlines()),
                         sorted(2 * [AT + 10 * k for k in range(40)]))

    def test_clocks_that_agree_are_not_named(self) -> None:
        self.assertEqual([note for note in self.made(self.log(1))[0].notes if "clock" in note], [])


if __name__ == "__main__":
    unittest.main()
