"""Each usual form of a time in a line, for 2023-11-14 22:13:21 UTC, which `date -u -d @1700000001` prints."""
import unittest

from given import InFolder
from colregs.io.sources import Unread, gather

MOMENT = 1700000001
S = "!AIVDM,1,1,,B,12vg22hP2<G:B?4KVut3Q2l20000,0*27"
FORMS = [
    "2023-11-14T22:13:21.123Z " + S,
    "2023-11-14T22:13:21Z: " + S,  # gpspipe -r -Z
    S + ",1700000001",
    S + ",rPORT1,1700000001.55",
    S + ",s25124,d-119,T42.36,x1234,r003669953,1700000001",
    "1700000001 " + S,
    "1700000001.25," + S,
    "1700000001000 " + S,
    "1700000001000;N;" + S,  # SignalK's log of what it received
    "1700000001\t" + S,
    "1700000001;" + S,
    "1700000001," + S,
    "2023-11-14T22:13:21+00:00 " + S,
    "2023-11-14T23:13:21+01:00 " + S,
    "2023-11-14 17:13:21 -0500 " + S,
    "[2023-11-14 22:13:21] " + S,
    "2023/11/14 22:13:21 " + S,
    "20231114T221321Z " + S,
    "20231114221321 " + S,
    "14-Nov-2023 22:13:21 " + S,
    '"2023-11-14 22:13:21","' + S + '"',
    "2023-11-14 22:13:21;AIS;udp;" + S,
    "Tue Nov 14 22:13:21 2023: " + S,  # gpspipe -r -t
    "$AITAG,1700000001," + S,
    # AIS-catcher on a screen
    S + " ( MSG: 1, REPEAT: 0, MMSI: 200000011, signalpower: -31.2, ppm: 1, timestamp: 20231114221321)",
    S + " 20231114 221321",
    S + ",1700000001000",
    S + ",2023-11-14T22:13:21Z",
    S + " 1700000001",
    S + " [2023-11-14 22:13:21]",
    "\\s:rPORT1*13\\" + S + ",1700000001",
    "\\s:rPORT1,c:1700000001000*51\\" + S,
    f'{{"class":"AIS","device":"AIS-catcher","rxtime":"20231114221321","scaled":true,"channel":"B","nmea":["{S}"],"type":1}}',
    f'{{"rxuxtime":1700000001.5,"nmea":"{S}"}}',
    f'{{"log":"{S}\\n","stream":"stdout","time":"2023-11-14T22:13:21.123456789Z"}}',  # a container's log
    f'ais/station7 {{"@timestamp":"2023-11-14T22:13:21Z","message":"{S}"}}',
    f'2023-11-14T22:13:21.500Z,NMEA0183,,ttyUSB0,"{S}"',  # OpenCPN's VDR
]
UNSURE = {
    "22:13:21 (RX) " + S: "a time of day without a date",
    "14/11/2023 22:13:21 " + S: "a date whose day and month may be exchanged",
    "Nov 14 22:13:21 host ais: " + S: "a date without a year",
    "2023-11-14 23:13:21 CET " + S: "a time with a zone in letters, or of twelve hours",
    "22:13:21 PM " + S: "a time with a zone in letters, or of twelve hours",
    "2023-13-14 22:13:21 " + S: "a date that is none",
    "2023-11-14 22:13 " + S: "a date and time without seconds",
}


class Times(InFolder):
    def test_each_form_gives_its_time(self) -> None:
        for form in FORMS:
            with self.subTest(form):
                log = self.write("log", form + "\n")
                gathered = gather([log], self.path("out"))
                self.assertEqual((gathered.first, gathered.last, gathered.sentences, gathered.unread),
                                 (MOMENT, MOMENT, 1, {}))
                with open(self.path("out")) as source:
                    block, sentence = source.read().rsplit("\\", 1)
                self.assertEqual(sentence, S + "\n")
                self.assertTrue(block.startswith("\\c:1700000001"))

    def test_all_forms_in_one_log(self) -> None:
        log = self.write("log", "".join(form + "\n" for form in FORMS))
        gathered = gather([log], self.path("out"))
        self.assertEqual((gathered.sentences, sum(gathered.forms.values()), gathered.first, gathered.last),
                         (len(FORMS), len(FORMS), MOMENT, MOMENT))

    def test_ambiguous_values_are_reported_and_not_guessed(self) -> None:
        for form, name in UNSURE.items():
            with self.subTest(form):
                gathered = gather([self.write("log", form + "\n")], self.path("out"))
                self.assertEqual((gathered.sentences, list(gathered.unread)), (0, [name]))
                self.assertEqual(gathered.unread[name], Unread(1, form))

    def test_an_offset_applies_only_to_times_without_a_zone(self) -> None:
        log = self.write("log", f"2023-11-14 23:13:21 {S}\n2023-11-14T22:13:21Z {S}\n1700000001 {S}\n")
        gathered = gather([log], self.path("out"), offset=3600)
        self.assertEqual((gathered.first, gathered.last), (MOMENT, MOMENT))

    def test_the_moments_of_a_leap_year_and_of_new_year(self) -> None:
        for text, moment in (("2024-02-29 23:59:59", 1709251199), ("2023-12-31 23:59:59", 1704067199),
                             ("2024-01-01 00:00:00", 1704067200)):
            self.assertEqual(gather([self.write("log", text + " " + S)], self.path("out")).first, moment)


if __name__ == "__main__":
    unittest.main()
