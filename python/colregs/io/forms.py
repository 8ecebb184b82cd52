"""The forms in which a line of a log has its time, before a sentence or after it.

A time without a zone is taken to be in UTC, less an offset if the user gives one. A time that can be read in two ways,
or that lacks its date, is reported by its name and not guessed.
"""
import datetime
import re
from dataclasses import dataclass

Rollover = tuple[datetime.date, int]        # the date of the latest time of day, and its seconds
Form = tuple[str, re.Pattern[bytes]]      # a form's name, and what finds it
MONTHS = {name: k + 1 for k, name in enumerate("jan feb mar apr may jun jul aug sep oct nov dec".split())}
EPOCH = datetime.date(1970, 1, 1).toordinal()
CLOCK = r"(?P<hour>\d\d):(?P<minute>\d\d):(?P<second>\d\d)(?:[.,]\d{1,9})?"
ZONE = r"(?: ?(?P<zone>Z|UTC|GMT|[+-]\d\d(?::?\d\d)?)(?!\w))?"
BEGIN, END = r"(?<![\w./-])", r"(?![\w/-])"
MONTH = r"(?P<month>Jan|Feb|Mar|Apr|May|Jun|Jul|Aug|Sep|Oct|Nov|Dec)[a-z]*"
LOCAL = ("CET CEST EET EEST WET WEST BST MSK EST EDT CST CDT MST MDT PST PDT AKST AKDT HST JST KST IST AEST AEDT NZST "
         "NZDT SGT HKT AM PM am pm")


def form(name: str, pattern: str, flags: int = re.I) -> Form:
    """Returns a form of time with its name."""
    return name, re.compile((BEGIN + pattern + END).encode(), flags)


DATED = [
    form("date and time", r"(?P<year>\d{4})([-/.])(?P<month>\d\d)\2(?P<day>\d\d)(?:T|[ _,;\t]+)" + CLOCK + ZONE),
    form(
        "date and time without separators", r"(?P<year>\d{4})(?P<month>\d\d)(?P<day>\d\d)[T "
        r"_-]?(?P<hour>\d\d)(?P<minute>\d\d)(?P<second>\d\d)(?:[.,]\d{1,9})?" + ZONE),
    form("date with the month's name",
         r"(?P<day>\d{1,2})[- ]" + MONTH + r"[- ](?P<year>\d{4})(?:T|[ _,;\t]+)" + CLOCK + ZONE),
    form("date as ctime writes it",
         MONTH + r" +(?P<day>\d{1,2}) " + CLOCK + r"(?: (?P<zone>UTC|GMT|Z))? (?P<year>\d{4})"),
    form("date with points", r"(?P<day>\d\d?)\.(?P<month>\d\d?)\.(?P<year>\d{4})(?:T|[ _,;\t]+)" + CLOCK + ZONE),
]
COUNTED = [
    form("seconds", r"(?P<count>[1-3]\d{9})(?:\.\d*)?"),
    form("milliseconds", r"(?P<count>[1-3]\d{12})(?:\.\d*)?"),
    form("microseconds", r"(?P<count>[1-3]\d{15})(?:\.\d*)?"),
    form("nanoseconds", r"(?P<count>[1-3]\d{18})"),
]
HALF = r"(?P<hour>\d\d?):(?P<minute>\d\d)(?::(?P<second>\d\d)(?:[.,]\d{1,9})?)? ?(?P<half>[AaPp])\.?[Mm]\.?"
TWELVE = [
    form("date and time of twelve hours", r"(?P<year>\d{4})([-/.])(?P<month>\d\d)\2(?P<day>\d\d)[T _,;\t]+" + HALF),
    form("date with the month's name and time of twelve hours",
         r"(?P<day>\d{1,2})[- ]" + MONTH + r"[- ](?P<year>\d{4})[ _,;\t]+" + HALF),
]
DAY_FIRST = [
    form("date with the day first and time of twelve hours",
         r"(?P<day>\d\d?)([/-])(?P<month>\d\d?)\2(?P<year>\d{4}|\d\d)[T ,;_\t]+" + HALF),
    form("date with the day first",
         r"(?P<day>\d\d?)([/-])(?P<month>\d\d?)\2(?P<year>\d{4}|\d\d)[T ,;_\t]+" + CLOCK + ZONE),
]
WITHOUT_YEAR = form("date of syslog, with the year of --date", MONTH + r" +(?P<day>\d{1,2}) " + CLOCK)
OF_DAY = [form("time of day of twelve hours, with --date", HALF), form("time of day, with --date", CLOCK + ZONE)]
HALF_DAY, HALF_YEAR = 43200, 183 * 86400        # s
DIGIT = re.compile(rb"\d")
NAMED = re.compile(rb" ?(?:%s|[AaPp]\.[Mm]\.?)(?!\w)" % LOCAL.replace(" ", "|").encode())
PER_SECOND = {"seconds": 1, "milliseconds": 10 ** 3, "microseconds": 10 ** 6, "nanoseconds": 10 ** 9}
UNSURE_DATES = [
    form("a date whose day and month may be exchanged", r"\d\d?([/-])\d\d?\1(?:\d{4}|\d\d)[T ,;_\t]*\d\d?:\d\d"),
    form("a date that is none", r"\d{4}[-/.]\d\d[-/.]\d\d(?:T|[ _,;\t]+)\d\d:\d\d:\d\d\S*"),
    form("a date and time without seconds", r"\d{4}[-/.]\d\d[-/.]\d\d(?:T|[ _,;\t]+)\d\d:\d\d"),
]
UNSURE = [
    form("a time with a zone in letters, or of twelve hours", rf"\d\d?:\d\d(?::\d\d(?:[.,]\d+)?)?(?: \d{{4}})? "
                                                              rf"?(?:{'|'.join(LOCAL.split())})", 0),
    form("a ctime date with a zone in letters", MONTH + r" +\d{1,2} \d\d:\d\d:\d\d [A-Z]{3,4} \d{4}", 0),
    *UNSURE_DATES,
    form("a date without a year", MONTH + r" +\d{1,2} \d\d:\d\d:\d\d"),
    form("a time of day without a date", r"\d\d:\d\d(?::\d\d)?(?:[.,]\d+)?"),
    form("a date without a time of day", r"\d{4}-\d\d-\d\d"),
]


@dataclass(frozen=True)
class Reading:
    """How logs are read beyond what their lines say: how far times without a zone are ahead of UTC, the date of times
    of day, whether the day stands first in a date, the columns of a table by their heads, and whether receivers' clocks
    are aligned."""

    offset: int = 0
    date: datetime.date | None = None
    day_first: bool = False
    columns: tuple[tuple[str, str], ...] = ()
    align: bool = False


class Unsure(Exception):
    """A time that must not be guessed; the text says what it is."""


def seconds_of(year: int, month: int, day: int, hour: int, minute: int, second: int, zone: int = 0) -> int:
    """Returns seconds since the Unix epoch; raises ValueError if there is no such date or time."""
    if hour > 23 or minute > 59 or second > 60 or not 1990 <= year <= 2099:
        raise ValueError
    return (datetime.date(year, month, day).toordinal() - EPOCH) * 86400 + hour * 3600 + minute * 60 + second - zone


def zone_seconds(word: str) -> int:
    """Returns the offset of a zone from UTC; 0 for Z, UTC and GMT."""
    digits = word.strip().replace(":", "")
    if digits[:1] not in ("+", "-"):
        return 0
    size = int(digits[1:3]) * 3600 + int(digits[3:5] or 0) * 60
    if size > 14 * 3600:
        raise ValueError
    return -size if digits[0] == "-" else size


def hour_of(parts: dict[str, str]) -> int:
    """Returns the hour of a time of 24 or of twelve hours; raises ValueError if it is none."""
    hour = int(parts["hour"])
    if "half" not in parts:
        return hour
    if not 1 <= hour <= 12:
        raise ValueError(hour)
    return hour % 12 + (12 if parts["half"] in "Pp" else 0)


def parts_of(found: re.Match[bytes]) -> dict[str, str]:
    """Returns the parts of a time that a match has, by their names."""
    return {key: value.decode() for key, value in found.groupdict().items() if value is not None}


def moment(name: str, found: re.Match[bytes], offset: int) -> tuple[int, str]:
    """Returns the time of a match, and the name of its form."""
    parts = parts_of(found)
    if "count" in parts:
        return int(parts["count"]) // PER_SECOND[name], name
    zone = parts.get("zone")
    month = MONTHS.get(parts["month"][:3].lower()) or int(parts["month"])
    shift = offset if zone is None else zone_seconds(zone)
    named = name + (" with its offset" if zone and zone[0] in "+-" else "")
    day, hour, minute, second = int(parts["day"]), hour_of(parts), int(parts["minute"]), int(parts.get("second", 0))
    year = int(parts["year"]) + (2000 if len(parts["year"]) == 2 else 0)
    return seconds_of(year, month, day, hour, minute, second, shift), named


class Times:
    """Reads the times of a log's lines; the form that was read last is tried first.

    With a date, times of day have it, and the next one after each midnight; dates without a year have its year, and the
    next one after each new year. With `day_first`, 3/4/2023 is in April.
    """

    def __init__(self, offset: int = 0, date: datetime.date | None = None, day_first: bool = False) -> None:
        self.offset, self.order = offset, DATED + COUNTED + TWELVE + (DAY_FIRST if day_first else [])
        self.date, self.rollover = date, None if date is None else (date, 0)
        self.dated: int | None = None           # the latest time whose date had no year
        self.latest: tuple[bytes | None, tuple[int, str] | None] = None, None

    def tried(self, text: bytes, last: bool) -> tuple[int, str] | None:
        """Returns the first or last time of a text in any form that is read, or None."""
        for k, (name, pattern) in enumerate(self.order):
            found = pattern.search(text)
            if found is None or self.doubted(text, found):
                continue
            if last:
                found = list(pattern.finditer(text))[-1]
            try:
                answer = moment(name, found, self.offset)
            except ValueError:
                continue
            if k:
                self.order.insert(0, self.order.pop(k))
            return answer
        return None

    def without_date(self, text: bytes) -> tuple[int, str] | None:
        """Returns the time of a text that has a date without a year, or a time of day alone; None if it has none or no
        date was given."""
        if self.date is None or self.rollover is None or any(pattern.search(text) for _, pattern in UNSURE_DATES):
            return None
        for name, pattern in (WITHOUT_YEAR, *OF_DAY):
            found = pattern.search(text)
            if found:
                parts = parts_of(found)
                of_year = "month" in parts
                return self.of_year(parts, self.date.year) if of_year else self.of_day(parts, self.rollover), name
        return None

    def of_year(self, parts: dict[str, str], year: int) -> int:
        """Returns the time of a date without a year: in the year that puts it nearest to the one before, if there is
        one."""
        month = MONTHS[parts["month"][:3].lower()]
        day, hour, minute, second = (int(parts[key]) for key in ("day", "hour", "minute", "second"))
        at = seconds_of(year, month, day, hour, minute, second, self.offset)
        if self.dated is not None and at < self.dated - HALF_YEAR:
            return self.of_year(parts, year + 1)
        self.dated = at
        return at

    def of_day(self, parts: dict[str, str], rollover: Rollover) -> int:
        """Returns the time of a time of day: on the date that puts it within half a day of the one before, and never
        before the date that was given."""
        date, before = rollover
        second = hour_of(parts) * 3600 + int(parts["minute"]) * 60 + int(parts.get("second", 0))
        if second < before - HALF_DAY:
            date += datetime.timedelta(1)
        elif second > before + HALF_DAY and date != self.date:
            date -= datetime.timedelta(1)
        self.rollover = date, second
        shift = zone_seconds(parts["zone"]) if "zone" in parts else self.offset
        return seconds_of(date.year, date.month, date.day, 0, 0, 0, shift) + second

    @staticmethod
    def doubted(text: bytes, found: re.Match[bytes]) -> bool:
        """Returns whether a name after a date says that it is not in UTC."""
        if "zone" not in found.re.groupindex or found["zone"] is not None:
            return False
        return NAMED.match(text, found.end()) is not None

    def read(self, text: bytes, last: bool = False) -> tuple[int, str] | None:
        """Returns the first or the last time in a text and the name of its form, or None; raises Unsure if there is one
        that is not read."""
        if not text or not DIGIT.search(text):
            return None
        if text == self.latest[0] and not last:
            return self.latest[1]
        try:
            answer = self.tried(text, last) or self.without_date(text)
        except ValueError:
            answer = None
        if answer is None:
            for name, pattern in UNSURE:
                if pattern.search(text):
                    raise Unsure(name)
        if answer and not last:
            self.latest = text, answer
        return answer
