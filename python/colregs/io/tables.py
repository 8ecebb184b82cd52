"""Tables of positions (CSV), known by their heads: MarineCadastre, the Danish Maritime Authority (DMA), AISHub, and
others with such columns.

Each row becomes a position report, message 18 for class B and otherwise message 1, and facts about the ship become
message 24. A column that is not known is named, and not guessed.
"""
import csv
import re
from collections.abc import Sequence

from colregs.errors import Fault
from colregs.io import units
from colregs.io.forms import Times, Unsure, seconds_of
from colregs.io.sentences import NO_COURSE, NO_HEADING, NO_SPEED

COLUMNS = {
    "mmsi": ("mmsi",),
    "time": ("basedatetime", "timestamp", "tstamp", "time", "datetime", "timestamputc", "timeutc", "datetimeutc"),
    "latitude": ("lat", "latitude"),
    "longitude": ("lon", "longitude", "long", "lng"),
    "speed": ("sog", "speedoverground", "speed", "speedknots", "speedknotsx", "speedkn", "sogknots"),
    "course": ("cog", "courseoverground", "course"),
    "heading": ("heading", "trueheading", "hdg"),
    "name": ("vesselname", "name", "shipname"),
    "kind": ("vesseltype", "shiptype", "type"),
    "status": ("status", "navigationalstatus", "navstat", "navstatus"),
    "call": ("callsign",),
    "length": ("length",),
    "width": ("width", "beam"),
    "a": ("a", "dima"),
    "b": ("b", "dimb"),
    "c": ("c", "dimc"),
    "d": ("d", "dimd"),
    "class": ("transceiverclass", "transceiver", "typeofmobile"),
}
UNUSED = {
    "imo", "draft", "draught", "cargo", "cargotype", "rot", "dest", "destination", "eta", "typeofpositionfixingdevice",
    "datasourcetype"
}
MOVING = ("latitude", "longitude", "speed", "course", "heading")
STATIC = ("name", "kind", "call", "length", "width", "a", "b", "c", "d")
PLACE = ("latitude", "longitude")
TENTHS = re.compile(r"(?i)\bx ?10\b|knotsx10")  # in the head of a column: its numbers are ten times the unit
IN_TENTHS = {"speedx10": "speed", "coursex10": "course"}        # names for --columns of columns in tenths
GREATEST = {"speed": 102.3, "course": 360.0}    # knots and degrees, in columns whose heads say no unit
Columns = Sequence[tuple[str, str]]             # a name of this module, and the head of its column
NEEDED = ("mmsi", "time", "latitude", "longitude")
DAY_FIRST = re.compile(r"(\d\d)[/-](\d\d)[/-](\d{4}) (\d\d):(\d\d):(\d\d)")
NO_SHIPS = ("base", "aton", "aid", "sar", "search", "man over")


class RowFault(Exception):
    """Why a row gives nothing; the text names the form."""


def plain(head: str) -> str:
    """Returns the letters of a column's name."""
    return re.sub(r"[^a-z]", "", head.lower())


def cells(line: bytes, delimiter: str) -> list[str]:
    """Returns the fields of a row."""
    text = line.decode("utf-8", "replace")
    if '"' not in text:
        return text.split(delimiter)
    try:
        return next(csv.reader([text], delimiter=delimiter))
    except (csv.Error, StopIteration):
        return [text]


def table_of(line: bytes, columns: Columns = ()) -> "Table | None":
    """Returns the table whose head a line is, or None. `columns` are names of this module, or of IN_TENTHS, with the
    heads that a user gives them."""
    for delimiter in ",;\t|":
        heads = cells(line, delimiter)
        if len(heads) >= len(NEEDED):
            table = Table(heads, delimiter, columns)
            if all(name in table.at for name in NEEDED):
                return table
    return None


def unknown_head(line: bytes, columns: Columns = ()) -> str | None:
    """Returns the heads of a line that looks like the head of a table, and what of a table of positions they lack, or
    which heads of --columns; or None if it looks like none."""
    for delimiter in ",;\t|":
        heads = [head.strip() for head in cells(line, delimiter)]
        if len(heads) >= len(NEEDED) and all(
                re.search("[A-Za-z]", head) and not re.search(r"\d{4}", head) for head in heads):
            lacking = [name for name in NEEDED if name not in Table(heads, delimiter, columns).at]
            there = {head.lower() for head in heads}
            absent = [f"`{head}`" for _, head in columns if head.strip().lower() not in there]
            step = f"--columns names {', '.join(absent)}, which is not there" if absent else (
                "name them by --columns, as --columns mmsi=ID,time=WHEN")
            return f"no column is known as {', '.join(lacking)} among {', '.join(heads)}; {step}"
    return None


def columns_of(word: str) -> Columns:
    """Returns the columns of words as mmsi=ID,time=WHEN; raises a Fault if a name is no column."""
    found = [tuple(part.split("=", 1)) for part in word.split(",")]
    known = [*COLUMNS, *IN_TENTHS]
    wrong = [part[0] for part in found if len(part) != 2 or part[0] not in known or not part[1].strip()]
    if wrong:
        raise Fault(f"--columns: `{wrong[0]}` is no column with a head; columns are {', '.join(known)}, each with a "
                    "head, as mmsi=ID")
    names = [IN_TENTHS.get(part[0], part[0]) for part in found]
    twice = next((name for name in names if names.count(name) > 1), None)
    if twice:
        raise Fault(f"--columns: `{twice}` has two heads")
    return tuple((part[0], part[1]) for part in found)


class Table:
    """A header, and the sentences that its rows become."""

    def __init__(self, heads: Sequence[str], delimiter: str, columns: Columns = ()) -> None:
        self.width, self.delimiter, self.ship = len(heads), delimiter, units.Ship()
        found = [plain(head) for head in heads]
        # the static fields of each ship in her last row
        self.known: dict[int, tuple[str, ...]] = {}
        # the text of a time, and its value: many rows have one time
        self.latest: tuple[str, tuple[int, bool]] = "", (0, False)
        self.at = {
            name: found.index(word) for name, words in COLUMNS.items() for word in reversed(words) if word in found
        }
        plain_heads = [head.strip().lower() for head in heads]
        there = {name: plain_heads.index(head.strip().lower()) for name, head in columns
                 if head.strip().lower() in plain_heads}
        self.at.update({IN_TENTHS.get(name, name): at for name, at in there.items()})
        moving = [name for name in ("speed", "course") if name in self.at]
        self.tenths = {name for name in moving if TENTHS.search(heads[self.at[name]])}
        self.tenths |= {IN_TENTHS[name] for name in there if name in IN_TENTHS}
        self.bare = {name for name in moving if found[self.at[name]] == name} - self.tenths
        used = set(self.at.values())
        self.unknown = [heads[k].strip() for k, word in enumerate(found) if k not in used and word not in UNUSED]
        if "basedatetime" in found:
            self.name = "MarineCadastre"
        elif "typeofmobile" in found:
            self.name = "DMA"
        elif {"tstamp", "time"} & set(found) and "navstat" in found:
            self.name = "AISHub"
        else:
            self.name = "table of positions"

    def row(self, line: bytes, times: Times) -> tuple[int, list[bytes]]:
        """Returns the time of a row, and its sentences; raises RowFault if it has none."""
        fields = cells(line, self.delimiter)
        if len(fields) != self.width:
            raise RowFault("a row with another number of fields than its head")
        return self.fields({name: fields[at].strip() for name, at in self.at.items()}, times)

    def fields(self, told: dict[str, str], times: Times) -> tuple[int, list[bytes]]:
        """Returns the time of a row's fields by their columns, and its sentences; raises RowFault if it has none."""
        if told.get("class", "").lower().startswith(NO_SHIPS):
            raise RowFault("a row of a station that is no ship")
        if told["time"] != self.latest[0]:
            self.latest = told["time"], self.time(told["time"], times)
        time, counted = self.latest[1]
        mmsi = told["mmsi"]
        if not re.fullmatch(r"[0-9]{1,9}", mmsi):
            raise RowFault("a row whose MMSI is no number")
        return time, self.sentences(int(mmsi), told, time, counted)

    def time(self, text: str, times: Times) -> tuple[int, bool]:
        """Returns the time of a row, and whether it counts seconds."""
        found = DAY_FIRST.fullmatch(text) if self.name == "DMA" else None
        try:
            if found:
                day, month, year, hour, minute, second = (int(part) for part in found.groups())
                return seconds_of(year, month, day, hour, minute, second, times.offset), False
            answer = times.read(text.encode())
        except Unsure as doubt:
            raise RowFault(f"a row with {doubt}") from None
        except ValueError:
            answer = None
        if answer is None:
            raise RowFault("a row without a time")
        return answer[0], "seconds" in answer[1]

    def sentences(self, mmsi: int, told: dict[str, str], time: int, counted: bool) -> list[bytes]:
        """Returns the sentences of a row."""
        try:
            static = self.static(mmsi, told)
            values = {name: (units.degrees if name in PLACE else units.decimal)(told.get(name, "")) for name in MOVING}
            values.update({name: value / 10 for name in self.tenths if (value := values[name]) is not None})
        except ValueError:
            raise RowFault("a row with a field that is no number") from None
        for name in self.bare:
            if (values[name] or 0) > GREATEST[name]:
                raise RowFault(f"a row whose {name} is over {GREATEST[name]:g}: if it is in tenths, say so by "
                               f"--columns {name}x10=HEAD")
        if self.name == "AISHub" and counted and "." not in told["latitude"] + told["longitude"]:
            raw_units(values)
        report = units.report(*(values[name] for name in MOVING), second=time % 60)
        small = told.get("class", "").upper() in ("B", "CLASS B")
        return static + [self.ship.position(mmsi, report, small, units.status(told.get("status", "")))]

    def static(self, mmsi: int, told: dict[str, str]) -> list[bytes]:
        """Returns the sentences of a row's static fields, if they differ from those of the ship's row before."""
        words = tuple(told.get(name, "") for name in STATIC)
        if self.known.get(mmsi) == words:
            return []
        name, kind, call, length, width, *sides = words
        hull = units.hull([units.decimal(side) for side in sides], units.decimal(length), units.decimal(width))
        self.known[mmsi] = words
        return self.ship.static(mmsi, name, units.kind(kind), hull, call)


def raw_units(values: dict[str, float | None]) -> None:
    """Scales the fields of AISHub's other format, which has the units of AIS messages, and their numbers for
    nothing."""
    for name, unit, nothing in (("latitude", 600000, None), ("longitude", 600000, None), ("speed", 10, NO_SPEED),
                                ("course", 10, NO_COURSE), ("heading", 1, NO_HEADING)):
        value = values[name]
        values[name] = None if value is None or value == nothing else value / unit
