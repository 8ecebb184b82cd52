"""What ships say of themselves, in words: their type, and their navigational status (ITU-R M.1371-5, tables 53 and
45)."""
from collections.abc import Iterable
from dataclasses import dataclass, field, replace
from typing import Protocol

from colregs.io.lines import Joiner, bits_of, sentence_of
from colregs.io.logs import timed
from colregs.io.sentences import Hull, lone_message
from colregs.io.sieve import PART
from colregs.model.rows import Vessel

STATUSES = ("under way using engine", "at anchor", "not under command", "restricted in her ability to manoeuvre",
            "constrained by her draught", "moored", "aground", "engaged in fishing", "under way sailing", "", "",
            "towing astern", "pushing or towing alongside", "", "AIS-SART", "")
FISHING_STATUS, FISHING, PILOT = 7, 30, 50
TYPES: dict[int, str] = {
    30: "fishing", 31: "towing", 32: "towing, long or wide", 33: "dredging", 34: "diving", 35: "military",
    36: "sailing", 37: "pleasure craft", 50: "pilot", 51: "search and rescue", 52: "tug", 53: "port tender",
    54: "anti-pollution", 55: "law enforcement", 58: "medical", 59: "not party to a conflict"
}
TENS: dict[int, str] = {2: "wing in ground", 4: "high-speed craft", 6: "passenger", 7: "cargo", 8: "tanker", 9: "other"}
CLASS_A, CLASS_B = (1, 2, 3), (18, 19)  # position reports; the former have a status
HULLS = {5: 240, 19: 271, 24: 132}      # the first bit of the size in a message
NAME_AND_HULL = 24                      # a message whose part 0 has the name, and part 1 type and size
NAMES, KINDS = {5: 112, 19: 143, 24: 40}, {5: 232, 19: 263, 24: 40}     # the first bits of name and type in a message
LETTERS = 20                            # of a name, of six bits each
TURN = 3                                # degrees by which a heading differs from the one that is noted
Changes = list[tuple[int, int]]         # seconds since the Unix epoch, and the status from then on


class Numbers(Protocol):
    """The bits of a message."""

    def number(self, first: int, width: int) -> int:
        """Returns the number of `width` bits from the bit `first` on."""


def type_words(kind: int) -> str:
    """Returns a type of ship in words, or nothing if the number has no meaning."""
    return TYPES.get(kind, TENS.get(kind // 10, ""))


def status_words(status: int | None) -> str:
    """Returns a navigational status in words, or nothing if there is none."""
    return STATUSES[status] if status is not None and 0 <= status < len(STATUSES) else ""


@dataclass
class Said:
    """What the ships of a log say besides their tracks: statuses and headings by their times, names, types, and metres
    from the antenna to bow, stern, port, starboard."""

    statuses: dict[int, Changes] = field(default_factory=dict)
    headings: dict[int, Changes] = field(default_factory=dict)
    hulls: dict[int, Hull] = field(default_factory=dict)
    names: dict[int, str] = field(default_factory=dict)
    kinds: dict[int, int] = field(default_factory=dict)

    def take(self, at: int, message: Numbers, length: int) -> None:
        """Takes a message."""
        kind, mmsi = message.number(0, 6), message.number(8, 30)
        if kind in CLASS_A and length >= 168:
            self.change(self.statuses.setdefault(mmsi, []), at, message.number(38, 4), 1)
            self.change(self.headings.setdefault(mmsi, []), at, message.number(128, 9), TURN)
        elif kind in CLASS_B and length >= 168:
            self.change(self.headings.setdefault(mmsi, []), at, message.number(124, 9), TURN)
        part = message.number(38, 2) if kind == NAME_AND_HULL else None
        if kind in NAMES and part in (None, 0) and length >= NAMES[kind] + 6 * LETTERS:
            self.take_name(mmsi, message, NAMES[kind])
        if kind in HULLS and part in (None, 1) and length >= HULLS[kind] + 30:
            self.take_hull(mmsi, message, HULLS[kind])
            self.kinds[mmsi] = message.number(KINDS[kind], 8) or self.kinds.get(mmsi, 0)

    def take_name(self, mmsi: int, message: Numbers, first: int) -> None:
        """Takes the name that begins at a bit; `@` ends it."""
        letters = (message.number(first + 6 * k, 6) for k in range(LETTERS))
        name = "".join(chr(letter + 64 if letter < 32 else letter) for letter in letters).partition("@")[0].strip()
        self.names[mmsi] = name or self.names.get(mmsi, "")

    def take_hull(self, mmsi: int, message: Numbers, first: int) -> None:
        """Takes the size that begins at a bit."""
        bow, stern, port, starboard = (message.number(first + more, width)
                                       for more, width in ((0, 9), (9, 9), (18, 6), (24, 6)))
        if bow + stern:
            self.hulls[mmsi] = bow, stern, port, starboard

    def completed(self, vessels: Iterable[Vessel]) -> list[Vessel]:
        """Returns vessels with the name, type and length that the log has outside the window, if the report lacks
        them."""
        return [
            replace(vessel, name=vessel.name or self.names.get(vessel.mmsi, ""),
                    ship_type=vessel.ship_type or self.kinds.get(vessel.mmsi, 0),
                    length=vessel.length or sum(self.hulls.get(vessel.mmsi, ())[:2])) for vessel in vessels
        ]

    @staticmethod
    def change(changes: Changes, at: int, value: int, least: int) -> None:
        """Notes a value that differs from the one before."""
        if not changes or abs(changes[-1][1] - value) >= least:
            changes.append((at, value))


def read_log(log: str) -> Said:
    """Returns what the ships of a log with tag blocks say."""
    found, joiner = Said(), Joiner()
    with open(log, "rb") as source:
        for at, line in timed(source):
            if at is None:
                continue
            lone = lone_message(line)
            if lone and lone.length >= 42:
                found.take(at, lone, lone.length)
            elif lone is None and PART.match(line) and (sentence := sentence_of(line)) and (whole := joiner.take(
                    sentence, at)):
                bits = bits_of(whole.parts)
                if bits.width >= 42:
                    found.take(at, bits, bits.width)
    return found
