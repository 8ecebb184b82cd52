"""AIS sentences as text, for benchmarks and examples: the package's one writer, with a message's values as
arguments."""
import os
import sys
from typing import Any

TOP = os.path.dirname(os.path.dirname(os.path.dirname(os.path.abspath(__file__))))
sys.path.insert(0, os.path.join(TOP, "python"))
from colregs.io import sentences as writer  # noqa: E402
from colregs.io.sentences import Fields  # noqa: E402

HARBOUR = os.path.join(TOP, "examples", "harbour.toml")
Vessel = dict[str, Any]             # a made-up vessel; each benchmark has keys of its own
Entry = tuple[int, list[str]]       # a time, and the lines of a message that come then
START = 1700000000          # the window of most benchmarks begins at this time


def armour(fields: Fields) -> tuple[str, int]:
    """Returns the payload of a message's fields, and how many bits fill its last letter."""
    payload, fill = writer.payload_of(fields)
    return payload.decode(), fill


def total(body: str) -> str:
    """Returns the checksum of a sentence or of a tag block, as two hexadecimal digits."""
    return f"{writer.total(body.encode()):02X}"


def sentence(count: int, number: int, sequence: object, channel: str, payload: str, fill: int) -> str:
    """Returns one sentence, the part `number` of `count`."""
    return writer.part(payload.encode(), fill, b"AIVDM", channel.encode(), count, number,
                       str(sequence).encode()).decode()


def tagged(time: int, text: str) -> str:
    """Returns a line with a time in its tag block."""
    return writer.block(time).decode() + text


def position_report(kind: int, mmsi: int, latitude: int, longitude: int, sog: int, cog: int, heading: int, second: int,
                    status: int = 0) -> Fields:
    """Returns the fields of message 1, 2, 3 or 18."""
    report = latitude, longitude, sog, cog, heading, second
    return writer.class_b(mmsi, report) if kind == 18 else [(kind, 6)] + writer.class_a(mmsi, report, status)[1:]


def extended(report: Fields, name: str, kind: int, bow: int, stern: int, port: int, starboard: int) -> Fields:
    """Returns the fields of a message 19, from those of a message 18 without its last."""
    sides = list(zip((bow, stern, port, starboard), (9, 9, 6, 6)))
    return [(19, 6)] + report[1:-1] + [(0, 4)] + writer.six_bit_text(name, 20) + [(kind, 8)] + sides + [(0, 11)]


def name_part(mmsi: int, name: str) -> Fields:
    """Returns the fields of a message 24, part 0."""
    return writer.name_part(mmsi, name)


def hull_part(mmsi: int, kind: int, bow: int, stern: int, port: int, starboard: int) -> Fields:
    """Returns the fields of a message 24, part 1, without a call sign."""
    return writer.hull_part(mmsi, kind, (bow, stern, port, starboard))


def voyage(mmsi: int, name: str, kind: int, bow: int, stern: int, port: int, starboard: int) -> Fields:
    """Returns the fields of a message 5."""
    return writer.voyage(mmsi, name, kind, (bow, stern, port, starboard), "SEATTLE")
