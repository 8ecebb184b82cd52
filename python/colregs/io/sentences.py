"""AIS messages as bits (ITU-R M.1371-5) and as sentences (IEC 61162-1) with tag blocks (NMEA 0183 4.10), written and
read."""
import base64
import functools
import re

Fields = list[tuple[int, int]]                      # values, each with its width in bits
# latitude, longitude, speed, course, heading and second, in the units of message 1
Report = tuple[int, int, int, int, int, int]
Hull = tuple[int, int, int, int]                    # metres to bow, stern, port and starboard

LONE = re.compile(rb"!([A-Z0-9]{2}VD[MO],1,1,\d?,[A-Za-z0-9]?,([0-W`-w]+),([0-5]))\*([0-9A-Fa-f]{2})")
NO_SPEED, NO_COURSE, NO_HEADING, NO_LATITUDE, NO_LONGITUDE = 1023, 3600, 511, 91 * 600000, 181 * 600000
LETTERS = b"ABCDEFGHIJKLMNOPQRSTUVWXYZabcdefghijklmnopqrstuvwxyz0123456789+/"
# the first bit of longitude and latitude
PLACES = {1: (61, 89), 2: (61, 89), 3: (61, 89), 18: (57, 85), 19: (57, 85)}
LONGEST_PART = 56                # letters of a part, as stations send them
SIX = bytes(range(48, 88)) + bytes(range(96, 120))
LEAST_MILLISECONDS = 10 ** 11    # a time in a tag block from this on is of milliseconds
TO_64, FROM_64 = bytes.maketrans(SIX, LETTERS), bytes.maketrans(LETTERS, SIX)


def total(body: bytes) -> int:
    """Returns the checksum of a sentence or of a tag block: the exclusive or of its bytes. The halves of one number are
    folded until they are a byte."""
    value, width = int.from_bytes(body, "big"), 8 << max(0, len(body) - 1).bit_length()
    while width > 8:
        width >>= 1
        value ^= value >> width
    return value & 0xFF


def seconds(digits: bytes) -> int:
    """Returns the seconds since the Unix epoch of the digits of a tag block's field `c`, which may be milliseconds."""
    value = int(digits)
    return value // 1000 if value >= LEAST_MILLISECONDS else value


def has_sum(body: bytes, digits: bytes) -> bool:
    """Returns whether a checksum in hexadecimal digits is right."""
    return total(body) == int(digits, 16)


@functools.lru_cache(4096)
def block(at: int, more: bytes = b"") -> bytes:
    """Returns a tag block with a time in seconds, and perhaps more fields after it."""
    fields = b"c:%010d%s" % (at, b"," + more if more else b"")
    return b"\\%s*%02X\\" % (fields, total(fields))


def six_bit_text(words: str, characters: int) -> Fields:
    """Returns the fields of letters of the six-bit set; what it lacks becomes a blank."""
    codes = [ord(letter) for letter in words.upper()[:characters]]
    kept = [code if 32 <= code < 96 and code != 64 else 32 for code in codes]
    return [(code & 63, 6) for code in kept + [64] * (characters - len(kept))]


def payload_of(fields: Fields) -> tuple[bytes, int]:
    """Returns the letters of fields, six bits to a letter; and how many bits fill the last one."""
    value = width = 0
    for number, size in fields:
        value = value << size | number & (1 << size) - 1
        width += size
    fill, units = -width % 6, -(-width // 6)
    # so that six bits by six bits make whole groups of three bytes
    value <<= fill + 6 * (-units % 4)
    letters = base64.b64encode(value.to_bytes(-(-units // 4) * 3, "big"))[:units]
    return letters.translate(FROM_64), fill


def part(payload: bytes, fill: int, talker: bytes = b"AIVDM", channel: bytes = b"A", count: int = 1, number: int = 1,
         sequence: bytes = b"") -> bytes:
    """Returns one sentence, the part `number` of `count`, of a payload."""
    body = b"%s,%d,%d,%s,%s,%s,%d" % (talker, count, number, sequence, channel, payload, fill)
    return b"!%s*%02X" % (body, total(body))


def sentence(fields: Fields, talker: bytes = b"AIVDM", channel: bytes = b"A") -> bytes:
    """Returns one sentence of fields. At most 360 bits fit into one."""
    return part(*payload_of(fields), talker, channel)


def sentences(fields: Fields, sequence: int, channel: bytes = b"A") -> list[bytes]:
    """Returns the sentences of a message that needs more than one: 336 bits in each but the last."""
    payload, fill = payload_of(fields)
    pieces = [payload[at:at + LONGEST_PART] for at in range(0, len(payload), LONGEST_PART)]
    return [
        part(piece, fill if number == len(pieces) else 0, channel=channel, count=len(pieces), number=number,
             sequence=b"%d" % (sequence % 10)) for number, piece in enumerate(pieces, 1)
    ]


def class_a(mmsi: int, report: Report, status: int = 15) -> Fields:
    """Returns a position report of message 1."""
    latitude, longitude, speed, course, heading, second = report
    return [(1, 6), (0, 2), (mmsi, 30), (status, 4), (128, 8), (speed, 10), (0, 1), (longitude, 28), (latitude, 27),
            (course, 12), (heading, 9), (second, 6), (0, 25)]


def class_b(mmsi: int, report: Report) -> Fields:
    """Returns a position report of message 18."""
    latitude, longitude, speed, course, heading, second = report
    return [(18, 6), (0, 2), (mmsi, 30), (0, 8), (speed, 10), (0, 1), (longitude, 28), (latitude, 27), (course, 12),
            (heading, 9), (second, 6), (0, 29)]


def voyage(mmsi: int, name: str, kind: int, hull: Hull, destination: str = "") -> Fields:
    """Returns message 5: name, type of ship, size, and destination."""
    sides = list(zip(hull, (9, 9, 6, 6)))
    return ([(5, 6), (0, 2), (mmsi, 30), (0, 32)] + six_bit_text("", 7) + six_bit_text(name, 20) + [(kind, 8)] + sides
            + [(0, 32)] + six_bit_text(destination, 20) + [(0, 2)])


def name_part(mmsi: int, name: str) -> Fields:
    """Returns message 24, part 0: the name."""
    return [(24, 6), (0, 2), (mmsi, 30), (0, 2)] + six_bit_text(name, 20)


def hull_part(mmsi: int, kind: int, hull: Hull, call: str = "") -> Fields:
    """Returns message 24, part 1: type of ship, size and call sign."""
    sides = list(zip(hull, (9, 9, 6, 6)))
    return [(24, 6), (0, 2), (mmsi, 30), (1, 2), (kind, 8), (0, 42)] + six_bit_text(call, 7) + sides + [(0, 6)]


class Message:
    """The bits of a message in one sentence, to be read as numbers."""

    def __init__(self, payload: bytes) -> None:
        raw = base64.b64decode(payload.translate(TO_64) + b"A" * (-len(payload) % 4))
        self.width, self.value, self.length = len(raw) * 8, int.from_bytes(raw, "big"), len(payload) * 6

    def number(self, first: int, width: int, signed: bool = False) -> int:
        """Returns the number of `width` bits from the bit `first` on."""
        value = self.value >> (self.width - first - width) & ((1 << width) - 1)
        return value - (1 << width) if signed and value >> (width - 1) else value


def lone_message(line: bytes) -> Message | None:
    """Returns the message of a line with a whole one and the right checksum, or None."""
    found = LONE.search(line)
    return Message(found[2]) if found and has_sum(found[1], found[4]) else None


def utc_of(message: Message) -> tuple[int, ...]:
    """Returns year, month, day, hour, minute and second of a message 4 or 11, which may be no time."""
    return tuple(message.number(first, width)
                 for first, width in ((38, 14), (52, 4), (56, 5), (61, 5), (66, 6), (72, 6)))


def place_of(message: Message) -> tuple[int, int] | None:
    """Returns latitude and longitude in 1/10000 minute of a position report, or None if the message is none or has no
    place."""
    first = PLACES.get(message.number(0, 6))
    if first is None or message.length < 168:
        return None
    longitude, latitude = message.number(first[0], 28, True), message.number(first[1], 27, True)
    return (latitude, longitude) if abs(longitude) <= 108000000 and abs(latitude) <= 54000000 else None


def ship_place(line: bytes) -> tuple[int, int] | None:
    """Returns latitude and longitude in 1/10000 minute of a ship's position report in one sentence, or None."""
    message = lone_message(line)
    return place_of(message) if message and 200000000 <= message.number(8, 30) < 800000000 else None
