"""Captures of a network (pcap and pcapng): the lines in their UDP payloads, each with the capture's time in seconds
before it."""
import struct
from collections.abc import Iterator
from typing import IO

PCAP = {b"\xd4\xc3\xb2\xa1": "<", b"\xa1\xb2\xc3\xd4": ">", b"\x4d\x3c\xb2\xa1": "<", b"\xa1\xb2\x3c\x4d": ">"}
PCAPNG = b"\x0a\x0d\x0d\x0a"
MAGIC = (*PCAP, PCAPNG)
INTERFACE, ENHANCED, RESOLUTION = 1, 6, 9       # blocks of pcapng, and an option of an interface
BIG = b"\x1a\x2b\x3c\x4d"                       # how a section begins whose numbers have their high byte first
ETHERNET, NULL, RAW, COOKED, COOKED_2 = 1, 0, (12, 14, 101, 228, 229), 113, 276     # link types
IPV4, IPV6, VLAN, UDP = 0x0800, 0x86DD, (0x8100, 0x88A8), 17
# bytes of a packet or of a block: more is damage
LARGEST = 1 << 26
Packet = tuple[int, int, bytes]                                         # seconds, link type, and bytes


def packets(source: IO[bytes]) -> Iterator[Packet]:
    """Returns the packets of a capture; after the last whole packet of one that is cut off, it raises EOFError."""
    magic = source.read(4)
    return pcapng(source) if magic == PCAPNG else pcap(source, PCAP[magic])


def pcap(source: IO[bytes], order: str) -> Iterator[Packet]:
    """Yields the packets of a pcap whose magic was read."""
    link = struct.unpack(order + "I", whole(source, 20)[16:20])[0] & 0xFFFF
    while head := source.read(16):
        seconds, _, length, _ = struct.unpack(order + "4I", head + whole(source, 16 - len(head)))
        yield seconds, link, whole(source, length)


def whole(source: IO[bytes], length: int) -> bytes:
    """Returns so many bytes; raises EOFError if they are not there, or too many for a packet."""
    data = source.read(length) if length <= LARGEST else b""
    if len(data) < length:
        raise EOFError
    return data


def pcapng(source: IO[bytes]) -> Iterator[Packet]:
    """Yields the packets of a pcapng whose first four bytes were read."""
    kind, order = PCAPNG, "<"
    interfaces: list[tuple[int, int]] = []          # link type, and parts of a second
    while kind:
        head = whole(source, 4)
        if kind == PCAPNG:
            start = whole(source, 4)
            order = ">" if start == BIG else "<"
            interfaces = []
        length, done = struct.unpack(order + "I", head)[0], 12 if kind == PCAPNG else 8
        body = whole(source, length - done if length > done else LARGEST + 1)
        number = struct.unpack(order + "I", kind)[0]
        if number == INTERFACE:
            interfaces.append((struct.unpack(order + "H", body[:2])[0], resolution(body[8:-4], order)))
        elif number == ENHANCED and len(body) >= 24:
            which, high, low, size, _ = struct.unpack(order + "5I", body[:20])
            if which < len(interfaces):
                yield ((high << 32 | low) // interfaces[which][1]), interfaces[which][0], body[20:20 + size]
        kind = source.read(4)
        kind += whole(source, 4 - len(kind)) if kind else b""


def resolution(options: bytes, order: str) -> int:
    """Returns into how many parts an interface divides a second: a million, unless an option says otherwise."""
    while len(options) >= 4:
        code, length = struct.unpack(order + "HH", options[:4])
        if code == RESOLUTION and length:
            value = options[4]
            return int(2 ** (value & 127)) if value & 128 else int(10 ** value)
        options = options[4 + length + -length % 4:]
    return 10 ** 6


def network_part(link: int, data: bytes) -> tuple[int, bytes]:
    """Returns the kind of what a packet carries, as Ethernet numbers it, and its bytes."""
    if link == ETHERNET:
        kind, rest = int.from_bytes(data[12:14], "big"), data[14:]
        while kind in VLAN:
            kind, rest = int.from_bytes(rest[2:4], "big"), rest[4:]
        return kind, rest
    if link == COOKED:
        return int.from_bytes(data[14:16], "big"), data[16:]
    if link == COOKED_2:
        return int.from_bytes(data[:2], "big"), data[20:]
    rest = data[4:] if link == NULL else data if link in RAW else b""
    return {4: IPV4, 6: IPV6}.get(rest[0] >> 4 if rest else 0, 0), rest


def payload(link: int, data: bytes) -> bytes:
    """Returns the UDP payload of a packet, or nothing if it has none or is a later fragment."""
    kind, rest = network_part(link, data)
    if kind == IPV4 and len(rest) >= 20 and rest[9] == UDP and not int.from_bytes(rest[6:8], "big") & 0x1FFF:
        rest = rest[(rest[0] & 15) * 4:int.from_bytes(rest[2:4], "big")]
    elif kind == IPV6 and len(rest) >= 40 and rest[6] == UDP:
        rest = rest[40:40 + int.from_bytes(rest[4:6], "big")]
    else:
        return b""
    return rest[8:int.from_bytes(rest[4:6], "big")] if len(rest) > 8 else b""


def lines(source: IO[bytes]) -> Iterator[bytes]:
    """Yields each line of the UDP payloads, with the capture's time in seconds before it unless it has a tag block, and
    a line feed."""
    for seconds, link, data in packets(source):
        for line in payload(link, data).splitlines():
            if line.strip(b" \0"):
                yield (line if line.startswith(b"\\") else b"%d %s" % (seconds, line)) + b"\n"
