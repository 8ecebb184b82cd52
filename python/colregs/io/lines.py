"""Reads lines exactly as the program does: stamps of tag blocks, sentences, and the parts that make a message
(docs/LOG.md)."""
import collections
import functools
import re
from dataclasses import dataclass

from colregs.io.sentences import SIX as LETTERS
from colregs.io.sentences import has_sum, seconds, total

LONGEST = 1024                      # bytes of a line that is read
JOINED_WITHIN = 30                  # s that a part may come after the first part of its message
MOST_PARTS = 9
KNOWN = 1 << 16                     # tag blocks and heads of payloads that are remembered at once
FIELD = rb"(?:c:\d{1,15}|(?!c:)[^,*\\]+)"
TAG_BLOCK = re.compile(rb"\\(" + FIELD + rb"(?:," + FIELD + rb")*)\*([0-9A-Fa-f]{2})\\", re.S)
TAGS = re.compile(rb"\n(\\[^\\]*\\)")           # what may be the tag block of a line, after the line feed before it,
OF_LINES = re.compile(rb"\n(\\[^\\\n]*\\)")     # and the same where it may not go on in the next line, which is slower
TIME = re.compile(rb"(?:^|,)c:(\d+)")
PLAIN = re.compile(rb"\\c:\d{7}")                # how most tag blocks begin: those of a time alone, in ten digits
SENTENCE = re.compile(
    rb"!([A-Z0-9]{2}VD[MO],([1-9]),([1-9]),(\d?),([A-Za-z0-9]?),([^,]+),([0-5]))\*([0-9A-Fa-f]{2})(?:[, \t].*)?", re.S)
SIX = {letter: value for value, letter in enumerate(LETTERS)}


def line_of(line: bytes) -> bytes:
    """Returns a line without its line feed and one carriage return before that."""
    line = line[:-1] if line.endswith(b"\n") else line
    return line[:-1] if line.endswith(b"\r") else line


def stamp_of(line: bytes) -> int | None:
    """Returns the stamp of a line, with or without its line feed, in seconds since the Unix epoch; None if it has
    none."""
    if line[:1] != b"\\":
        return None
    at = stamp_of_block(line[:line.find(b"\\", 1) + 1])
    return at if len(line) <= LONGEST or len(line_of(line)) <= LONGEST else None


DIGITS = {b"%03d" % value: (value, total(b"%03d" % value)) for value in range(1000)}
SUMS = [b"*%02X\\" % value for value in range(256)]        # how a tag block ends, by its sum


@functools.lru_cache
def plain_head(head: bytes) -> tuple[int, int] | None:
    """Returns the time and the sum of a tag block without its last three digits and its end; None if it is another."""
    return (1000 * int(head[3:]), total(head[1:])) if PLAIN.fullmatch(head) else None


@functools.lru_cache(KNOWN)
def stamp_of_block(block: bytes) -> int | None:
    """Returns the stamp of a tag block with both of its backslashes; None if the block is damaged or has no time."""
    thousands, last = plain_head(block[:10]), DIGITS.get(block[10:13])
    if thousands and last and block[13:] == SUMS[thousands[1] ^ last[1]]:
        return thousands[0] + last[0]
    found = TAG_BLOCK.fullmatch(block)
    time = TIME.search(found[1]) if found and has_sum(found[1], found[2]) else None
    return seconds(time[1]) if time else None


@dataclass(frozen=True, slots=True)
class Sentence:
    """A sentence that the program reads: how many parts its message has, which one it is, the key of its parts, its
    payload and fill."""

    total: int
    number: int
    key: tuple[bytes, bytes]
    payload: bytes
    fill: int


def sentence_of(line: bytes) -> Sentence | None:
    """Returns the sentence of a line, with or without its line feed; None if the program drops the line."""
    line = line_of(line)
    if len(line) > LONGEST:
        return None
    if line[:1] == b"\\":
        end = line.find(b"\\", 1) + 1
        block = TAG_BLOCK.fullmatch(line[:end])
        if not block or not has_sum(block[1], block[2]):
            return None
        line = line[end:]
    found = SENTENCE.fullmatch(line)
    if not found or found[3] > found[2] or not has_sum(found[1], found[8]) or not SIX.keys() >= set(found[6]):
        return None
    return Sentence(int(found[2]), int(found[3]), (found[4], found[5]), found[6], int(found[7]))


@dataclass(frozen=True, slots=True)
class Bits:
    """The bits of a message, the first of them highest, and how many they are."""

    value: int
    width: int

    def number(self, first: int, width: int) -> int:
        """Returns the field of `width` bits from bit `first` on."""
        return self.value >> (self.width - first - width) & ((1 << width) - 1)


def bits_of(parts: list[Sentence]) -> Bits:
    """Returns the bits of a message's parts, each without its fill."""
    value = width = 0
    for part in parts:
        bits = 0
        for letter in part.payload:
            bits = bits << 6 | SIX[letter]
        kept = max(0, 6 * len(part.payload) - part.fill)
        value, width = value << kept | bits >> part.fill, width + kept
    return Bits(value, width)


@dataclass(frozen=True, slots=True)
class Message:
    """A message that a sentence completes: its parts, the time of the last one, and the least time of any."""

    parts: list[Sentence]
    time: int
    earliest: int


class Joiner:
    """Joins parts to messages by their key, as the program does: the last k sentences of a key have to be its parts 1
    to k."""

    def __init__(self) -> None:
        self.taken: dict[tuple[bytes, bytes], collections.deque[tuple[Sentence, int]]] = {}

    def take(self, sentence: Sentence, time: int) -> Message | None:
        """Takes a sentence that is neither outside nor late; returns the message that it completes."""
        if sentence.total == 1:
            return Message([sentence], time, time)
        last = self.taken.setdefault(sentence.key, collections.deque(maxlen=MOST_PARTS))
        last.append((sentence, time))
        run = list(last)[-sentence.number:]
        if sentence.number < sentence.total or not is_run(run):
            return None
        return Message([part for part, _ in run], time, min(at for _, at in run))


def is_run(run: list[tuple[Sentence, int]]) -> bool:
    """Returns whether these are the parts 1, 2, .. of one total, none more than 30 seconds later than the first."""
    first, begin = run[0]
    return all(part.total == first.total and part.number == k and at <= begin + JOINED_WITHIN
               for k, (part, at) in enumerate(run, 1))


@functools.lru_cache(KNOWN)
def sender_of(head: bytes) -> int | None:
    """Returns the MMSI that the first seven letters of a payload hold; None if they are fewer, or no letters of a
    payload."""
    value = 0
    for letter in head[:7]:
        if letter not in SIX:
            return None
        value = value << 6 | SIX[letter]
    return value >> 4 & 0x3FFFFFFF if len(head) >= 7 else None
