"""Opens a log, compressed or not, in bytes or in UTF-16, and yields its lines.

A file that does not exist, is damaged or is cut off raises a Fault, and nothing else. Python decompresses gzip, xz,
bzip2 and zip by itself; zstd needs the command `zstd` (tools/PACKAGES).
"""
import bz2
import contextlib
import functools
import gzip
import io
import lzma
import os
import shutil
import stat
import subprocess
import tempfile
import zipfile
import zlib
from collections.abc import Callable, Iterable, Iterator
from dataclasses import dataclass
from typing import IO, Any

from colregs.errors import Fault, reason
from colregs.io import captures

LONGEST = 1 << 20          # bytes: a longer line is no sentence and no row
MAGIC = ((b"\x1f\x8b", "gzip"), (b"\xfd7zXZ\x00", "xz"), (b"\x28\xb5\x2f\xfd", "zstd"), (b"BZh", "bzip2"),
         (b"PK\x03\x04", "zip"))
CAPTURE = "a capture"
MARKS = ((b"\xff\xfe", "utf-16-le"), (b"\xfe\xff", "utf-16-be"))
DAMAGE = (EOFError, zlib.error, lzma.LZMAError, zipfile.BadZipFile, gzip.BadGzipFile, RuntimeError, NotImplementedError)
TOO_LONG = b"\xff too long"       # stands for such a line; no line of a log begins so


@dataclass
class Part:
    """A log within a file: its name, how the file was packed, its encoding, and its lines once it was read."""

    name: str
    packed: str
    encoding: str = "bytes"
    lines: int = 0
    is_cut: bool = False

    def is_read_as_far_as_it_goes(self) -> bool:
        """Returns whether the lines before a damaged place are read: of a capture, and of gzip if there are some."""
        return CAPTURE in self.packed or self.packed == "gzip" and self.lines > 0


def packing(path: str) -> str:
    """Returns how a file is packed, by its first bytes."""
    try:
        with open(path, "rb") as source:
            head = source.read(8)
    except IsADirectoryError:
        raise Fault(f"{path} is a folder, and no log") from None
    except OSError as error:
        raise Fault(f"cannot read {path}: {reason(error)}") from None
    if head.startswith(captures.MAGIC):
        return CAPTURE
    return next((name for magic, name in MAGIC if head.startswith(magic)), "plain")


@contextlib.contextmanager
def zstd(path: str) -> Iterator[IO[bytes]]:
    """Opens a file that is packed by zstd."""
    if not shutil.which("zstd"):
        raise Fault(f"{path} is compressed by zstd: install the command zstd (Debian package zstd)")
    with subprocess.Popen(["zstd", "-dcq", "--", path], stdout=subprocess.PIPE, stderr=subprocess.DEVNULL) as child:
        assert child.stdout is not None
        try:
            yield child.stdout
            if child.stdout.read(1) == b"" and child.wait() != 0:
                raise EOFError
        finally:
            child.kill()


def members(path: str, packed: str) -> Iterator[tuple[str, Callable[[], Any]]]:
    """Yields the name of each log in a file, and a way to open it."""
    if packed == "zip":
        with zipfile.ZipFile(path) as whole:
            names = [entry.filename for entry in whole.infolist() if not entry.is_dir()]
            for name in names:
                yield f"{os.path.basename(path)}: {name}", functools.partial(whole.open, name)
        return
    openers: dict[str, Callable[[], Any]] = {
        "plain": lambda: open(path, "rb"), "gzip": lambda: gzip.open(path, "rb"), "xz": lambda: lzma.open(path, "rb"),
        "bzip2": lambda: bz2.open(path, "rb"), "zstd": lambda: zstd(path), CAPTURE: lambda: open(path, "rb")}
    yield os.path.basename(path), openers[packed]


def encoding(head: bytes) -> str:
    """Returns the encoding, by a byte order mark or by the zeros that UTF-16 has between letters."""
    for mark, name in MARKS:
        if head.startswith(mark):
            return name
    if len(head) >= 4 and head[1] == head[3] == 0 and head[0] and head[2]:
        return "utf-16-le"
    if len(head) >= 4 and head[0] == head[2] == 0 and head[1] and head[3]:
        return "utf-16-be"
    return "UTF-8 with a mark" if head.startswith(b"\xef\xbb\xbf") else "bytes"


def bounded(readline: Callable[[int], bytes]) -> Iterator[bytes]:
    """Yields lines of at most LONGEST bytes, and TOO_LONG for a longer one."""
    whole = True
    while line := readline(LONGEST):
        ends = line.endswith(b"\n")
        if whole:
            yield line if ends or len(line) < LONGEST else TOO_LONG
        whole = ends


def wide_lines(stream: Any, name: str) -> Iterator[bytes]:
    """Yields the lines of a text in UTF-16, as UTF-8. Half a letter at the end becomes a mark, as does anything that is
    no letter."""
    text = io.TextIOWrapper(stream, encoding=name, errors="replace", newline="\n")
    yield from bounded(lambda most: text.readline(most).encode())


def cleaned(lines: Iterable[bytes], part: Part) -> Iterator[bytes]:
    """Yields lines without their ends and without byte order marks. A carriage return ends a line too."""
    for line in lines:
        for piece in line.rstrip(b"\r\n").split(b"\r"):
            part.lines += 1
            yield piece[3:] if piece.startswith(b"\xef\xbb\xbf") else piece


def stream_lines(stream: Any, part: Part) -> Iterator[bytes]:
    """Yields the lines of an open log, or of the UDP payloads of a capture of a network, which may be packed too."""
    buffered = stream if hasattr(stream, "peek") else io.BufferedReader(stream)
    if buffered.peek(4)[:4] in captures.MAGIC:
        part.packed = CAPTURE if part.packed in ("plain", CAPTURE) else f"{part.packed}, as {CAPTURE}"
        yield from cleaned(captures.lines(buffered), part)
        return
    part.encoding = encoding(buffered.peek(4)[:4])
    wide = part.encoding.startswith("utf-16")
    yield from cleaned(wide_lines(buffered, part.encoding) if wide else bounded(buffered.readline), part)


@contextlib.contextmanager
def told(path: str, packed: str) -> Iterator[None]:
    """Turns what can happen to a file into a Fault."""
    try:
        yield
    except DAMAGE:
        raise Fault(f"{path} is compressed by {packed}, and damaged or cut off") from None
    except OSError as error:
        raise Fault(f"cannot read {path}: {reason(error)}") from None


def whole_lines(path: str, stream: Any, part: Part) -> Iterator[bytes]:
    """Yields the lines of a part of a file; of a gzip or a capture that is cut off those that are there."""
    with told(path, part.packed):
        try:
            yield from stream_lines(stream, part)
        except EOFError:
            if not part.is_read_as_far_as_it_goes():
                raise
            part.is_cut = True


@contextlib.contextmanager
def seekable(path: str) -> Iterator[str]:
    """Returns the path of a file, or of a copy if the file is a pipe."""
    try:
        kind = os.stat(path).st_mode
    except OSError:
        kind = stat.S_IFREG           # whoever opens it reports that it does not exist
    if stat.S_ISCHR(kind) or stat.S_ISBLK(kind) or stat.S_ISSOCK(kind):
        raise Fault(f"{path} is a device, and no log")
    if not stat.S_ISFIFO(kind):
        yield path
        return
    with tempfile.NamedTemporaryFile() as copy, open(path, "rb") as source:
        shutil.copyfileobj(source, copy)
        copy.flush()
        yield copy.name


def parts(path: str) -> Iterator[tuple[Part, Iterator[bytes]]]:
    """Yields each log in a file, as a Part with its lines."""
    with seekable(path) as file:
        packed = packing(file)
        with told(path, packed):
            yield from open_parts(path, file, packed)


def open_parts(path: str, file: str, packed: str) -> Iterator[tuple[Part, Iterator[bytes]]]:
    """Yields each log in a file that can be read twice."""
    for name, opened in members(file, packed):
        part = Part(name if file == path else os.path.basename(path), packed)
        with opened() as stream:
            yield part, whole_lines(path, stream, part)
