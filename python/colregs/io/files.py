"""Whole files: read, summed and replaced, with a Fault that names the file if that fails."""
import hashlib
import os
import stat
import tempfile

from colregs.errors import Fault, reason

BLOCK = 1 << 20     # bytes that are read at once


def read_bytes(path: str) -> bytes:
    """Returns the bytes of a file."""
    try:
        with open(path, "rb") as source:
            return source.read()
    except OSError as error:
        raise Fault(f"cannot read {path}: {reason(error)}") from None


def read_text(path: str) -> str:
    """Returns the text of a file in UTF-8, with its ends of lines as they are."""
    try:
        if stat.S_ISCHR(os.stat(path).st_mode):
            raise Fault(f"{path} is a device, and no file")
        return read_bytes(path).decode("utf-8")
    except OSError as error:
        raise Fault(f"cannot read {path}: {reason(error)}") from None
    except UnicodeDecodeError:
        raise Fault(f"{path}: not a text in UTF-8") from None


def sum_of(path: str) -> tuple[str, int]:
    """Returns the SHA-256 of a file in hexadecimal digits, and its size in bytes."""
    total, size = hashlib.sha256(), 0
    try:
        with open(path, "rb") as source:
            while block := source.read(BLOCK):
                total.update(block)
                size += len(block)
    except OSError as error:
        raise Fault(f"cannot read {path}: {reason(error)}") from None
    return total.hexdigest(), size


def replace(path: str, words: bytes) -> None:
    """Writes a file with these bytes, all of them or none, also if the power fails: they are on the disk before they
    have the name. A device or a pipe stays what it is, and gets the bytes."""
    if os.path.exists(path) and not os.path.isfile(path):
        with open(path, "wb") as device:
            device.write(words)
        return
    folder = os.path.dirname(os.path.abspath(path))
    try:
        with tempfile.NamedTemporaryFile(dir=folder, delete=False) as out:
            try:
                out.write(words)
                out.flush()
                os.fsync(out.fileno())
                os.fchmod(out.fileno(), 0o666 & ~MASK)
                os.replace(out.name, path)
            except OSError:
                os.unlink(out.name)
                raise
    except OSError as error:
        raise OSError(error.errno, error.strerror, path) from None
    sync_folder(folder)


def sync_folder(folder: str) -> None:
    """Writes the names in a folder to the disk."""
    place = os.open(folder, os.O_RDONLY)
    try:
        os.fsync(place)
    finally:
        os.close(place)


def mask_of_process() -> int:
    """Returns the bits of a mode that this process denies to new files."""
    mask = os.umask(0o077)
    os.umask(mask)
    return mask


MASK = mask_of_process()
