"""Chooses the program that `./colregs` runs: the proved one if no source changed since, otherwise an unproved one of
the same sources."""
from __future__ import annotations

import fcntl
import glob
import hashlib
import os
import shutil
import time
from typing import IO, List, NamedTuple, Optional

from . import unproved
from .repository import Fault, PROGRAM, TOP, path_of, say
from .sums import Record, Unchanged, as_text, sum_of

PROVED = path_of("crates", PROGRAM, "out", PROGRAM)
CACHED_PROGRAMS = 4      # the most programs in the cache; the oldest is removed first
CLOCK_STEP = 50 * 10**6      # nanoseconds by which a file's time may lag behind the clock
NOT_PROVED = "not proved yet; ./colregs --prove proves it"


class Choice(NamedTuple):
    """A program to run, and a message for its user, if any."""

    program: str
    notice: str


def cache() -> str:
    """Returns the folder of the unproved programs, and makes it. Raises Fault if it is not writable."""
    folder = os.environ.get("COLREGS_CACHE") or path_of(".cache")
    try:
        os.makedirs(folder, exist_ok=True)
        with open(os.path.join(folder, "lock"), "a", encoding="utf-8"):
            return folder
    except OSError as fault:
        raise Fault("cannot build: %s cannot be written (%s); name another folder in COLREGS_CACHE" %
                    (folder, fault.strerror)) from None


def alone(folder: str) -> IO[str]:
    """Waits until no other build uses the cache; returns a lock that excludes others until it is closed."""
    lock = open(os.path.join(folder, "lock"), "a", encoding="utf-8")
    try:
        fcntl.flock(lock, fcntl.LOCK_EX | fcntl.LOCK_NB)
    except BlockingIOError:
        say("waiting for another build to end")
        fcntl.flock(lock, fcntl.LOCK_EX)
    return lock


def stamp(path: str, begun: int) -> None:
    """Sets the time of a file to the start of reading its sources, in nanoseconds, so that a later change of a source
    is noticed."""
    try:
        os.utime(path, ns=(begun - CLOCK_STEP, begun - CLOCK_STEP))
    except OSError:
        pass      # then each start reads the sources again


def _changed_since(changed: List[str]) -> str:
    more = " and %d more" % (len(changed) - 1) if len(changed) > 1 else ""
    return "%s%s changed since the proof, so this program is not proved; ./colregs --prove proves it" % (
        changed[0],
        more,
    )


def _is_proved(begun: int) -> Optional[str]:
    """Returns an empty text if the proved program exists and has these sources, otherwise a message for its user."""
    if not os.access(PROVED, os.X_OK):
        return NOT_PROVED
    changed = Record(PROVED).changed()
    if changed is None:
        return "a source may have changed since the proof, so this program is not proved; ./colregs --prove proves it"
    if changed:
        return _changed_since(changed)
    stamp(PROVED, begun)
    return None


def _confirm_room(folder: str) -> None:
    """Raises Fault if the disk of a folder has too little room for a build."""
    free = shutil.disk_usage(folder).free
    if free < unproved.NEEDED_DISK:
        raise Fault("cannot build: the disk of %s has %d MB free, and a build takes up to %d MB; free some, or name a "
                    "folder on another disk in COLREGS_CACHE" % (folder, free // 10**6, unproved.NEEDED_DISK // 10**6))


def _unproved(folder: str) -> str:
    """Returns the path of the program of these sources; builds it if the cache has none."""
    # A program depends on its sources and on its build tools.
    names = ("clauses.py", "kit.py", "module_parts.py", "module_text.py", "unproved.py")
    builders = [path_of("dev", name) for name in names]
    sources = Unchanged()
    key = hashlib.sha256((as_text(sources.sums) + "".join(map(sum_of, builders))).encode()).hexdigest()
    program = os.path.join(folder, "%s-%s" % (PROGRAM, key[:16]))
    if os.path.exists(program):
        return program
    with alone(folder):
        if not os.path.exists(program):
            for left in glob.glob(os.path.join(glob.escape(folder), "building-*")):
                shutil.rmtree(left, ignore_errors=True)
            _confirm_room(folder)
            say("nothing is built of these sources yet; building the program without its proofs, which takes a minute "
                "or two")
            unproved.build(program, sources)
            known = sorted(glob.glob(os.path.join(glob.escape(folder), PROGRAM + "-*")), key=os.path.getmtime)
            for old in known[:-CACHED_PROGRAMS]:
                os.remove(old)
    return program


def choose(is_unproved_wanted: bool = False) -> Choice:
    """Returns the program to run; builds one without proofs if there is none. Raises Fault if that fails.

    It stores the choice of an unproved program in the cache, where `./colregs` reads it until a source changes.
    """
    begun = time.time_ns()
    notice = NOT_PROVED if is_unproved_wanted else _is_proved(begun)
    if notice is None:
        return Choice(PROVED, "")
    folder = cache()
    program = _unproved(folder)
    if not is_unproved_wanted:
        new = os.path.join(folder, "choice.%d" % os.getpid())
        try:
            with open(new, "w", encoding="utf-8") as out:
                out.write("%s\n%s\n%s\n" % (TOP, program, notice))
            stamp(new, begun)
            os.replace(new, os.path.join(folder, "choice"))
        finally:
            if os.path.exists(new):
                os.remove(new)
    return Choice(program, notice)
