"""Child processes of a build: none outlives the build, and a long one shows its progress."""
from __future__ import annotations

import ctypes
import os
import re
import resource
import signal
import subprocess
import threading
import time
from types import TracebackType
from typing import IO, List, Mapping, Optional, Type

from .repository import Fault, read_if_there, say

EACH = 20.0      # seconds between two lines of progress
# approximate bytes that proving or compiling takes at most per processor
_MEMORY = 2500 * 1000 * 1000
_DIE_WITH_PARENT = 1      # PR_SET_PDEATHSIG of prctl(2)
_C = ctypes.CDLL(None, use_errno=True)


def _die_with_parent() -> None:
    """Makes the kernel kill this process when its parent ends, even if the parent is killed."""
    _C.prctl(_DIE_WITH_PARENT, signal.SIGKILL)


class Child:
    """A process in its own session, with all processes that it starts."""

    def __init__(self, command: List[str], output: IO[str], folder: Optional[str] = None,
                 settings: Optional[Mapping[str, str]] = None):
        """Starts the command with empty standard input, and both outputs in one file. Raises Fault if it does not
        start."""
        try:
            self.run = subprocess.Popen(command, cwd=folder, env=settings, stdin=subprocess.DEVNULL, stdout=output,
                                        stderr=subprocess.STDOUT, start_new_session=True, preexec_fn=_die_with_parent)
        except OSError as fault:
            raise Fault("cannot build: %s does not start: %s" % (command[0], fault.strerror)) from None

    def stop(self) -> None:
        """Kills the process and all processes that it has started, and waits for it."""
        try:
            os.killpg(self.run.pid, signal.SIGKILL)
        except ProcessLookupError:
            pass
        self.run.wait()


class Progress:
    """Writes a line with the current step to standard error every 20 seconds."""

    def __init__(self, step: str, each: float = EACH):
        self.step, self._each, self._begun, self._ended = step, each, time.monotonic(), threading.Event()
        self._writer = threading.Thread(target=self._write, daemon=True)

    def seconds(self) -> int:
        """Returns the whole seconds since the work began."""
        return int(time.monotonic() - self._begun)

    def _write(self) -> None:
        while not self._ended.wait(self._each):
            say("%d s: %s" % (self.seconds(), self.step))

    def __enter__(self) -> Progress:
        self._writer.start()
        return self

    def __exit__(self, kind: Optional[Type[BaseException]], value: Optional[BaseException],
                 trace: Optional[TracebackType]) -> None:
        self._ended.set()
        self._writer.join()


def _stopped(number: int, _: object) -> None:
    raise KeyboardInterrupt


def end_as_interrupted(is_ignored: bool = True) -> None:
    """Makes the signals that end a process raise KeyboardInterrupt, so that work in progress is stopped and removed.
    Ctrl-C does so too, unless it is ignored or Python has seen to it."""
    for number in (signal.SIGTERM, signal.SIGHUP, *[signal.SIGINT] * (not is_ignored)):
        signal.signal(number, _stopped)


def limit_of_memory() -> Optional[int]:
    """Returns the bytes that a process may take by `ulimit -v` or `ulimit -d`, or None if neither is set."""
    limits = [resource.getrlimit(kind)[0] for kind in (resource.RLIMIT_AS, resource.RLIMIT_DATA)]
    return min((it for it in limits if it != resource.RLIM_INFINITY), default=None)


def processors() -> int:
    """Returns the number of processors to use, limited by memory."""
    free = re.search(r"^MemAvailable:\s+(\d+)", read_if_there("/proc/meminfo"), re.M)
    limit = read_if_there("/sys/fs/cgroup/memory.max").strip()
    memory = [1024 * int(it.group(1)) for it in [free] if it] + [int(it) for it in [limit] if it.isdigit()]
    return max(1, min([len(os.sched_getaffinity(0))] + [it // _MEMORY for it in memory]))
