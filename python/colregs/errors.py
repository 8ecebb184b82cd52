"""How every command ends: its exit status, and one line `NAME: what is wrong` on standard error if something stops
it."""
import contextlib
import os
import sys
from collections.abc import Callable
from typing import NoReturn

DONE = 0            # all is done
FAILED = 1          # something stopped the command, or it found something
USAGE = 2           # the command line is wrong; argparse ends with this status too
INTERRUPTED = 130   # a user's interrupt, as a shell reports it


class Fault(Exception):
    """Stops a command; its text says what is wrong, where, and what to do next."""


def reason(error: OSError) -> str:
    """Returns the system's words for an error, in lower case."""
    return (error.strerror or str(error)).lower()


def report(name: str, words: str) -> None:
    """Writes one line of a command on standard error; if that cannot be written, the exit status has to do."""
    with contextlib.suppress(OSError):
        print(f"{name}: {words}", file=sys.stderr, flush=True)


def end(name: str, main: Callable[[], int], failed: int = FAILED) -> NoReturn:
    """Runs a command's main and leaves with its status; `failed` is the status of a Fault and of a file that cannot be
    read or written."""
    open_missing()
    try:
        try:
            status = main()
        except SystemExit as ended:         # of argparse, after a help page or a wrong command line
            status = int(ended.code or DONE)
        sys.stdout.flush()
    except Fault as fault:
        report(name, str(fault))
        status = failed
    except KeyboardInterrupt:
        status = INTERRUPTED
    except OSError as error:
        if error.filename is None:
            discard_output()
        place = "cannot write to standard output" if error.filename is None else os.fsdecode(error.filename)
        report(name, f"{place}: {reason(error)}")
        status = failed
    sys.exit(status)


def open_missing() -> None:
    """Opens what a caller closed of standard input, output and error, so that no file of ours gets their numbers.
    Standard input then is empty, and a write to standard output fails."""
    for number, (name, mode) in enumerate((("stdin", "r"), ("stdout", "w"), ("stderr", "w"))):
        if getattr(sys, name) is None:
            null = os.open(os.devnull, os.O_WRONLY if name == "stderr" else os.O_RDONLY)
            if null != number:
                os.dup2(null, number)
                os.close(null)
            setattr(sys, name, open(number, mode, encoding="utf-8", errors="backslashreplace"))


def discard_output() -> None:
    """Sends what is left in the buffer of standard output nowhere, so that Python does not fail again when it ends."""
    os.dup2(os.open(os.devnull, os.O_WRONLY), sys.stdout.fileno())
