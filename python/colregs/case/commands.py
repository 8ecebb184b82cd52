"""The commands that make a case again, and its reports in its folder. Files are named without their folders."""
import argparse
import os
import shlex
from collections.abc import Iterator, Sequence

from colregs.case.audit import JOBS
from colregs.case.chosen import Chosen
from colregs.case.folder import LOG, POINTS, REPORT, SCENARIO, Sums
from colregs.run.program import window_options

SWITCHES = "without-times", "all", "full", "day-first", "align"


def case_command(given: argparse.Namespace, logs: Sums, chosen: Chosen) -> str:
    """Returns the command that makes the case again."""
    words = [name for name, _, _ in logs]
    for name, value in options(given, chosen):
        words += [f"--{name}={value}"] if str(value).startswith("-") else [f"--{name}", str(value)]
    words += ["--" + word for word in SWITCHES if getattr(given, word.replace("-", "_"))]
    return f"colregs-case {shlex.join(words)} -o CASE"


def options(given: argparse.Namespace, chosen: Chosen) -> Iterator[tuple[str, object]]:
    """Yields the options that are given, with their values."""
    def base(path: str | None) -> str | None:
        return path and os.path.basename(path)
    window = (
        (("from", given.begin), ("to", given.end))
        if given.begin or given.end
        else (("start", chosen.start), ("ticks", chosen.ticks))
    )
    hours, minutes = divmod(abs(given.offset) // 60, 60)
    offset = f"{'-' if given.offset < 0 else '+'}{hours:02d}:{minutes:02d}" if given.offset else None
    every: Sequence[tuple[str, object]] = (
        ("scenario", base(given.scenario)), *window, *(("vessel", word) for word in given.vessel),
        ("area", base(given.area)), ("mmsi", given.mmsi), ("chart", base(given.chart)), ("sweep", given.sweep),
        ("date", given.date), ("columns", given.columns), ("offset", offset), ("title", given.title)
    )
    yield from ((name, value) for name, value in every if value is not None)


def report_commands(chosen: Chosen, has_shares: bool) -> list[str]:
    """Returns the commands that make the two reports again in the folder of the case."""
    words = "".join(" " + word for word in window_options(chosen.start, chosen.ticks))
    points = f"colregs points {SCENARIO}{words} < {LOG} > {POINTS}"
    if has_shares:
        return [points, f"colregs-many {JOBS}", f"colregs-many join {JOBS} > {REPORT}"]
    return [points, f"colregs audit {SCENARIO}{words} < {LOG} > {REPORT}"]
