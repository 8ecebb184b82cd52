"""Finds from when on two windows accept the same reports of a vessel, by the reports that each accepts around the start
of the later window.

Whether the program accepts a report depends only on the last accepted report before it (docs/LOG.md). So from the first
report that both accept, they accept the same ones.
"""
from colregs.shares.results import Check

STRADDLE = 30           # s: the greatest time between parts of a message, and between a report and its repetition


def agreed_from(earlier: list[Check], later: list[Check], begin: int, end: int, gap: int, lost: bool) -> int | None:
    """Returns the time from which two windows accept the same reports of a vessel; None if it is unknown.

    `earlier` and `later` are the accepted reports of each from `begin`, the start of the later window's lines, to
    `end`. `lost` means that the earlier window may accept other reports than the whole audit. Then the two agree only
    after a silence, because the program accepts the next report whatever came before it.
    """
    silence = max(gap, STRADDLE)
    first = later[0][0] if later else end + 1
    if first - begin > silence and (lost or not any(at >= first - silence for at, _ in earlier)):
        return begin
    known = dict(earlier)
    for before, (at, rest) in zip([None, *later], later):
        repeats = is_repeat(before, at, rest) or is_repeat(previous(earlier, at), at, rest)
        if not lost and known.get(at) == rest and not repeats:
            return at
    return None


def previous(checks: list[Check], at: int) -> Check | None:
    """Returns the last report before a time."""
    return next((check for check in reversed(checks) if check[0] < at), None)


def is_repeat(before: Check | None, at: int, rest: str) -> bool:
    """Returns whether a report has the same shown fields as the one before and follows so soon that it may repeat a
    report that differs in other fields."""
    return before is not None and before[1] == rest and at - before[0] <= STRADDLE
