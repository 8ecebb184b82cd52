"""A case in plain words: what was read, what was not and why, how many meetings there were, and what is doubtful."""
import itertools
from collections.abc import Iterator, Sequence

from colregs.io.sources import Gathered
from colregs.model import narrative
from colregs.model.marks import Marks
from colregs.model.reports import Case
from colregs.model.rows import Meeting
from colregs.model.rules import OUTCOMES, utc
from colregs.model.scenario_checks import Finding
from colregs.words import count

LOST = "contact lost"                   # the doctor's finding; the summary has the meetings themselves
SHOWN = 5                               # of more such meetings than this the number is given
REST = "verdicts at rest"               # the doctor's finding by vessels; here the stretches are counted
HEAVY = 2000000                         # reports, beyond which a page is slow
USED = ("point", "static", "part")      # the outcomes of lines that are used


def lengths(metres: float) -> str:
    """Returns a length in metres, and from ten metres on in nautical miles too."""
    if metres < 10:
        return f"{metres:.1f} m"
    return f"{metres:,.0f} m ({format(metres / 1852, '.3f' if metres < 92 else '.2f')} nautical miles)"


def capital(words: str) -> str:
    """Returns words with a capital at their beginning."""
    return words[:1].upper() + words[1:]


def read_words(case: Case, gathered: Gathered) -> Iterator[str]:
    """Yields how the logs were read."""
    files = count(len(gathered.files), "file")
    if gathered.first is None:
        yield f"Read: {files} with {count(gathered.lines(), 'line')}, and none of the lines has a time."
    else:
        latest = gathered.first if gathered.last is None else gathered.last
        yield (f"Read: {files} with {count(gathered.lines(), 'line')}; {count(gathered.sentences, 'sentence')} "
               f"from {utc(gathered.first)} to {utc(latest)} UTC.")
    lost = {name: number for name, number in case.lines.items() if number and name not in USED}
    total = sum(case.lines.values())
    positions = count(case.lines.get("point", 0), "position")
    static = count(case.lines.get("static", 0), "message of ships' data", "messages of ships' data")
    rest = f"{count(sum(lost.values()), 'other', 'others')} were not used" if lost else "nothing else was left out"
    yield f"Of {count(total, 'sentence')} the program took {positions} and {static}; {rest}."
    for name, number in sorted(lost.items(), key=lambda entry: -entry[1]):
        yield f"Not used: {count(number, 'sentence')} ({name}): {OUTCOMES.get(name, name)}."


def unordered(rows: Sequence[Meeting]) -> dict[tuple[int, int, int, int], Meeting]:
    """Returns one meeting of each two vessels and stretch."""
    return {(*row.both, row.first, row.last): row for row in rows}


def nearest_words(case: Case, met: dict[tuple[int, int, int, int], Meeting]) -> str:
    """Returns which two came nearest."""
    moving = [row for row in met.values() if not case.rest(row)] or list(met.values())
    near = min(moving, key=lambda row: row.metres)
    seconds = case.nearest(near)[0]
    kind = "of those under way" if not case.rest(near) else "though one of the two lies still"
    return (f"The nearest, {kind}: {case.name(near.subject)} and {case.name(near.other)}, {lengths(near.metres)} "
            f"at {utc(round(case.start + seconds))} UTC.")


def is_marked(marks: Marks, row: Meeting) -> bool:
    """Returns whether a meeting has a mark by which it may be a false alarm."""
    return any(mark != LOST for mark in marks.of(row))


def lost_words(case: Case, met: dict[tuple[int, int, int, int], Meeting], marks: Marks) -> Iterator[str]:
    """Yields the meetings that end because a vessel is no longer heard: how many, and those that would have come
    nearest, unmarked ones first."""
    ends = [(row, found) for row in met.values() if (found := case.lost(row))]
    if not ends:
        return
    closing = [(row, found) for row, found in ends if found.still_closing(row.metres)]
    closing.sort(key=lambda entry: (is_marked(marks, entry[0]), entry[1].ahead.least if entry[1].ahead else 0))
    yield (f"{count(len(ends), 'meeting')} of {len(met):,} {'ends' if len(ends) == 1 else 'end'} because a vessel was "
           "no longer heard, so the nearest distance is not known; "
           f"{count(len(closing), 'pair was', 'pairs were')} still closing by the last reports.")
    for row, _ in closing[:SHOWN]:
        yield f"{case.name(row.subject)} and {case.name(row.other)}: {case.lost_words(row)}."
    if len(closing) > SHOWN:
        yield f"And {len(closing) - SHOWN:,} more such: the page's filter `contact lost` lists all."


def gravest(case: Case, met: dict[tuple[int, int, int, int], Meeting], marks: Marks) -> Iterator[str]:
    """Yields the nearest meetings in which a rule was broken and that have no mark, each in a sentence."""
    verdicts = narrative.by_pair(case)
    broken = {key[:2] for key in met if any(row.value == "broken" and row.first <= key[3] and key[2] <= row.last
                                            for row in verdicts.get(key[:2], []))}
    rows = sorted((row for key, row in met.items() if key[:2] in broken and not case.rest(row)),
                  key=lambda row: row.metres)
    chosen = itertools.islice((row for row in rows if not is_marked(marks, row)), SHOWN)
    yield from (narrative.sentence(case, row, verdicts) for row in chosen)


def meeting_words(case: Case, marks: Marks | None) -> Iterator[str]:
    """Yields how many vessels met, and what the audit says of that."""
    met = unordered(case.meetings)
    broken, open_ = ([row for row in case.verdicts if row.value == value] for value in ("broken", "open"))
    window = f"{utc(case.start)} and {utc(case.moment(case.steps))}"
    if not case.tracks:
        yield f"Nothing was audited: no vessel has a position between {window} UTC, the scenario's window."
        return
    vessels = count(len(case.tracks), "vessel")
    yield f"{vessels} had positions between {window} UTC, which is the window that was audited."
    if not met:
        yield "No two vessels met: none came so near, with risk of collision, as the scenario asks."
        return
    yield (f"{count(len(met), 'meeting')} of two vessels; "
           f"rules broken in {count(len(broken), 'stretch', 'stretches')}, "
           f"and undecided in {count(len(open_), 'stretch', 'stretches')}.")
    yield nearest_words(case, met)
    if marks:
        yield from lost_words(case, met, marks)
        yield from gravest(case, met, marks)


def summary(case: Case, gathered: Gathered, marks: Marks | None = None) -> list[str]:
    """Returns a case in plain words, with its gravest meetings if the marks are known."""
    return [*read_words(case, gathered), *meeting_words(case, marks)]


def outside(case: Case, gathered: Gathered) -> list[str]:
    """Returns how much of the log the window leaves out, if that is more than a tenth."""
    if gathered.first is None or gathered.last is None:
        return []
    left = max(0, case.start - gathered.first) + max(0, gathered.last - case.moment(case.steps))
    if 10 * left <= gathered.last - gathered.first:
        return []
    return [f"The window is from {utc(case.start)} to {utc(case.moment(case.steps))} UTC, and the log from "
            f"{utc(gathered.first)} to {utc(gathered.last)}: what lies outside was not audited. --start and --ticks "
            "set another window, and tools/colregs-many audits a long log."]


def doubts(case: Case, gathered: Gathered, findings: Sequence[Finding]) -> list[str]:
    """Returns what is doubtful, most of it in the doctor's words."""
    found = [f"{capital(finding.name)}: {finding.words}." for finding in findings if finding.name not in (REST, LOST)]
    found += outside(case, gathered)
    reports = sum(len(track.times) for track in case.tracks.values())
    if reports > HEAVY:
        found.append(f"The page holds {format(reports, ',')} reports, which a browser shows slowly: a smaller window "
                     "makes a lighter page.")
    still = [row for row in case.verdicts if case.rest(row) in ("subject", "both")]
    if still:
        found.append(f"{len(still):,} of {count(len(case.verdicts), 'verdict is', 'verdicts are')} of vessels that "
                     "never make half a knot in the stretch. They may lie at anchor or alongside, where the rules ask "
                     "nothing of them; their rows are marked `at rest`.")
    for name, told in gathered.unread.items():
        found.append(f"Not understood, and left out: {count(told.count, 'line')}: {name}. One of them: {told.example}")
    return found + [capital(words) + "." for words in gathered.notes]
