"""The chart of times: for each ordered pair its meetings, and the steps at which a rule was broken or open."""
from collections.abc import Iterator, Sequence

from colregs.model.reports import Case
from colregs.model.rows import Meeting, Stretch, Verdict
from colregs.model.rules import INK, clock, colour, date, meaning, nice
from colregs.page.svg import Picture, width_of

Block = tuple[tuple[int, int], list[Meeting], list[tuple[str, list[Verdict]]]]
Bar = tuple[Stretch, str, str, bool]      # a row, its colour, its label, and whether it is hollow
LEFT, WIDE, HEAD, ROW = 240, 640, 92, 18
MANY = 120      # if a case has more ordered pairs, the chart shows only some


def blocks(case: Case) -> Iterator[Block]:
    """Yields each ordered pair with its meetings and, rule by rule, its verdicts. The two orders of two vessels follow
    each other."""
    begins: dict[frozenset[int], int] = {}
    meetings: dict[tuple[int, int], list[Meeting]] = {}
    verdicts: dict[tuple[int, int], list[Verdict]] = {}
    for row in case.stretches():
        begins[frozenset(row.pair)] = min(row.first, begins.get(frozenset(row.pair), row.first))
    for meeting in case.meetings:
        meetings.setdefault(meeting.pair, []).append(meeting)
    for verdict in case.verdicts:
        verdicts.setdefault(verdict.pair, []).append(verdict)
    for pair in sorted(meetings | verdicts, key=lambda pair: (begins[frozenset(pair)], min(pair), max(pair), pair)):
        mine = verdicts.get(pair, [])
        yield pair, meetings.get(pair, []), [
            (rule, [v for v in mine if v.rule == rule]) for rule in case.rules if any(v.rule == rule for v in mine)
        ]


def fewer(case: Case, found: list[Block]) -> tuple[list[Block], str | None]:
    """Returns the pairs to draw: those with the nearest meetings if there are many. Also returns a note on what is left
    out."""
    if len(found) <= MANY:
        return found, None
    near: dict[tuple[int, int], int] = {}
    for meeting in case.meetings:
        near[meeting.pair] = min(meeting.least, near.get(meeting.pair, meeting.least))
    kept = set(sorted(near, key=lambda pair: (near[pair], min(pair), max(pair)))[:MANY]) or {
        entry[0] for entry in found[:MANY]
    }
    few = [entry for entry in found if entry[0] in kept]
    return few, (f"Shows the {len(few)} of {len(found)} ordered pairs that came nearest; --pair, --from and --to "
                 "select others.")


def across(case: Case, step: int) -> float:
    """Returns the x of a step's start, or of an edge of the chart if the step is outside."""
    first, last = case.shown
    return LEFT + WIDE * (min(max(step, first), last) - first) / (last - first)


def time_axis(picture: Picture, case: Case, bottom: float) -> None:
    """Draws the steps at the bottom and the times at the top. A step's number is at the step's start."""
    first, last = case.shown
    every = max(1, int(nice((last - first) / 10)))
    for step in range(-(-first // every) * every, last + 1, every):
        x = across(case, step)
        picture.line((x, HEAD), (x, bottom), "#e3e8ec")
        picture.words(x, bottom + 14, str(step), 10, "#555555", "middle")
        picture.words(x, HEAD - 6, clock(case.moment(step)), 9, "#555555", "middle")
    picture.words(LEFT - 34, HEAD - 6, "UTC", 9, "#555555", "end")
    picture.words(LEFT + WIDE / 2, bottom + 29, f"step, of {case.tick} s each", 10, "#555555", "middle")
    picture.box(LEFT, HEAD, WIDE, bottom - HEAD, "none", stroke="#8a949d")


def bars(picture: Picture, case: Case, y: float, rows: Sequence[Bar]) -> None:
    """Draws a bar over the steps of each row. Its label is in the bar, or beside it if the neighbouring bars leave
    room."""
    ends = [across(case, row.first) for row, *_ in rows]
    wide = [max(2.5, across(case, row.last + 1) - x) for (row, *_), x in zip(rows, ends)]
    for (row, fill, _, hollow), x, width in zip(rows, ends, wide):
        if hollow:
            picture.box(x + 0.7, y + 3.7, max(1.5, width - 1.4), ROW - 7.4, "#ffffff", stroke=fill, stroke_width=1.4,
                        stroke_dasharray="3 2")
        else:
            picture.box(x, y + 3, width, ROW - 6, fill)
    taken: float = LEFT
    for k, (row, fill, words, hollow) in enumerate(rows):
        x, width, size = ends[k], wide[k], width_of(words, 10)
        following = ends[k + 1] if k + 1 < len(rows) else LEFT + WIDE
        if size + 6 < width and not hollow:
            picture.words(x + width / 2, y + ROW - 5.5, words, 10, "#ffffff", "middle")
        elif x + width + 5 + size < following:
            picture.words(x + width + 5, y + ROW - 5.5, words, 10, INK, halo=True)
            width += 5 + size
        elif x - 5 - size > taken:
            picture.words(x - 5, y + ROW - 5.5, words, 10, INK, "end", halo=True)
        taken = x + width


def steps_words(row: Stretch) -> str:
    """Returns the steps of a row, such as 4 or 4-9."""
    return f"{row.first}" if row.first == row.last else f"{row.first}\u2013{row.last}"


def draw_block(picture: Picture, case: Case, y: float, pair: tuple[int, int], meetings: list[Meeting],
               verdicts: list[tuple[str, list[Verdict]]]) -> None:
    """Draws the rows of one ordered pair."""
    names = " to ".join(case.name(mmsi) for mmsi in pair)
    size = min(12, round(12 * (LEFT - 20) / (1.1 * width_of(names, 12)), 1))       # keeps long names left of the bars
    picture.words(12, y + ROW - 5, names, size, weight="bold")
    bars(picture, case, y,
         [(meeting, "#5b6770", f"{steps_words(meeting)}, {meeting.encounter}, {meeting.metres:.0f} m", False)
          for meeting in sorted(meetings, key=lambda row: row.first)])
    for rule, rows in verdicts:
        y += ROW
        picture.words(LEFT - 10, y + ROW - 5, rule, 11, colour(rule), "end", "bold")
        bars(picture, case, y, [(row, colour(rule), f"{steps_words(row)} {row.value}", row.value == "open")
                                for row in sorted(rows, key=lambda row: row.first)])


def times(case: Case, title: str) -> str:
    """Returns the chart of times."""
    found, left_out = fewer(case, list(blocks(case)))
    bottom = HEAD + 6 + sum(ROW * (1 + len(verdicts)) + 6 for _, _, verdicts in found)
    rules = [rule for rule in case.rules if any(v.rule == rule for v in case.verdicts)]
    picture = Picture(LEFT + WIDE + 30, bottom + 60 + 17 * (len(rules) + 1) // 2, title)
    if left_out:
        picture.words(12, 71, left_out, 11, "#555555")
    picture.words(12, 24, title, 16, weight="bold")
    picture.words(12, 43, date(case.moment(case.shown[0])) + ". The meetings of each ordered pair, with their steps, "
                                                             "kind and least distance; and the steps "
                  "at which a rule", 11, "#555555")
    picture.words(12, 58, "that binds the first of the two is broken (filled) or open, undecided (dashed).", 11,
                  "#555555")
    time_axis(picture, case, bottom)
    y = HEAD + 3
    for pair, meetings, verdicts in found:
        draw_block(picture, case, y, pair, meetings, verdicts)
        y += ROW * (1 + len(verdicts)) + 6
    for k, rule in enumerate(rules):
        picture.words(12 + (LEFT + WIDE) / 2 * (k % 2), bottom + 54 + 17 * (k // 2), f"{rule}: {meaning(rule)}", 11,
                      colour(rule))
    return picture.text()
