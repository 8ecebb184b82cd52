"""A case as GeoJSON (RFC 7946): points, tracks, ends of tracks, meetings, nearest places, and verdicts."""
import bisect
import itertools
import json
from collections.abc import Iterator
from typing import Any

from colregs.model.earth import Earth, feature, iso
from colregs.model.marks import Marks
from colregs.model.reports import Case
from colregs.model.rows import Meeting, Stretch
from colregs.model.tracks import NONE, Place
from colregs.page.thinning import Kept, is_whole, whole


def tenths(value: int) -> str:
    """Returns a number of tenths as JSON."""
    return "null" if value == NONE else repr(value / 10)


def points(case: Case, earth: Earth, kept: Kept) -> Iterator[str]:
    """Yields a point for each accepted report that stays. Most of a file is points, so this builds their text directly.
    """
    moments: dict[int, str] = {}
    values = {value: tenths(value) for value in range(NONE, 3600)}
    for mmsi, track in case.tracks.items():
        chosen = [k for part in kept[mmsi] for k in part]
        for k in chosen:
            if track.times[k] not in moments:
                moments[track.times[k]] = iso(case.start + track.times[k])
        name = json.dumps(case.name(mmsi), ensure_ascii=False)
        texts = [
            '{"type":"Feature","geometry":{"type":"Point","coordinates":['
            f'{(earth.longitude + round(x * earth.east)) / 600000:.7f},'
            f'{(earth.latitude + round(y * earth.north)) / 600000:.7f}'
            f']}},"properties":{{"kind":"point","mmsi":{mmsi},"name":{name},"time":"{moments[time]}",'
            f'"speed":{values[speed]},"course":{values[course]}}}}}'
            for time, x, y, speed, course in ((track.times[k], track.xs[k], track.ys[k], track.speeds[k],
                                               track.courses[k]) for k in chosen)
        ]
        yield ",\n".join(texts)


def tracks(case: Case, earth: Earth, kept: Kept) -> Iterator[str]:
    """Yields a line for each part of a track, and a point at its start and at its end."""
    for mmsi, track in sorted(case.tracks.items()):
        about = {"mmsi": mmsi, "name": case.name(mmsi)}
        for part in kept[mmsi]:
            xs, ys = ([values[k] for k in part] for values in (track.xs, track.ys))
            first, last = (iso(case.start + track.times[k]) for k in (part[0], part[-1]))
            if len(part) > 1:
                yield feature("LineString", earth.words(xs, ys), kind="track", **about, first=first, last=last)
            for end, k, moment in (("first", 0, first), ("last", -1, last)):
                yield feature("Point", earth.degrees(xs[k], ys[k]), kind="end", **about, end=end, time=moment)


def about(case: Case, row: Stretch, marks: Marks | None) -> dict[str, Any]:
    """Returns the vessels and the times of a row."""
    marked = {"marks": ", ".join(marks.of(row, isinstance(row, Meeting)))} if marks else {}
    return {
        "subject": row.subject, "subject_name": case.name(row.subject), "other": row.other,
        "other_name": case.name(row.other), "first_step": row.first, "last_step": row.last, "time": iso(
            case.moment(row.first)), "end": iso(case.moment(row.last + 1)), "at_rest": case.rest(row), **marked
    }


class Ways:
    """The lines of stretches: through each tick, or through the remaining reports if some are left out."""

    def __init__(self, case: Case, earth: Earth, kept: Kept) -> None:
        self.case, self.earth, self.is_whole = case, earth, is_whole(case, kept)
        self.numbers = {mmsi: [k for part in parts for k in part] for mmsi, parts in kept.items()}
        self.times = {mmsi: [case.tracks[mmsi].times[k] for k in numbers] for mmsi, numbers in self.numbers.items()}

    def places(self, row: Stretch) -> list[Place]:
        """Returns the subject's places in a stretch."""
        case = self.case
        ticks = [place for place in case.places[row.subject][row.first:row.last + 2] if place]
        if self.is_whole or len(ticks) < 3:
            return ticks
        times, track = self.times[row.subject], case.tracks[row.subject]
        low, high = bisect.bisect_right(times,
                                        row.first * case.tick), bisect.bisect_left(times, (row.last + 1) * case.tick)
        return [ticks[0], *((track.xs[k], track.ys[k]) for k in self.numbers[row.subject][low:high]), ticks[-1]]

    def words(self, row: Stretch) -> str | None:
        """Returns the subject's line in a stretch, as text; None if she is seen at fewer than two of its ticks."""
        if row.subject not in self.case.places:
            return None
        seen = self.places(row)
        return self.earth.words([x for x, _ in seen], [y for _, y in seen]) if len(seen) > 1 else None


def meetings(case: Case, ways: Ways, marks: Marks | None) -> Iterator[str]:
    """Yields the subject's line in each meeting; and at the closest approach a line between the two, and the subject's
    point."""
    for row in case.meetings:
        more = {**about(case, row, marks), "encounter": row.encounter, "least": row.metres}
        if words := case.lost_words(row):
            more["contact_lost"] = words
        way = ways.words(row)
        if way:
            yield feature("LineString", way, kind="meeting", **more)
            seconds, one, two = case.nearest(row)
            more["time"] = more["end"] = iso(round(case.start + seconds))
            ends = [ways.earth.degrees(*one), ways.earth.degrees(*two)]
            yield feature("Point", ends[0], kind="nearest", **more)
            yield feature("LineString", ends, kind="between", **more)


def verdicts(case: Case, ways: Ways, marks: Marks | None) -> Iterator[str]:
    """Yields the subject's line in each verdict."""
    for row in case.verdicts:
        way = ways.words(row)
        if way:
            yield feature("LineString", way, kind="verdict", **about(case, row, marks), rule=row.rule, value=row.value)


def geojson(case: Case, marks: Marks | None = None, kept: Kept | None = None,
            kept_in_ways: Kept | None = None) -> Iterator[str]:
    """Yields the text of the whole file in pieces, with the marks of meetings and verdicts if they are given.

    `kept` are the reports that stay in points and tracks, `kept_in_ways` those that stay in the lines of meetings and
    verdicts. By default all stay.
    """
    earth, before = Earth(case.reference), '{"type":"FeatureCollection","features":[\n'
    shown = kept or whole(case)
    ways = Ways(case, earth, kept_in_ways or shown)
    for text in itertools.chain(points(case, earth, shown), tracks(case, earth, shown), meetings(case, ways, marks),
                                verdicts(case, ways, marks)):
        yield before + text
        before = ",\n"
    yield "\n]}\n" if before == ",\n" else before + "]}\n"
