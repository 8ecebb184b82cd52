"""Lines, shapes and texts of an SVG picture, and labels that do not overlap."""
import math
from collections.abc import Iterable, Sequence
from xml.sax.saxutils import escape

CELL, CROWDED = 20, 60      # the side of a cell in the grid of labels, and the most points of a cell that count
Point = tuple[float, float]
Box = tuple[float, float, float, float]      # left, top, right, bottom
Coloured = list[tuple[str, str]]             # texts, each with its colour
FONT = "Helvetica, Arial, 'Liberation Sans', 'DejaVu Sans', sans-serif"


def number(value: float) -> str:
    """Returns a number with at most one decimal."""
    return f"{value:.1f}".replace(".0", "")


def width_of(words: str, size: float, weight: str = "normal") -> float:
    """Returns an estimate of the width of a text; the usual fonts are seldom wider."""
    return (0.74 if weight == "bold" else 0.62) * size * len(words)


def cells(box: Box) -> list[tuple[int, int]]:
    """Returns the cells of the grid that a box overlaps."""
    x, y, u, v = (int(value // CELL) for value in box)
    return [(a, b) for a in range(x, u + 1) for b in range(y, v + 1)]


def apart(points: Sequence[Point], least: float) -> list[Point]:
    """Returns the line without points that are nearer than `least` to the previous one; the last point stays."""
    kept = [points[0]]
    x, y = points[0]
    for a, b in points:
        if abs(a - x) > least or abs(b - y) > least:
            kept.append((a, b))
            x, y = a, b
    return kept + [points[-1]]


def thinned(points: Sequence[Point], most: float = 0.35) -> list[Point]:
    """Returns the line without points that are visibly on it: by Douglas and Peucker, within `most` of it.

    From a long line, it first removes the points within a quarter of `most` of the previous one.
    """
    if len(points) > 500:
        points = apart(points, most / 4)
    kept, parts = {0, len(points) - 1}, [(0, len(points) - 1)]
    while parts:
        first, last = parts.pop()
        (x, y), (u, v) = points[first], points[last]
        square, far, at = (u - x) ** 2 + (v - y) ** 2 or 1, most, None
        for k in range(first + 1, last):
            a, b = points[k]
            part = min(1, max(0, ((a - x) * (u - x) + (b - y) * (v - y)) / square))
            off = math.hypot(x + (u - x) * part - a, y + (v - y) * part - b)
            if off > far:
                far, at = off, k
        if at is not None:
            kept.add(at)
            parts += [(first, at), (at, last)]
    return [points[k] for k in sorted(kept)]


class Picture:
    """A picture of a width and a height in pixels, built from parts."""

    def __init__(self, width: float, height: float, title: str) -> None:
        self.width, self.height = width, height
        self.parts: list[str] = [f"<title>{escape(title)}</title>", '<rect width="100%" height="100%" fill="#ffffff"/>']

    def add(self, tag: str, **more: object) -> None:
        """Adds an element; `_` in the name of an attribute stands for `-`."""
        words = " ".join(f'{key.replace("_", "-")}="{number(value) if isinstance(value, float) else value}"'
                         for key, value in more.items())
        self.parts.append(f"<{tag} {words}/>")

    def line(self, a: Point, b: Point, stroke: str, width: float = 1.0, **more: object) -> None:
        """Adds a straight line."""
        self.add("line", x1=float(a[0]), y1=float(a[1]), x2=float(b[0]), y2=float(b[1]), stroke=stroke,
                 stroke_width=float(width), **more)

    def path(self, points: Iterable[Point], stroke: str, width: float = 1.0, **more: object) -> None:
        """Adds a line through points."""
        self.add("polyline", points=" ".join(f"{number(x)},{number(y)}" for x, y in points), fill="none", stroke=stroke,
                 stroke_width=float(width), stroke_linejoin="round", **more)

    def box(self, x: float, y: float, width: float, height: float, fill: str, **more: object) -> None:
        """Adds a rectangle by its left upper corner."""
        self.add("rect", x=float(x), y=float(y), width=float(width), height=float(height), fill=fill, **more)

    def dot(self, at: Point, radius: float, fill: str, **more: object) -> None:
        """Adds a circle."""
        self.add("circle", cx=float(at[0]), cy=float(at[1]), r=float(radius), fill=fill, **more)

    def words(self, x: float, y: float, words: str | Coloured, size: float = 11, fill: str = "#222222",
              anchor: str = "start", weight: str = "normal", halo: bool = False) -> None:
        """Adds a text of one colour, or several texts, each with its colour."""
        around = ' stroke="#ffffff" stroke-width="3" paint-order="stroke" stroke-linejoin="round"' if halo else ""
        inner = escape(words) if isinstance(words, str) else " ".join(
            f'<tspan fill="{own}">{escape(word)}</tspan>' for word, own in words)
        self.parts.append(f'<text x="{number(x)}" y="{number(y)}" font-size="{size}" fill="{fill}" '
                          f'text-anchor="{anchor}" '
                          f'font-weight="{weight}"{around}>{inner}</text>')

    def text(self) -> str:
        """Returns the text of the picture."""
        wide, high = int(self.width), int(self.height)
        head = (f'<svg xmlns="http://www.w3.org/2000/svg" width="{wide}" height="{high}" '
                f'viewBox="0 0 {wide} {high}" font-family="{FONT}">')
        return "\n".join([head] + self.parts + ["</svg>", ""])


class Labels:
    """Places labels near a point so that they cover as few other labels and known points as possible.

    A grid indexes boxes and points by cell, because a picture can have many of both.
    """

    def __init__(self, picture: Picture, frame: Box) -> None:
        self.picture, self.frame = picture, frame
        self.boxes: dict[tuple[int, int], set[Box]] = {}
        self.points: dict[tuple[int, int], list[Point]] = {}

    def keep_clear(self, points: Sequence[Point]) -> None:
        """Keeps labels off a line."""
        for (x, y), (u, v) in zip(points, points[1:]):
            parts = max(1, int(math.hypot(u - x, v - y) / 5))
            for k in range(parts + 1):
                a, b = x + (u - x) * k / parts, y + (v - y) * k / parts
                cell = self.points.setdefault((int(a // CELL), int(b // CELL)), [])
                if len(cell) < CROWDED:
                    cell.append((a, b))

    def keep_box(self, box: Box) -> None:
        """Keeps labels off a box."""
        for cell in cells(box):
            self.boxes.setdefault(cell, set()).add(box)

    def cost(self, box: Box) -> float:
        """Returns the cost of what a box would cover."""
        x, y, u, v = box
        left, top, right, bottom = self.frame
        out = max(0, left - x) + max(0, top - y) + max(0, u - right) + max(0, v - bottom)
        near = [cell for cell in cells((x - 2, y - 2, u + 2, v + 2)) if cell in self.boxes or cell in self.points]
        over = sum(max(0, min(u, b[2]) - max(x, b[0])) * max(0, min(v, b[3]) - max(y, b[1]))
                   for b in set().union(*(self.boxes.get(cell, ()) for cell in near)))
        return 1000 * out + 20 * over + 40 * sum(x - 2 <= a <= u + 2 and y - 2 <= b <= v + 2
                                                 for cell in near for a, b in self.points.get(cell, ()))

    def keep_off(self, at: Point, radius: float) -> None:
        """Keeps labels off a dot."""
        self.keep_box((at[0] - radius, at[1] - radius, at[0] + radius, at[1] + radius))

    def best(self, at: Point, width: float, height: float, reach: Iterable[int]) -> tuple[float, Box, int]:
        """Returns the cheapest box around a place, its cost, and its distance from the place."""
        best: tuple[float, Box, int] | None = None
        for far in reach:
            if best and best[0] <= far:     # a box farther off costs at least its distance
                return best
            for turn in range(0, 360, 15):
                across, up = math.sin(math.radians(turn)), math.cos(math.radians(turn))
                x, y = at[0] + (far + width / 2) * across, at[1] - (far + height / 2) * up
                box = (x - width / 2, y - height / 2, x + width / 2, y + height / 2)
                cost = self.cost(box) + far
                if best is None or cost < best[0]:
                    best = cost, box, far
        assert best is not None         # `reach` is not empty
        return best

    def put(self, at: Point, words: str | Coloured, size: int = 11, weight: str = "normal", needed: bool = True,
            apart: int = 6, fill: str = "#222222") -> None:
        """Writes a label near a place, and joins the two by a thin line if they are far apart. A label that is not
        needed appears only if it is near and covers nothing."""
        plain = words if isinstance(words, str) else " ".join(word for word, _ in words)
        width, height = width_of(plain, size, weight), size * 1.1
        cost, box, far = self.best(at, width, height, range(apart, apart + 90, 4) if needed else [apart])
        if not needed and cost > apart:
            return
        if far > apart + 8:
            end = max(box[0], min(at[0], box[2])), max(box[1], min(at[1], box[3]))
            self.picture.line(at, end, "#888888", 0.7)
        self.keep_box(box)
        self.picture.words((box[0] + box[2]) / 2, (box[1] + box[3]) / 2 + size * 0.36, words, size, anchor="middle",
                           weight=weight, halo=True, fill=fill)
