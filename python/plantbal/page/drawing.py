"""The drawing of a round: arrows as wide as their tonnes, classes by dash, sign and colour."""

from __future__ import annotations

from collections.abc import Iterable, Mapping, Sequence
from dataclasses import dataclass
from math import hypot

from plantbal.amounts import tonnes_text
from plantbal.faults import Fault
from plantbal.model.topology import Arc
from plantbal.page.layout import Box, Layout, Plan, Point, Route, layout_of, near, plan_of
from plantbal.page.statement import StreamLine
from plantbal.sentence import Figure, Sentence, phrase

# Above this many streams the neighbourhood of one is drawn.
MOST = 60
THINNEST, WIDEST = 1.2, 9.0
# A drawing is scrolled rather than made smaller than this; a narrow one stays larger.
LEAST, LARGE, NARROW = 0.85, 1.2, 640.0


@dataclass(frozen=True, slots=True)
class ClassLook:
    """A class of streams: its sign, its dash, and what it means."""

    sign: str
    dash: str
    about: str


KINDS: dict[str, ClassLook] = {
    "redundant": ClassLook("●", "", "measured, and checked by the other meters"),
    "nonredundant": ClassLook("○", "9 4", "measured, and checked by nothing"),
    "observable": ClassLook("△", "5 3", "not measured, and determined by the meters"),
    "unobservable": ClassLook(
        "?", "1.5 3.5", "not measured, and determined by nothing: no figure to book"
    ),
}


@dataclass(frozen=True, slots=True)
class Arrow:
    """A stream as it is drawn."""

    line: StreamLine
    width: float
    path: str
    head: str
    label: Point
    figure: str


@dataclass(frozen=True, slots=True)
class DrawnNode:
    """A unit or a tank as it is drawn; a tank has its line."""

    box: Box
    line: StreamLine | None
    figure: str


@dataclass(frozen=True, slots=True)
class Drawing:
    """A drawing, or why there is none.

    Attributes
    ----------
    why : str
        Why there is none; empty if there is one.
    chosen : str
        The stream whose neighbourhood it is; empty if it is of the whole plant.
    widest : int
        The tonnes of the widest arrow that could be, in grams.
    """

    width: float = 0
    height: float = 0
    nodes: Sequence[DrawnNode] = ()
    arrows: Sequence[Arrow] = ()
    why: str = ""
    chosen: str = ""
    widest: int = 0

    @property
    def least_scale(self) -> float:
        """By how much it may be made smaller to fit: its names have to be read."""
        return max(LEAST, min(LARGE, NARROW / self.width)) if self.width else LEAST


def figure_of(line: StreamLine) -> str:
    """Return the tonnes below a stream's name, or what its meter costs; nothing without both."""
    if line.cost is not None:
        return Sentence("meter: {cost:,}", cost=line.cost)
    if line.flow is None:
        return ""
    sign = "+" if line.is_tank and line.flow > 0 else ""
    return Figure(f"{sign}{tonnes_text(line.flow)} t")


def arcs_of(lines: Iterable[StreamLine]) -> list[Arc]:
    """Return lines as arcs."""
    return [Arc(line.name, line.from_, line.to) for line in lines]


def to_look_at(lines: Sequence[StreamLine]) -> str:
    """Return which stream most needs a look: the greatest suspect, what was taken out, or what is
    adjusted most."""
    marked = [line for line in lines if line.mark]
    if marked:  # of equals the one that is adjusted by the most of its own deviations
        return max(marked, key=lambda line: (line.statistic or 0, abs(line.deviations or 0))).name
    moved = [line for line in lines if line.deviations is not None]
    if moved:
        return max(moved, key=lambda line: abs(line.deviations or 0)).name
    return lines[0].name


class Draftsman:
    """Draws rounds of one page, each plan laid out once.

    Parameters
    ----------
    rounds : iterable of sequences of StreamLine
        The rounds that will be drawn, so that labels have room in all of them.
    seconds : float
        How long all layouts may take together.
    """

    def __init__(self, rounds: Iterable[Sequence[StreamLine]], seconds: float = 10) -> None:
        self.seconds = seconds
        self._letters: dict[str, int] = {}
        self._layouts: dict[Plan, Layout] = {}
        self._why = ""
        for lines in rounds:
            for line in lines:
                room = len(figure_of(line))
                if room > self._letters.get(line.name, 0):
                    self._letters[line.name] = room

    def draw(self, lines: Sequence[StreamLine], chosen: str = "") -> Drawing:
        """Return the drawing of a round.

        Parameters
        ----------
        lines : sequence of StreamLine
            Its streams and tanks.
        chosen : str
            Whose neighbourhood is drawn if the plant is large.
        """
        if not lines:
            return Drawing(why=phrase("there is nothing to draw"))
        arcs = arcs_of(lines)
        widest = max((abs(line.flow) for line in lines if line.flow is not None), default=0)
        name = ""
        if len(arcs) > MOST:
            name = chosen or to_look_at(lines)
            arcs = near(arcs, name, MOST)
        try:
            layout = self._layout(plan_of(arcs, self._letters))
        except Fault as fault:
            self._why = self._why or fault.sentence
            return Drawing(why=self._why, chosen=name, widest=widest)
        return _drawn(layout, {line.name: line for line in lines}, name, widest)

    def _layout(self, plan: Plan) -> Layout:
        """Return the layout of a plan, and keep it."""
        if self._why:
            raise Fault(self._why)
        if plan not in self._layouts:
            import time

            begin = time.monotonic()
            self._layouts[plan] = layout_of(plan, max(self.seconds, 0.001))
            self.seconds -= time.monotonic() - begin
        return self._layouts[plan]


def width_of(line: StreamLine, widest: int) -> float:
    """Return the width of an arrow: it grows with its tonnes."""
    if line.flow is None or not widest:
        return THINNEST
    return round(THINNEST + (WIDEST - THINNEST) * abs(line.flow) / widest, 2)


def _drawn(layout: Layout, lines: Mapping[str, StreamLine], chosen: str, widest: int) -> Drawing:
    nodes = []
    for box in layout.boxes:
        tank = lines.get(box.name) if box.is_tank else None
        nodes.append(DrawnNode(box, tank, figure_of(tank) if tank is not None else ""))
    arrows = [_arrow(route, lines[route.name], widest) for route in layout.routes]
    # a wide arrow is drawn below a narrow one
    arrows.sort(key=lambda arrow: -arrow.width)
    return Drawing(layout.width, layout.height, nodes, arrows, "", chosen, widest)


def _arrow(route: Route, line: StreamLine, widest: int) -> Arrow:
    width = width_of(line, widest)
    first, *rest = route.points
    curve = " ".join(f"{x:g},{y:g}" for x, y in rest)
    path = f"M{first[0]:g},{first[1]:g} C{curve}"
    return Arrow(line, width, path, _head(route, width), route.label, figure_of(line))


def _head(route: Route, width: float) -> str:
    """Return the corners of an arrow's head."""
    (x0, y0), (x1, y1) = route.points[-1], route.tip
    length = hypot(x1 - x0, y1 - y0)
    if not length:
        return ""
    across = max(3.5, 0.55 * width + 2.5)
    dx, dy = (x1 - x0) / length * across, (y1 - y0) / length * across
    corners = ((x1, y1), (x0 - dy, y0 + dx), (x0 + dy, y0 - dx))
    return " ".join(f"{x:.1f},{y:.1f}" for x, y in corners)
