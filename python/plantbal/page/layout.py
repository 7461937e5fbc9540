"""Places of units, tanks and streams on a drawing, by `dot` of Graphviz, within a limit of time."""

from __future__ import annotations

import json
import subprocess
from collections.abc import Iterable, Mapping, Sequence
from dataclasses import dataclass

from plantbal.faults import Fault, Hindered, ToolMissing
from plantbal.model.topology import Arc

# Points a letter takes, of the fonts that browsers have.
LETTER = 7.0
NODE_HEIGHT, TANK_HEIGHT, LABEL_HEIGHT = 26.0, 44.0, 26.0
INCH = 72.0
ENV = "env"
Point = tuple[float, float]


class TooLong(Fault):
    """A layout that isn't done within its time."""


@dataclass(frozen=True, slots=True)
class Box:
    """A unit or a tank: its middle and its size, in points from the upper left corner."""

    name: str
    x: float
    y: float
    width: float
    height: float
    is_tank: bool = False

    @property
    def left(self) -> float:
        """Its left edge."""
        return self.x - self.width / 2

    @property
    def top(self) -> float:
        """Its upper edge."""
        return self.y - self.height / 2


@dataclass(frozen=True, slots=True)
class Route:
    """An arrow: the points of its curve, its tip, and the middle of its label."""

    name: str
    points: tuple[Point, ...]
    tip: Point
    label: Point


@dataclass(frozen=True, slots=True)
class Layout:
    """Where everything is: the size of the whole, the boxes and the arrows."""

    width: float
    height: float
    boxes: tuple[Box, ...]
    routes: tuple[Route, ...]


@dataclass(frozen=True, slots=True)
class Plan:
    """What is to be placed, so that drawings of one plant share one layout.

    Attributes
    ----------
    arcs : tuple of Arc
        The streams; a tank's gain leads from the tank to itself by its name.
    nodes : tuple of str
        The units and tanks.
    tanks : frozenset of str
        Which nodes are tanks.
    letters : tuple of int
        How many letters the label of each stream has room for.
    """

    arcs: tuple[Arc, ...]
    nodes: tuple[str, ...]
    tanks: frozenset[str]
    letters: tuple[int, ...]


def plan_of(arcs: Iterable[Arc], letters: Mapping[str, int]) -> Plan:
    """Return the plan of streams and tanks.

    Parameters
    ----------
    arcs : iterable of Arc
        The streams, and the gains of tanks, each from its tank to ``env``.
    letters : mapping
        How many letters the figure below a stream's name may have.
    """
    found = list(arcs)
    tanks = frozenset(arc.name for arc in found if arc.name == arc.from_)
    streams = tuple(arc for arc in found if arc.name not in tanks)
    ends = [end for arc in found for end in (arc.from_, arc.to)]
    nodes = tuple(name for name in dict.fromkeys(ends) if name != ENV)
    room = tuple(max(len(arc.name) + 2, letters.get(arc.name, 0)) for arc in streams)
    return Plan(streams, nodes, tanks, room)


def _node(number: int, name: str, is_tank: bool) -> str:
    height = TANK_HEIGHT if is_tank else NODE_HEIGHT
    width = max(60.0, LETTER * (len(name) + 2), LETTER * 16 if is_tank else 0)
    return f'  n{number} [width="{width / INCH:.4f}", height="{height / INCH:.4f}"]'


def _edge(plan: Plan, number: int, numbers: Mapping[str, int]) -> list[str]:
    """Return the lines of a stream; its end in `env` is a point of its own."""
    arc, lines, ends = plan.arcs[number], [], []
    for place, end in (("a", arc.from_), ("z", arc.to)):
        if end == ENV:
            lines.append(f'  {place}{number} [width="0.05", height="0.05"]')
        ends.append(f"{place}{number}" if end == ENV else f"n{numbers[end]}")
    size = f'WIDTH="{LETTER * plan.letters[number]:.0f}" HEIGHT="{LABEL_HEIGHT:.0f}"'
    table = f'<TABLE BORDER="0" CELLBORDER="0" FIXEDSIZE="TRUE" {size}><TR><TD></TD></TR></TABLE>'
    return [*lines, f'  {ends[0]} -> {ends[1]} [id="{number}", label=<{table}>]']


def dot_of(plan: Plan) -> str:
    """Return a plan as Graphviz reads it; names stand as numbers, labels as boxes of their size."""
    numbers = {name: number for number, name in enumerate(plan.nodes)}
    lines = [
        "digraph plant {",
        '  graph [rankdir="LR", nodesep="0.12", ranksep="0.3"]',
        '  node [shape="box", fixedsize="true", label=""]',
    ]
    lines += [_node(number, name, name in plan.tanks) for name, number in numbers.items()]
    for number in range(len(plan.arcs)):
        lines += _edge(plan, number, numbers)
    return "\n".join([*lines, "}"]) + "\n"


def _point(text: str, height: float) -> Point:
    x, y = text.split(",")[-2:]
    return round(float(x), 1), round(height - float(y), 1)


def layout_of(plan: Plan, seconds: float) -> Layout:
    """Return where `dot` puts the parts of a plan.

    Raises
    ------
    TooLong
        If it takes more than that many seconds.
    ToolMissing
        If there is no `dot`.
    """
    try:
        done = subprocess.run(
            ["dot", "-Tjson0"],
            input=dot_of(plan).encode("ascii"),
            stdout=subprocess.PIPE,
            stderr=subprocess.DEVNULL,
            timeout=seconds,
            check=True,
        )
    except FileNotFoundError as error:
        raise ToolMissing("`dot`", "graphviz") from error
    except subprocess.TimeoutExpired as error:
        raise TooLong(f"the layout of the drawing took more than {seconds:g} s") from error
    except subprocess.CalledProcessError as error:
        raise Hindered(f"dot ended with the status {error.returncode}") from error
    return _read(plan, json.loads(done.stdout))


def _read(plan: Plan, found: dict[str, object]) -> Layout:
    """Return the layout that `dot` wrote as JSON."""
    bounds = str(found["bb"]).split(",")
    width, height = float(bounds[2]), float(bounds[3])
    objects = found.get("objects", [])
    edges = found.get("edges", [])
    assert isinstance(objects, list) and isinstance(edges, list)
    boxes = []
    for each in objects:
        if each["name"].startswith("n"):
            name = plan.nodes[int(each["name"][1:])]
            x, y = _point(each["pos"], height)
            size = float(each["width"]) * INCH, float(each["height"]) * INCH
            boxes.append(Box(name, x, y, *size, name in plan.tanks))
    routes = [_route(plan.arcs[int(each["id"])].name, each, height) for each in edges]
    return Layout(round(width, 1), round(height, 1), tuple(boxes), tuple(routes))


def _route(name: str, edge: Mapping[str, str], height: float) -> Route:
    """Return the arrow of an edge."""
    points: list[Point] = []
    tip: Point | None = None
    for text in edge["pos"].split(";")[0].split():
        if text.startswith("e,"):
            tip = _point(text, height)
        elif not text.startswith("s,"):
            points.append(_point(text, height))
    label = _point(edge["lp"], height) if "lp" in edge else points[len(points) // 2]
    return Route(name, tuple(points), tip or points[-1], label)


def near(arcs: Sequence[Arc], chosen: str, most: int, steps: int = 2) -> list[Arc]:
    """Return the streams near a chosen one: within some steps, fewer if these streams are too many.

    The streams at its ends are one step away, those at the other ends of these two. ``env`` leads
    nowhere. A tank's gain comes with its tank.

    Parameters
    ----------
    arcs : sequence of Arc
        The streams, and the gains of tanks.
    chosen : str
        The stream, or the tank.
    most : int
        How many streams there may be with more than one step.
    steps : int
        How many steps.
    """
    at: dict[str, list[Arc]] = {}
    for arc in arcs:
        for end in {arc.from_, arc.to} - {ENV}:
            at.setdefault(end, []).append(arc)
    found = [arc for arc in arcs if arc.name == chosen]
    for step in range(steps):
        ends = {end for arc in found for end in (arc.from_, arc.to)} - {ENV}
        names = {arc.name for end in ends for arc in at[end]}
        if step and len(names) > most:
            break
        found = [arc for arc in arcs if arc.name in names]
    ends = {end for arc in found for end in (arc.from_, arc.to)}
    inner = {arc.name for arc in found}
    tanks = {arc.name for arc in arcs if arc.name == arc.from_ and arc.name in ends}
    return [arc for arc in arcs if arc.name in inner | tanks]
