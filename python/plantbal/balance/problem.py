"""Flows and grades to be reconciled together: the plant, what was measured of it, and the variables.

A flow and a grade that are both unknown meet in a product, which makes the problem bilinear. Where
nobody assayed a stream its grade isn't a variable: what the stream carries of the component is
(Crowe's transformation), and the balances are linear in that.
"""

from __future__ import annotations

from collections.abc import Mapping, Sequence
from dataclasses import dataclass, field
from functools import cached_property

from plantbal.faults import Fault, InputFault, Place
from plantbal.sentence import Sentence

ENV = "env"


@dataclass(frozen=True, slots=True)
class Measured:
    """A measured figure.

    Attributes
    ----------
    value, variance : float
        The figure, and the variance of its error: tonnes and squared tonnes of a flow, fractions
        and squared fractions of a grade.
    place : Place
        Where it stands, to be said if it can't be.
    """

    value: float
    variance: float
    place: Place = field(default=Place(), compare=False)


@dataclass(frozen=True, slots=True)
class Flow:
    """A stream of the plant, or what a tank gains.

    Attributes
    ----------
    name, start, end : str
        Its name, and the nodes that it joins; ``env`` is the world outside.
    measured : Measured, optional
        Its amount in tonnes.
    either_way : bool
        Whether it may flow against its arrow, as the gain of a tank may.
    only : str
        The component that is all that flows, such as the water of a process, if it isn't counted in
        the mass of the others: the stream has no part in the balance of mass, and ``measured`` is
        of the component.
    """

    name: str
    start: str
    end: str
    measured: Measured | None = None
    either_way: bool = False
    only: str = ""


@dataclass(frozen=True)
class Problem:
    """A plant, its flows, and the grades that were assayed.

    Attributes
    ----------
    flows : sequence of Flow
        The streams, each name once.
    components : sequence of str
        The components that are balanced.
    grades : mapping of (str, str) to Measured
        The grade of a component in a stream, as a fraction, by the names of stream and component.
    closed : frozenset of str
        The streams whose components sum to the whole stream.
    ratios : frozenset of str
        The components that aren't part of the stream but come beside it, such as the water of a
        pulp whose flow is that of its solids: their grades may be above 100 %.

    Raises
    ------
    Fault
        If a name appears twice or isn't known, or a figure can't be one.
    """

    flows: Sequence[Flow]
    components: Sequence[str] = ()
    grades: Mapping[tuple[str, str], Measured] = field(default_factory=dict)
    closed: frozenset[str] = frozenset()
    ratios: frozenset[str] = frozenset()

    def __post_init__(self) -> None:
        names: set[str] = set()
        for flow in self.flows:
            if flow.name in names:
                raise Fault(
                    Sentence("the stream {name} appears twice", name=flow.name),
                    remedy="give each its own name",
                )
            names.add(flow.name)
            if flow.start == flow.end:
                raise Fault(
                    Sentence(
                        "the stream {name} begins and ends at {node}",
                        name=flow.name,
                        node=flow.start,
                    ),
                    remedy="a stream joins two different nodes: correct its ends",
                )
            if flow.measured and not flow.measured.variance > 0:
                raise InputFault(
                    Sentence("the flow of {name} has no error", name=flow.name),
                    place=flow.measured.place,
                    remedy="give the standard deviation of its measurement",
                )
        _check_grades(self, names)

    @cached_property
    def nodes(self) -> list[str]:
        """The nodes at which something is balanced, in the order of the streams; not ``env``."""
        found = dict.fromkeys(end for flow in self.flows for end in (flow.start, flow.end))
        return [node for node in found if node != ENV]

    @cached_property
    def place(self) -> dict[str, int]:
        """The place of each stream."""
        return {flow.name: place for place, flow in enumerate(self.flows)}

    @cached_property
    def alone(self) -> frozenset[str]:
        """The streams that have no mass of their own, only a component beside it."""
        return frozenset(flow.name for flow in self.flows if flow.only)

    def incidence(self, component: str = "") -> list[tuple[int, int, float]]:
        """Return the entries of a balance, of mass without a component: node, stream, and 1 if it
        flows in, -1 if out.

        Each part of the plant that isn't joined to ``env`` leaves out its first node, since its
        balance follows from those of the others.
        """
        rows = {node: row for row, node in enumerate(self.balanced_nodes)}
        return [
            (rows[node], column, sign)
            for column, flow in enumerate(self.flows)
            if flow.only in ("", component)
            for node, sign in ((flow.start, -1.0), (flow.end, 1.0))
            if node in rows
        ]

    @cached_property
    def balanced_nodes(self) -> list[str]:
        """The nodes whose balances are asked: none follows from the others."""
        part: dict[str, str] = {}

        def root(node: str) -> str:
            while part.setdefault(node, node) != node:
                part[node] = part[part[node]]
                node = part[node]
            return node

        for flow in self.flows:
            first, second = root(flow.start), root(flow.end)
            if first != second:
                # ``env`` stays the root of its part
                low, high = (first, second) if second == root(ENV) else (second, first)
                part[low] = high
        left_out = {root(node) for node in self.nodes}
        return [node for node in self.nodes if node not in left_out]


def water_of(solids: Measured) -> Measured:
    """Return the water beside a tonne of solids, by the part of a pulp that is solids.

    Raises
    ------
    Fault
        If the part is 0, or above 100 %.
    """
    part = solids.value
    if not 0 < part <= 1:
        raise InputFault(
            Sentence("{percent:g} % can't be the solids of a pulp", percent=part * 100),
            place=solids.place,
            remedy="the part of a pulp that is solids is above 0 and at most 100 %: look at its unit",
        )
    return Measured((1 - part) / part, solids.variance / part**4, solids.place)


def solids_of(density: Measured, of_solids: float, of_water: float = 1.0) -> Measured:
    """Return the part of a pulp that is solids, by mass, by its density and that of dry solids.

    Raises
    ------
    Fault
        If the density isn't between that of water and that of the solids.
    """
    if not of_water < density.value <= of_solids:
        raise InputFault(
            Sentence(
                "a pulp of {density:g} t/m3 isn't between water and solids of {solids:g} t/m3",
                density=density.value,
                solids=of_solids,
            ),
            place=density.place,
            remedy="look at its unit: t/m3, the same for all three",
        )
    part = of_solids * (density.value - of_water) / (density.value * (of_solids - of_water))
    slope = of_solids * of_water / (density.value**2 * (of_solids - of_water))
    return Measured(part, density.variance * slope**2, density.place)


def _check_grades(problem: Problem, names: set[str]) -> None:
    """Refuse grades that can't be."""
    for (stream, component), grade in problem.grades.items():
        if stream not in names:
            what = f"an assay names {stream}, which isn't a stream"
            raise InputFault(what, place=grade.place, remedy="correct its name")
        if component not in problem.components:
            raise InputFault(
                Sentence(
                    "an assay of {stream} names {component}, which isn't balanced",
                    stream=stream,
                    component=component,
                ),
                place=grade.place,
                remedy="name the component among those to be balanced, or leave the assay out",
            )
        if grade.value < 0 or (grade.value > 1 and component not in problem.ratios):
            raise InputFault(
                Sentence(
                    "{component} in {stream} is {percent:g} %",
                    component=component,
                    stream=stream,
                    percent=grade.value * 100,
                ),
                place=grade.place,
                remedy="a grade is between 0 and 100 %: look at its unit",
            )
        if not grade.variance > 0:
            raise InputFault(
                Sentence(
                    "the assay of {component} in {stream} has no error",
                    component=component,
                    stream=stream,
                ),
                place=grade.place,
                remedy="give its standard deviation",
            )
    for component in problem.components:
        streams = [stream for stream, other in problem.grades if other == component]
        streams += [flow.name for flow in problem.flows if flow.only == component and flow.measured]
        if len(streams) < 2:
            form = "{component} was assayed nowhere"
            if streams:
                form = "{component} was assayed in {stream} alone"
            known = (each for key, each in problem.grades.items() if key[1] == component)
            raise InputFault(
                Sentence(form, component=component, stream="".join(streams)),
                place=next((each.place for each in known), None),
                remedy="a balance needs the grades of two streams at least: add assays",
            )
    for flow in problem.flows:
        own = [
            grade
            for (name, component), grade in problem.grades.items()
            if name == flow.name and component not in problem.ratios
        ]
        total = sum(grade.value for grade in own)
        slack = 3 * sum(grade.variance for grade in own) ** 0.5
        if total > 1 + slack:
            raise InputFault(
                Sentence(
                    "the assays of {name} sum to {percent:.2f} %",
                    name=flow.name,
                    percent=total * 100,
                ),
                place=own[-1].place,
                remedy="the components are parts of the stream: look at their units",
            )


def scale_of(problem: Problem) -> float:
    """Return the greatest measured flow, in which the others are counted.

    Raises
    ------
    Fault
        If no flow was measured.
    """
    sizes = [abs(flow.measured.value) for flow in problem.flows if flow.measured and not flow.only]
    if not sizes or not max(sizes) > 0:
        raise Fault(
            "no flow was measured",
            remedy="grades give only the parts of a flow: measure one, or enter its amount",
        )
    return max(sizes)
