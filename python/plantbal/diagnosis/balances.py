"""The balances that the measurements of a period leave open, and how sure each of them is.

Nodes that unmeasured streams join have one balance together. Let A have a row for each measured
stream and a column for each such set of nodes, with 1 where the stream comes in and -1 where it
goes out; y the values and V their variances. Then r = A'y is what doesn't close, and its covariance
is S = A'VA. The least weighted squares of balanced flows are r'S^-1 r, the statistic of the global
test.
"""

from __future__ import annotations

from collections.abc import Collection, Iterable, Mapping, Sequence
from dataclasses import dataclass
from functools import cached_property
from math import sqrt
from typing import TYPE_CHECKING, Any

from plantbal.faults import ToolMissing
from plantbal.study.plant import Labels
from plantbal.model.topology import Arc

if TYPE_CHECKING:
    from plantbal.report.blocks import Block
    from plantbal.model.studies import StreamMeasurement

# What carries the balance that follows from the others: its number among the sets of nodes.
GROUND = -1
# The numbers of two sets of nodes, in order: the ends of a measured stream, whichever way it leads.
Pair = tuple[int, int]


@dataclass(frozen=True, slots=True)
class Measurement:
    """A stream or a tank's gain with its value.

    Attributes
    ----------
    arc : Arc
        The stream.
    grams, variance : int
        Its value in grams, and the variance of it.
    """

    arc: Arc
    grams: int
    variance: int

    @property
    def name(self) -> str:
        """The name of the stream."""
        return self.arc.name

    @property
    def is_tank(self) -> bool:
        """Whether it is what a tank gains."""
        return self.arc.name == self.arc.from_

    @property
    def deviation(self) -> float:
        """Its standard deviation in grams."""
        return sqrt(self.variance)


@dataclass(frozen=True, slots=True)
class Balance:
    """What doesn't close at a node, or at a set of nodes that unmeasured streams join.

    Attributes
    ----------
    nodes : tuple of str
        The nodes.
    grams : int
        What comes in less what goes out, by the measurements.
    variance : int
        The variance of it.
    through : tuple of Measurement
        The measured streams that come in or go out.
    """

    nodes: tuple[str, ...]
    grams: int
    variance: int
    through: tuple[Measurement, ...]

    @property
    def deviations(self) -> float:
        """What doesn't close, in its standard deviations."""
        return self.grams / sqrt(self.variance)

    def percents(self) -> dict[str, float]:
        """Return what doesn't close in percent of each stream, of those that carry anything."""
        return {
            each.name: 100 * abs(self.grams) / abs(each.grams)
            for each in self.through
            if each.grams
        }


class Balances:
    """The balances of a period's measurements.

    Parameters
    ----------
    nodes : iterable of str
        The nodes, ``env`` the first of them.
    arcs : iterable of Arc
        The streams, and the gains of the tanks.
    values : mapping of str to (int, int)
        The values and variances of those that are measured, by their names.
    """

    def __init__(
        self, nodes: Iterable[str], arcs: Iterable[Arc], values: Mapping[str, tuple[int, int]]
    ) -> None:
        self.nodes = list(nodes)
        self.arcs = list(arcs)
        self.measured = {
            arc.name: Measurement(arc, values[arc.name][0], max(1, values[arc.name][1]))
            for arc in self.arcs
            if arc.name in values
        }
        self._sets = self._numbered()

    @classmethod
    def of_block(cls, block: Block) -> Balances:
        """Return the balances of a round of a report."""
        streams = block.streams
        arcs = [Arc(row["name"], row["from"], row["to"]) for row in streams]
        values = {
            row["name"]: (int(row["value"]), int(row["variance"]))
            for row in streams
            if row["value"]
        }
        ends = (end for arc in arcs for end in (arc.from_, arc.to))  # of a report that was edited
        return cls(dict.fromkeys([*(row["name"] for row in block.nodes), *ends]), arcs, values)

    @classmethod
    def of_measured(cls, nodes: Sequence[str], found: Iterable[StreamMeasurement]) -> Balances:
        """Return the balances of what facts give the streams of a period."""
        some = list(found)
        values = {
            each.arc.name: (each.value, each.variance or 0)
            for each in some
            if each.value is not None
        }
        return cls(nodes, [each.arc for each in some], values)

    def _numbered(self) -> dict[str, int]:
        """Return the number of the set that each node is in; that of ``env`` is the ground."""
        place = {name: number for number, name in enumerate(self.nodes)}
        together, joined = Labels(len(place)), Labels(len(place))
        for arc in self.arcs:
            together.join(place[arc.from_], place[arc.to])
            if arc.name not in self.measured:
                joined.join(place[arc.from_], place[arc.to])
        # a part of the plant that nothing joins to env has a ground of its own: its first node's set
        grounds = {joined.of(together.of(number)) for number in place.values()}
        roots = (joined.of(number) for number in place.values())
        kept = [root for root in dict.fromkeys(roots) if root not in grounds]
        numbers = {root: number for number, root in enumerate(kept)}
        return {name: numbers.get(joined.of(number), GROUND) for name, number in place.items()}

    @property
    def freedom(self) -> int:
        """How many balances test the measurements: the degrees of freedom."""
        return len(self.sets)

    @cached_property
    def sets(self) -> list[tuple[str, ...]]:
        """The sets of nodes with a balance each, in the order of their first nodes."""
        found: dict[int, list[str]] = {}
        for name, number in self._sets.items():
            if number != GROUND:
                found.setdefault(number, []).append(name)
        return [tuple(found[number]) for number in sorted(found)]

    def set_of(self, node: str) -> int:
        """Return the number of the set that a node is in."""
        return self._sets[node]

    def ends(self, arc: Arc) -> tuple[int, int]:
        """Return the numbers of the sets that a stream leads from and to."""
        return self._sets[arc.from_], self._sets[arc.to]

    def pair(self, arc: Arc) -> Pair | None:
        """Return the sets that a stream lies between, in order; None if it is in no balance."""
        one, other = self.ends(arc)
        if one == other:
            return None
        return (one, other) if one < other else (other, one)

    def sign(self, arc: Arc) -> int:
        """Return 1 if a stream leads from the first of its pair to the second, and else -1."""
        one, other = self.ends(arc)
        return 1 if one < other else -1

    def without(self, names: Collection[str]) -> Balances:
        """Return the balances that are left if some streams count as not measured."""
        values = {
            name: (each.grams, each.variance)
            for name, each in self.measured.items()
            if name not in names
        }
        return Balances(self.nodes, self.arcs, values)

    # ---- what doesn't close

    @cached_property
    def open(self) -> list[Balance]:
        """The balances in the order of their sets."""
        net, variance = [0] * self.freedom, [0] * self.freedom
        through: list[list[Measurement]] = [[] for _ in net]
        for each in self.measured.values():
            start, end = self.ends(each.arc)
            for number, sign in ((start, -1), (end, 1)) if start != end else ():
                if number != GROUND:
                    net[number] += sign * each.grams
                    variance[number] += each.variance
                    through[number].append(each)
        return [
            Balance(nodes, net[number], variance[number], tuple(through[number]))
            for number, nodes in enumerate(self.sets)
        ]

    def ranked(self) -> list[Balance]:
        """Return the balances, those first that are off by the most standard deviations."""
        return sorted(self.open, key=lambda each: -abs(each.deviations))

    # ---- the covariance

    @cached_property
    def imbalance(self) -> Any:
        """What doesn't close, as an array of floats."""
        import numpy

        return numpy.array([float(each.grams) for each in self.open])

    @cached_property
    def inverse(self) -> Any:
        """The inverse of the covariance of what doesn't close."""
        try:
            import numpy
            from scipy import linalg
        except ImportError as error:
            raise ToolMissing("scipy", "python3-scipy") from error
        count = self.freedom
        matrix = numpy.zeros((count, count))
        for each in self.measured.values():
            one, other = self.ends(each.arc)
            if one == other:
                continue
            for row, column, sign in (
                (one, one, 1),
                (other, other, 1),
                (one, other, -1),
                (other, one, -1),
            ):
                if row != GROUND and column != GROUND:
                    matrix[row, column] += sign * float(each.variance)
        # each unknown by its own size: variances may differ by many powers of ten
        scale = 1 / numpy.sqrt(matrix.diagonal())
        scaled = matrix * scale[:, None] * scale
        try:
            found = linalg.cho_solve(linalg.cho_factor(scaled), numpy.identity(count))
        except linalg.LinAlgError:
            found = linalg.pinvh(scaled)
        return found * scale[:, None] * scale

    @cached_property
    def pulls(self) -> Any:
        """The inverse of the covariance times what doesn't close."""
        return self.inverse @ self.imbalance

    @property
    def statistic(self) -> float:
        """The least weighted squares of balanced flows."""
        return float(self.imbalance @ self.pulls)
