"""How good a total is: its standard deviation, from the covariance of the reconciled flows.

A total is a sum of flows, of measured values and of what tanks held by their opening dips, each
with a coefficient. Least squares make the flows linear in what was measured, so the total answers
to each measurement by a slope, and its variance is the sum of the slopes' squares times the
variances. Flows of one period lean on the same meters: to add up their own variances would be
wrong, mostly by far.

Flows that nothing determines may still have a sum that is determined. Balances of nodes are added
to the total, each with the number that takes the unmeasured streams of a spanning tree out of it.
If an unmeasured stream is left then, nothing determines the total.

What a tank gains is measured by two dips, of which one closes the period before, and one opens the
next. So the slopes of several periods are added up by what was really measured, dips by their tanks
and days, before they are squared. That is why a closing stock is better known than the sum of an
opening stock and a gain, and why the errors of months don't pile up in a stock.
"""

from __future__ import annotations

from collections import defaultdict
from collections.abc import Hashable, Iterable, Mapping, Sequence
from dataclasses import dataclass, field
from functools import cached_property
from typing import Any

from plantbal.accounts.month import Month
from plantbal.study.plant import NumberedPlant
from plantbal.study.uncertainty import answers_to, plant_in

Terms = Mapping[str, float]


@dataclass(frozen=True)
class Sum:
    """A sum of what a period has, by coefficients.

    Attributes
    ----------
    flows : dict of str to float
        Of flows and of tanks' gains.
    values : dict of str to float
        Of what was measured.
    dips, ends : dict of str to float
        Of what tanks held by their opening and by their closing dips.
    is_unknown : bool
        Whether something is in it that no dip and no flow says.
    """

    flows: Terms = field(default_factory=dict)
    values: Terms = field(default_factory=dict)
    dips: Terms = field(default_factory=dict)
    ends: Terms = field(default_factory=dict)
    is_unknown: bool = False

    def plus(self, other: Sum, times: float = 1) -> Sum:
        """Return the sum of this one and of a multiple of another."""
        parts = (
            (self.flows, other.flows),
            (self.values, other.values),
            (self.dips, other.dips),
            (self.ends, other.ends),
        )
        flows, values, dips, ends = (_added(one, two, times) for one, two in parts)
        return Sum(flows, values, dips, ends, self.is_unknown or other.is_unknown)

    @staticmethod
    def total(parts: Iterable[Sum]) -> Sum:
        """Return the sum of some: what each adds goes into one table, however many there are."""
        found: tuple[dict[str, float], ...] = tuple(defaultdict(float) for _ in range(4))
        is_unknown = False
        for part in parts:
            for into, terms in zip(found, (part.flows, part.values, part.dips, part.ends)):
                for name, number in terms.items():
                    into[name] += number
            is_unknown = is_unknown or part.is_unknown
        flows, values, dips, ends = (
            {name: number for name, number in each.items() if number} for each in found
        )
        return Sum(flows, values, dips, ends, is_unknown)


def _added(one: Terms, other: Terms, times: float) -> Terms:
    found = defaultdict(float, one)
    for name, number in other.items():
        found[name] += times * number
    return {name: number for name, number in found.items() if number}


# Sums by the places of their periods.
Across = Mapping[int, Sum]
# What was measured: a dip by its tank and day, anything else by its period and name.
Source = Hashable
Slopes = dict[Source, float]


class Spread:
    """How sums of a period answer to what was measured.

    Parameters
    ----------
    month : Month
        The period, with its report.

    Attributes
    ----------
    variances : dict of Source to float
        The variances of what was measured, in squared grams.
    """

    def __init__(self, month: Month) -> None:
        self.month = month
        self.variances: dict[Source, float] = {}

    @cached_property
    def _plant(self) -> NumberedPlant | None:
        return None if self.month.block is None else plant_in(self.month.block)

    @cached_property
    def _climb(self) -> list[tuple[int, int, int, int]]:
        """The unmeasured streams of a spanning forest, each with the node that it adds.

        Each is the stream's place, the node from which it is reached, the node that it adds, and
        the sign of its direction.
        """
        plant = self._plant
        assert plant is not None
        near: dict[int, list[tuple[int, int, int]]] = defaultdict(list)
        for j, (start, end) in enumerate(plant.ends):
            if plant.value[j] is None:
                near[start].append((j, end, 1))
                near[end].append((j, start, -1))
        seen: set[int] = set()
        order = []
        for root in range(len(plant.names)):
            todo = [] if root in seen else [root]
            seen.add(root)
            while todo:
                node = todo.pop()
                for j, other, sign in near[node]:
                    if other not in seen:
                        seen.add(other)
                        order.append((j, node, other, sign))
                        todo.append(other)
        return order

    @cached_property
    def _climbed(self) -> frozenset[int]:
        """The places of the streams of the spanning forest."""
        return frozenset(j for j, *_ in self._climb)

    @cached_property
    def _columns(self) -> dict[str, int]:
        """The column of each measured stream."""
        plant = self._plant
        assert plant is not None
        return {plant.streams[j]["name"]: at for at, j in enumerate(plant.measured)}

    def _measured(self, flows: Terms) -> dict[int, float] | None:
        """Return a sum of flows as one of measured streams, or None if nothing determines it."""
        plant = self._plant
        assert plant is not None
        weight = {plant.place[name]: number for name, number in flows.items()}
        if self._climbed.isdisjoint(weight):  # no node has a price: the sum is one of these alone
            some = {j: weight[j] for j in sorted(weight) if abs(weight[j]) >= 1e-9}
            return None if any(plant.value[j] is None for j in some) else some
        price = [0.0] * len(plant.names)
        for j, node, other, sign in self._climb:
            price[other] = price[node] + sign * weight.get(j, 0.0)
        found = {}
        for j, (start, end) in enumerate(plant.ends):
            rest = weight.get(j, 0.0) - (price[end] - price[start])
            if abs(rest) < 1e-9:
                continue
            if plant.value[j] is None:
                return None
            found[j] = rest
        return found

    def slopes(self, sums: Sequence[Sum]) -> list[Slopes | None]:
        """Return how sums answer to what was measured; None of one that nothing determines."""
        import numpy
        from scipy import sparse

        plant = self._plant
        if plant is None:
            return [None] * len(sums)
        row = {j: at for at, j in enumerate(plant.measured)}
        found = [None if each.is_unknown else self._measured(each.flows) for each in sums]
        entries = [
            (number, row[j], column)
            for column, members in enumerate(found)
            for j, number in (members or {}).items()
        ]
        signs, rows, columns = zip(*entries) if entries else ((), (), ())
        weights = sparse.csc_matrix((signs, (rows, columns)), shape=(len(row), len(sums)))
        variance = numpy.array([float(plant.variance[j]) for j in plant.measured])
        answers = answers_to(plant, variance, weights) if row else numpy.zeros((0, len(sums)))
        return [
            None if members is None else self._sources(each, answers[:, column])
            for column, (each, members) in enumerate(zip(sums, found))
        ]

    def _sources(self, each: Sum, answers: Any) -> Slopes:
        """Return the slopes of a sum by what was really measured."""
        plant = self._plant
        assert plant is not None
        found: Slopes = defaultdict(float)
        places = {self._columns[name] for name in each.values if name in self._columns}
        for at in sorted(places.union(answers.nonzero()[0].tolist())):
            j = plant.measured[at]
            name = plant.streams[j]["name"]
            slope = float(answers[at]) + each.values.get(name, 0.0)
            if not slope:
                continue
            variance = float(plant.variance[j])
            gain = self.month.gains.get(name)
            if gain is not None:
                variance -= gain.opening_variance + gain.closing_variance
                found[self._dip(name, opens=True)] -= slope
                found[self._dip(name, opens=False)] += slope
            source = self.month.name, name
            self.variances[source] = max(variance, 0.0)
            found[source] += slope
        for terms, opens in ((each.dips, True), (each.ends, False)):
            for tank, number in terms.items():
                found[self._dip(tank, opens)] += number
        return found

    def _dip(self, tank: str, opens: bool) -> Source:
        """Return a dip of a tank as what was measured."""
        gain = self.month.gains[tank]
        day = gain.opening_day if opens else gain.closing_day
        source = "dip", tank, day
        self.variances[source] = float(gain.opening_variance if opens else gain.closing_variance)
        return source


def deviations(months: Sequence[Month], wanted: Sequence[Across]) -> list[float | None]:
    """Return the standard deviations of sums over periods, in grams.

    Parameters
    ----------
    months : sequence of Month
        The periods.
    wanted : sequence of Across
        The sums.

    Returns
    -------
    list of float or None
        None of a sum that nothing determines, or of a period without a report.
    """
    totals: list[Slopes | None] = [defaultdict(float) for _ in wanted]
    variances: dict[Source, float] = {}
    for at in sorted({at for each in wanted for at in each}):
        places = [place for place, each in enumerate(wanted) if at in each]
        spread = Spread(months[at])
        for place, slopes in zip(places, spread.slopes([wanted[place][at] for place in places])):
            total = totals[place]
            if slopes is None or total is None:
                totals[place] = None
                continue
            for source, slope in slopes.items():
                total[source] += slope
        variances |= spread.variances
    return [
        None
        if total is None
        else sum(slope**2 * variances[source] for source, slope in total.items()) ** 0.5
        for total in totals
    ]
