"""The days of an error: the balances of each day, and which course of them an error would take.

A month's readings, tickets and dips are there day by day, so each hole of the month can be looked
at day by day: the ratio of `gross` gives for each day by how much the set of equals is off, and how
sure that is. If tanks at the hole aren't dipped each day, the days between two dips are taken
together. These sizes b are a series with a covariance C of three diagonals, since a dip closes one
day and opens the next.

An error of one kind takes one course x over the days: a wrong ticket or reading is off on its day,
a meter in proportion to its readings from some day on, the dip that closes the month on the last
day alone. The generalized likelihood ratio of a change (Basseville and Nikiforov, Detection of
Abrupt Changes, 1993, chapter 2) is exp(D / 2) with

    D = (x'C^-1 b)^2 / x'C^-1 x,      size  x'C^-1 b / x'C^-1 x,

and the course with the greatest D / 2 is taken, less the logarithm of the number of courses of its
kind (as many as days, or as pairs of days) and less the cost of the candidate (`candidates`).
"""

from __future__ import annotations

from collections.abc import Collection, Iterable, Iterator
from dataclasses import dataclass, replace
from functools import cached_property
from math import log, sqrt
from typing import Any

from plantbal.diagnosis.balances import GROUND, Balances
from plantbal.diagnosis.gross import Hole, Limits, ratio
from plantbal.model.ledger import View, view_of
from plantbal.model.periods import Period
from plantbal.model.plant import Stream
from plantbal.model.state import State
from plantbal.model.studies import StreamMeasurement, measured_in


@dataclass(frozen=True, slots=True)
class Span:
    """Days that are reconciled together, from the first to the last; mostly one day."""

    first: int
    last: int


@dataclass(frozen=True)
class Series:
    """By how much a set of equals is off in each span of days.

    Attributes
    ----------
    spans : list of Span
        The spans in which the set is tested, in order.
    sizes : array
        By how many grams too much leads from the first side of the hole to the second.
    covariance : array
        The covariance of the sizes.
    values : dict of str to array
        The value of each measurement of the set in these spans, in grams.
    """

    spans: list[Span]
    sizes: Any
    covariance: Any
    values: dict[str, Any]

    @cached_property
    def weight(self) -> Any:
        """The inverse of the covariance."""
        from scipy import linalg

        return linalg.pinvh(self.covariance)

    def first_rejected(self, limits: Limits) -> Span | None:
        """Return the first span whose own test of the set rejects, or None.

        The tests of all spans together reject a month without an error as often as one test does.
        """
        critical = replace(limits, measure=0.0).of_one(len(self.spans))
        for place, span in enumerate(self.spans):
            if self.sizes[place] ** 2 > critical * self.covariance[place, place]:
                return span
        return None


class Days:
    """A period day by day.

    Parameters
    ----------
    state : State
        The session.
    view : View
        The period as its report saw it.
    """

    def __init__(self, state: State, view: View) -> None:
        self.state = state
        self.view = view
        self._measured: dict[Span, tuple[list[str], dict[str, StreamMeasurement]]] = {}

    def spans(self, tanks: Iterable[str]) -> list[Span]:
        """Return the days of the period, those between dips of some tanks taken together."""
        period, facts = self.view.period, self.state.facts
        streams = {each.arc.name: each for each in self.view.streams}
        some = [streams[tank] for tank in tanks]

        def is_end(day: int) -> bool:
            """Say whether all tanks that are in service then have a dip of a day."""
            open_ = (tank for tank in some if _is_within(tank, period, day))
            return all(facts.has(tank.arc.name, day) for tank in open_)

        ends = [day for day in range(period.first, period.last) if is_end(day)] + [period.last]
        begins = [period.first, *(day + 1 for day in ends[:-1])]
        return [Span(*each) for each in zip(begins, ends)]

    def measured(self, span: Span) -> tuple[list[str], dict[str, StreamMeasurement]]:
        """Return the nodes, and what the facts of a span give the streams.

        The error that a stream has in each period is spread over the days of it.
        """
        found = self._measured.get(span)
        if found is None:
            whole = self.view.period
            part = (span.last - span.first + 1) / (whole.last - whole.first + 1)
            view = view_of(self.state, Period("", span.first, span.last))
            given = measured_in(self.state, view)
            base = {each.arc.name: round(each.base * (1 - part)) for each in view.streams}
            found = self._measured[span] = (
                view.nodes,
                {
                    name: replace(each, variance=max(1, each.variance - base[name]))
                    if each.variance is not None
                    else each
                    for name, each in given.items()
                },
            )
        return found

    def series(self, hole: Hole, others: Collection[str]) -> Series:
        """Return the sizes of a hole by the days.

        Parameters
        ----------
        hole : Hole
            The hole.
        others : collection of str
            The measurements of the other holes, which don't count.
        """
        import numpy

        spans, sizes, parts = [], [], []
        lead = hole.equals.members[0]
        for span in self.spans(_tanks_at(hole, self.view)):
            nodes, measured = self.measured(span)
            counted = [_but(each, others) for each in measured.values()]
            if lead.name not in measured or lead.arc.from_ not in nodes:
                continue
            balances = Balances.of_measured(nodes, counted)
            pair = balances.pair(lead.arc)
            if pair is None or not set(hole.names) <= balances.measured.keys():
                continue
            size, weight = ratio(balances, pair)
            turn = hole.signs[lead.name] * balances.sign(lead.arc)
            spans.append(span)
            sizes.append(turn * size)
            parts.append((turn, weight, _tank_parts(balances, pair, weight)))
        covariance = numpy.diag([1 / weight for _, weight, _ in parts])
        for place in range(len(spans) - 1):
            if spans[place].last + 1 == spans[place + 1].first:
                shared = self._shared(spans[place].last, parts[place], parts[place + 1])
                covariance[place, place + 1] = covariance[place + 1, place] = shared
        values = {
            name: numpy.array([float(self.measured(span)[1][name].value or 0) for span in spans])
            for name in hole.names
        }
        return Series(spans, numpy.array(sizes), covariance, values)

    def _shared(self, day: int, one: _Part, other: _Part) -> float:
        """Return the covariance of two spans' sizes by the dips of the day between them."""
        total = 0.0
        for tank, part in one[2].items():
            dip = self.state.facts.on(tank, day)
            if dip is not None and tank in other[2]:
                total -= part * other[2][tank] * dip.variance
        return one[0] * other[0] * total


# A span's turn of the hole's sides, its weight, and by how much its size answers to tanks' gains.
_Part = tuple[int, float, dict[str, float]]


def _but(each: StreamMeasurement, others: Collection[str]) -> StreamMeasurement:
    return replace(each, value=None, variance=None) if each.arc.name in others else each


def _is_within(tank: Stream, period: Period, day: int) -> bool:
    first, last = tank.ends_of(period)
    return first < day < last


def _tanks_at(hole: Hole, view: View) -> list[str]:
    """Return the tanks with a gain in the balances on both sides of a hole."""
    ends = {node for side in hole.ends for node in side}
    lacking = view.lacking
    return [
        each.arc.name
        for each in view.streams
        if each.kind == "tank" and each.arc.name in ends and each.arc.name not in lacking
    ]


def _tank_parts(balances: Balances, pair: tuple[int, int], weight: float) -> dict[str, float]:
    """Return by how much the size of an error answers to one more gram of each tank's gain."""
    one, other = pair
    inverse = balances.inverse
    column: Any = 0.0
    if other != GROUND:
        column = column + inverse[:, other]
    if one != GROUND:
        column = column - inverse[:, one]

    def at(number: int) -> float:
        return 0.0 if number == GROUND else float(column[number])

    found = {}
    for name, each in balances.measured.items():
        if each.is_tank:
            start, end = balances.ends(each.arc)
            found[name] = (at(end) - at(start)) / weight
    return found


# ---- courses


@dataclass(frozen=True, slots=True)
class Course:
    """How an error would go over the days.

    Attributes
    ----------
    first, last : int
        The places of its first and its last span.
    shape : array
        How great it is in each span, beside the others.
    choices : int
        How many courses of its kind there are.
    """

    first: int
    last: int
    shape: Any
    choices: int


@dataclass(frozen=True, slots=True)
class Fit:
    """How well a course fits.

    Attributes
    ----------
    course : Course
        The course.
    factor, deviation : float
        By which factor its shape is taken, and the standard deviation of it.
    drop : float
        By how much the weighted squares of the series fall.
    """

    course: Course
    factor: float
    deviation: float
    drop: float

    @property
    def gain(self) -> float:
        """Half of the drop, less what is owed to the choice of the course."""
        return self.drop / 2 - log(self.course.choices)

    @property
    def total(self) -> float:
        """The size of the whole error in grams."""
        return self.factor * float(self.course.shape.sum())

    @property
    def total_deviation(self) -> float:
        """The standard deviation of the size in grams."""
        return self.deviation * abs(float(self.course.shape.sum()))


def one_day(count: int) -> Iterator[Course]:
    """Give the courses of an error on one day."""
    import numpy

    for place in range(count):
        yield Course(place, place, numpy.eye(count)[place], count)


def from_a_day_on(values: Any) -> Iterator[Course]:
    """Give the courses of an error in proportion to some values, from some day on."""
    count = len(values)
    for place in range(count):
        shape = values.copy()
        shape[:place] = 0.0
        if (shape != 0).sum() > 1:  # that it was so from the first day on is one course of its own
            yield Course(place, count - 1, shape, count if place else 1)


def for_some_days(count: int) -> Iterator[Course]:
    """Give the courses of an error that is the same on some days on end, and no other ones."""
    import numpy

    for first in range(count):
        for last in range(first + 1, count):
            shape = numpy.zeros(count)
            shape[first : last + 1] = 1.0
            yield Course(first, last, shape, count * count // 2)


def free_on(series: Series, runs: list[tuple[int, int]], sign: int = 1) -> list[Fit]:
    """Return how well errors of any sizes fit on the days of each run, and on no other ones.

    Parameters
    ----------
    series : Series
        The series.
    runs : list of tuple of int
        The first and the last day of each run. The day before may be wrong too.
    sign : int
        -1 if the measurement leads from the second side of the hole to the first.
    """
    import numpy

    found = []
    for first, last in runs:
        inside = [at for at, span in enumerate(series.spans) if first <= span.first <= last]
        for places in ([*{max(0, inside[0] - 1), *inside}], inside) if inside else ():
            inverse = numpy.linalg.pinv(series.weight[numpy.ix_(places, places)])
            drawn = (series.weight @ (sign * series.sizes))[places]
            sizes = inverse @ drawn
            total = float(sizes.sum())
            shape = numpy.zeros(len(series.spans))
            shape[places] = sizes
            # each day has a size of its own, which costs as much as the choice of one of four
            course = Course(min(places), max(places), shape, 4 ** len(places))
            sure = sqrt(float(inverse.sum())) / max(abs(total), 1.0)
            found.append(Fit(course, 1.0, sure, float(drawn @ sizes)))
    return found


def at_the_ends(count: int) -> tuple[Course, Course]:
    """Return the courses of an error of the dip that opens the month, and of the one that closes
    it."""
    import numpy

    unit = numpy.eye(count)
    return Course(0, 0, -unit[0], 1), Course(count - 1, count - 1, unit[-1], 1)


def fits_of(series: Series, courses: Iterable[Course], sign: int = 1) -> list[Fit]:
    """Return how well courses fit a series.

    Parameters
    ----------
    series : Series
        The series.
    courses : iterable of Course
        The courses.
    sign : int
        -1 if the measurement leads from the second side of the hole to the first.
    """
    import numpy

    some = list(courses)
    if not some:
        return []
    shapes = numpy.array([course.shape for course in some])
    drawn = shapes @ (series.weight @ (sign * series.sizes))
    weights = numpy.einsum("ij,jk,ik->i", shapes, series.weight, shapes)
    found = []
    for course, pull, weight in zip(some, drawn, weights):
        if weight > 0:
            factor = float(pull / weight)
            found.append(Fit(course, factor, 1 / sqrt(float(weight)), float(pull) * factor))
    return found
