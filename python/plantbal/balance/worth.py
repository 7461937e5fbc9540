"""What a meter or an assay is worth: the ± of every figure with it and without it, without readings.

A standard deviation doesn't depend on what is read, only on which numbers are measured, with what
errors, and on the flows and grades around which the balances are made linear. So those of a period
are kept, and another set of measurements is put on them.
"""

from __future__ import annotations

from collections.abc import Iterable
from dataclasses import dataclass, replace
from functools import cached_property

from plantbal.balance.known import Class, Known
from plantbal.balance.problem import Measured, Problem
from plantbal.balance.solve import Solution
from plantbal.balance.system import System
from plantbal.faults import Fault
from plantbal.sentence import Joined, Sentence


@dataclass(frozen=True, slots=True)
class Instrument:
    """A meter, or an assay of a component.

    Attributes
    ----------
    stream, component : str
        Of what; the component is empty if it is a meter.
    deviation : float
        Its standard deviation: tonnes in the period, or a fraction.
    cost : int
        What it costs.
    """

    stream: str
    component: str = ""
    deviation: float = 0.0
    cost: int = 0

    @property
    def said(self) -> str:
        """What it is called."""
        if not self.component:
            return self.stream
        return Sentence("{component} in {stream}", component=self.component, stream=self.stream)


@dataclass(frozen=True)
class SpreadChange:
    """The ± of a flow or a grade before and after.

    Attributes
    ----------
    stream, component : str
        Of what; the component is empty if it is a flow.
    before, after : float
        Its standard deviations; infinite if nothing determines it.
    kind_before, kind_after : Class
        What it rests on.
    """

    stream: str
    component: str
    before: float
    after: float
    kind_before: Class
    kind_after: Class


@dataclass(frozen=True)
class PeriodState:
    """The flows and grades of a period, on which other measurements are put.

    Attributes
    ----------
    known : Known
        What was measured, and what is known by it.
    """

    known: Known

    @property
    def problem(self) -> Problem:
        """The plant and what was measured."""
        return self.known.system.problem

    @cached_property
    def here(self) -> frozenset[Instrument]:
        """The meters and assays that are there, without costs."""
        problem = self.problem
        meters = {
            Instrument(flow.name, "", flow.measured.variance**0.5)
            for flow in problem.flows
            if flow.measured
        }
        assays = {
            Instrument(stream, component, grade.variance**0.5)
            for (stream, component), grade in problem.grades.items()
        }
        return frozenset(meters | assays)

    def flow(self, stream: str) -> float:
        """Return a flow in tonnes, also one that nothing determines yet."""
        return self.known.solution.flow(stream)

    def grade(self, stream: str, component: str) -> float:
        """Return a grade, also one that nothing determines yet, within what a grade may be."""
        found = self.known.solution.grade(stream, component)
        return min(1.0, max(0.0, found)) if found == found else 0.0

    def with_(self, instruments: Iterable[Instrument]) -> Known:
        """Return what is known if exactly these meters and assays are there.

        Two of one flow or grade count as one, by their weights.
        """
        weights: dict[tuple[str, str], float] = {}
        for each in instruments:
            key = each.stream, each.component
            weights[key] = weights.get(key, 0.0) + each.deviation**-2
        flows = []
        for flow in self.problem.flows:
            weight = weights.get((flow.name, ""))
            own = Measured(self.flow(flow.name), 1 / weight) if weight else None
            flows.append(replace(flow, measured=own))
        grades = {
            key: Measured(self.grade(*key), 1 / weight) for key, weight in weights.items() if key[1]
        }
        problem = Planned(
            flows, self.problem.components, grades, self.problem.closed, self.problem.ratios
        )
        return Known(self._placed(System(problem)))

    def _placed(self, system: System) -> Solution:
        """Return the flows and grades as they are, in the numbers of another system."""
        import numpy

        found, vector = self.known.solution, numpy.zeros(system.size)
        for (stream, component), column in system.columns.items():
            if not component:
                vector[column] = self.flow(stream) / system.scale
            elif (stream, component) in system.problem.grades:
                vector[column] = self.grade(stream, component)
            else:
                vector[column] = found.carried(stream, component) / system.scale
        none = numpy.zeros(0)
        return Solution(system, vector, numpy.zeros(len(system.names)), (), none, 0.0, 0)


class Planned(Problem):
    """A plant whose measurements are only planned: a component may be assayed in one stream alone."""

    def __post_init__(self) -> None:
        """Refuse nothing: the plant was accepted with its present measurements."""


def spread_changes(state: PeriodState, before: Known, after: Known) -> list[SpreadChange]:
    """Return the ± of all flows and grades before and after."""
    found = []
    for flow in state.problem.flows:
        for component in ("", *state.problem.components):
            name = flow.name
            found.append(
                SpreadChange(
                    name,
                    component,
                    deviation_of(before, name, component),
                    deviation_of(after, name, component),
                    before.class_of(name, component),
                    after.class_of(name, component),
                )
            )
    return found


def deviation_of(known: Known, stream: str, component: str = "") -> float:
    """Return the ± of a flow or a grade; infinite if nothing determines it."""
    if known.class_of(stream, component) is Class.UNOBSERVABLE:
        return float("inf")
    if component:
        return known.grade_deviation(stream, component)
    return known.flow_deviation(stream)


def known_after(state: PeriodState, add: Iterable[Instrument], lose: Iterable[Instrument]) -> Known:
    """Return what is known with some instruments more and some fewer.

    Raises
    ------
    Fault
        If one to lose isn't there, or no meter is left.
    """
    there = {(each.stream, each.component): each for each in state.here}
    for each in lose:
        if (each.stream, each.component) not in there:
            names = Joined(", ", sorted(other.said for other in state.here))
            what = Sentence("{name} isn't measured", name=each.said)
            remedy = Sentence("use one of {words}", words=names)
            raise Fault(what, text=each.said, remedy=remedy)
        del there[each.stream, each.component]
    left = [*there.values(), *add]
    if all(each.component for each in left):
        raise Fault(
            "no meter is left", remedy="grades give only the parts of a flow: keep one meter"
        )
    return state.with_(left)
