"""The grades of a period beside its flows: as they were assayed, as they are reconciled, with ±.

What a report says of mass and what the assays of its period say are reconciled together. A
component that can't be balanced, such as one that was assayed in a stream alone, is left out and
said; so are all if the measurements don't allow flows and grades that balance.
"""

from __future__ import annotations

from collections.abc import Iterable, Mapping, Sequence
from dataclasses import dataclass, field

from plantbal.balance.known import Class, Known
from plantbal.balance.problem import Flow, Measured, Problem
from plantbal.balance.reading import MILLION, grade_of, measured_flows
from plantbal.balance.solve import solve
from plantbal.balance.table import Recovery, recoveries_of
from plantbal.faults import Fault
from plantbal.model.ledger import Ledger
from plantbal.report.blocks import Block
from plantbal.sentence import Sentence, phrase

Cell = str | float | None
_NAN = float("nan")
# Grades below this part are shown in parts per million.
_SMALL = 1e-3


@dataclass(frozen=True)
class Grade:
    """The grade of a component in a stream, beside its flow.

    Attributes
    ----------
    stream : str
        The stream, or the tank of a gain.
    is_gain : bool
        Whether it is what a tank gained.
    kind : Class
        What the grade rests on.
    flow, flow_sd : float
        The flow by meters and assays together, in tonnes; NaN if nothing determines it.
    assay, assay_sd : float
        The grade as it was assayed, as a fraction; NaN without an assay.
    value, sd : float
        The grade as it is reconciled; NaN if nothing determines it.
    carried, carried_sd : float
        What the stream carries of the component, in tonnes; NaN if nothing determines it.
    """

    stream: str
    is_gain: bool
    kind: Class
    flow: float
    flow_sd: float
    assay: float
    assay_sd: float
    value: float
    sd: float
    carried: float
    carried_sd: float

    @property
    def adjustment(self) -> float:
        """By how much the assay was adjusted, in its standard deviations; NaN without one."""
        return (self.value - self.assay) / self.assay_sd


@dataclass(frozen=True)
class Grades:
    """The grades of a period.

    Attributes
    ----------
    by_component : dict of str to list of Grade
        Those of each component, in the order of the streams.
    recoveries : list of Recovery
        What part of each component the leaving streams carry.
    said : list of str
        What is left out, which bounds hold, or why there are none.
    """

    by_component: dict[str, list[Grade]] = field(default_factory=dict)
    recoveries: list[Recovery] = field(default_factory=list)
    said: list[str] = field(default_factory=list)

    def recovery(self, component: str, stream: str) -> Recovery | None:
        """Return the recovery of a component in a stream; None if it has none."""
        own = (each for each in self.recoveries if each.component == component)
        return next((each for each in own if each.stream == stream), None)


def unit_of_grades(grades: Iterable[Grade]) -> tuple[str, float]:
    """Return the unit in which grades are shown, and its number in the whole."""
    most = max((abs(each.value) for each in grades if each.value == each.value), default=0.0)
    return ("ppm", MILLION) if most < _SMALL else ("%", 100.0)


def grades_of(mass: Block, assays: Mapping[tuple[str, str], Measured]) -> Grades:
    """Return the grades of a period.

    Parameters
    ----------
    mass : Block
        A round of its report.
    assays : mapping of (str, str) to Measured
        The assays of the period, as fractions, by stream and component.
    """
    flows = measured_flows(mass)
    names = {flow.name for flow in flows}
    found = Grades()
    known = {key: grade for key, grade in assays.items() if key[0] in names}
    for stream, component in assays:
        if stream not in names:
            form = "{component} in {stream} is left out: it isn't in service"
            found.said.append(Sentence(form, component=component, stream=stream))
    wanted = []
    for component in dict.fromkeys(component for _, component in known):
        streams = [stream for stream, other in known if other == component]
        if len(streams) > 1:
            wanted.append(component)
        else:
            form = "{component} is left out: it was assayed in {stream} alone"
            found.said.append(Sentence(form, component=component, stream=streams[0]))
    if not wanted:
        return found
    own = {key: grade for key, grade in known.items() if key[1] in wanted}
    try:
        together = Known(solve(Problem(tuple(flows), tuple(wanted), own)))
    except Fault as fault:
        found.said.append(fault.sentence)
        return found
    return of_known(together, found.said)


def by_period(blocks: Iterable[Block], ledger: Ledger) -> dict[str, Grades]:
    """Return the grades of the periods that have assays.

    Parameters
    ----------
    blocks : iterable of Block
        A round of the report of each period.
    ledger : Ledger
        The session.
    """
    assays = ledger.state.assays
    found = {}
    for block in blocks if assays else ():
        own = {
            (stream, component): grade_of(assay.ppm, assay.variance)
            for (component, stream, period), assay in assays.items()
            if period == block.period
        }
        if own and block.is_report and block.solved:
            found[block.period] = grades_of(block, own)
    return found


def of_known(known: Known, said: Sequence[str] = ()) -> Grades:
    """Return the grades of flows and grades that were found.

    Parameters
    ----------
    known : Known
        What is known of them.
    said : sequence of str
        What is to be said of them already.
    """
    problem = known.system.problem
    form = "{bound}: the measurements pull it there"
    bounds = [Sentence(form, bound=phrase(bound.said)) for bound in known.held]
    grades = {
        component: [_grade(known, flow, component) for flow in problem.flows if not flow.only]
        for component in problem.components
        if component not in problem.ratios
    }
    return Grades(grades, list(recoveries_of(known)), [*said, *bounds])


def _grade(known: Known, flow: Flow, component: str) -> Grade:
    """Return the grade of a stream."""
    name, found = flow.name, known.solution
    kind = known.class_of(name, component)
    assay = known.system.problem.grades.get((name, component))
    is_flow = known.class_of(name) is not Class.UNOBSERVABLE
    is_grade = kind is not Class.UNOBSERVABLE
    both = is_flow and is_grade
    gradient = known.carried_gradient(name, component)
    return Grade(
        name,
        name in (flow.start, flow.end),
        kind,
        found.flow(name) if is_flow else _NAN,
        known.flow_deviation(name) if is_flow else _NAN,
        assay.value if assay else _NAN,
        assay.variance**0.5 if assay else _NAN,
        found.grade(name, component) if is_grade else _NAN,
        known.grade_deviation(name, component) if is_grade else _NAN,
        found.carried(name, component) if both else _NAN,
        known.deviation(gradient) if both else _NAN,
    )


def table_of(grades: Mapping[str, Grades]) -> tuple[tuple[str, ...], list[tuple[Cell, ...]]]:
    """Return the grades as a table, its head first: tonnes, and grades as parts of the whole."""
    heads = (
        *(
            "period",
            "component",
            "stream",
            "flow, t",
            "± of the flow, t",
            "assay",
            "± of the assay",
        ),
        *("reconciled", "± of it", "in sd", "carries, t", "± of what it carries, t"),
        *("recovery", "± of the recovery", "class"),
    )
    rows: list[tuple[Cell, ...]] = []
    for period, own in grades.items():
        for component, some in own.by_component.items():
            for row in some:
                recovery = own.recovery(component, row.stream)
                numbers = (
                    *(row.flow, row.flow_sd, row.assay, row.assay_sd, row.value, row.sd),
                    *(row.adjustment, row.carried, row.carried_sd),
                    *((recovery.part, recovery.sd) if recovery else (None, None)),
                )
                name = f"gain of {row.stream}" if row.is_gain else row.stream
                cells = (None if one is None or one != one else one for one in numbers)
                rows.append((period, component, name, *cells, row.kind.value))
    return heads, rows
