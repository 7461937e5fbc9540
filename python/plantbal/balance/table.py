"""The flows and grades found, as rows to be read or handed on."""

from __future__ import annotations

from collections.abc import Iterator, Sequence
from dataclasses import asdict, dataclass
from enum import Enum

from plantbal.balance.known import Class, Known
from plantbal.balance.problem import ENV

_NAN = float("nan")
# What is said of a stream beside which a ratio flows: which part of both is the stream.
SOLIDS = "solids"


class FigureUnit(Enum):
    """What a figure is in."""

    TONNES = "t"
    PART = "part"


@dataclass(frozen=True)
class BalanceLine:
    """A flow or a grade.

    Attributes
    ----------
    stream, component : str
        Of what; the component is empty if it is the flow.
    unit : FigureUnit
        In what: a flow in tonnes, and so is what comes beside the mass, such as water.
    kind : Class
        What it rests on.
    measured, measured_sd : float
        What was measured: tonnes, or a fraction; NaN without it.
    value, sd : float
        The figure found, and its standard deviation; NaN if nothing determines it.
    adjustment : float
        By how much the measurement was adjusted, in its standard deviations; NaN without it.
    evidence : tuple of (str, str)
        The balances that determine it if it wasn't measured: component or nothing, and node.
    """

    stream: str
    component: str
    unit: FigureUnit
    kind: Class
    measured: float
    measured_sd: float
    value: float
    sd: float
    adjustment: float
    evidence: tuple[tuple[str, str], ...] = ()

    def as_dict(self) -> dict[str, object]:
        """Return it as plain values; None for what isn't there."""
        found = {key: None if value != value else value for key, value in asdict(self).items()}
        return found | {"kind": self.kind.value, "unit": self.unit.value}


def table_lines(known: Known) -> Iterator[BalanceLine]:
    """Yield the flows in the order of the streams, each followed by its grades.

    A component beside the mass, such as water, has two lines: the part that is solids, and tonnes.
    """
    figures = list(_figures(known))
    sure = [each for each in figures if each.kind is not Class.UNOBSERVABLE]
    deviations = dict(zip(map(id, sure), known.deviations([each.gradient for each in sure])))
    for each in figures:
        yield _line(known, each, deviations.get(id(each), _NAN))


@dataclass(frozen=True)
class _Figure:
    """A figure of a stream, by its derivatives; ``shown`` is the component that is written."""

    stream: str
    component: str
    shown: str
    unit: FigureUnit
    kind: Class
    gradient: dict[int, float]


def _figures(known: Known) -> Iterator[_Figure]:
    """Yield the figures of a table."""
    problem = known.system.problem
    for flow in problem.flows:
        name = flow.name
        if flow.only:
            gradient = known.carried_gradient(name, flow.only)
            kind = known.class_of(name, flow.only)
            yield _Figure(name, flow.only, flow.only, FigureUnit.TONNES, kind, gradient)
            continue
        yield _Figure(name, "", "", FigureUnit.TONNES, known.class_of(name), known.gradient(name))
        for component in problem.components:
            kind, gradient = known.class_of(name, component), known.gradient(name, component)
            if component not in problem.ratios:
                yield _Figure(name, component, component, FigureUnit.PART, kind, gradient)
                continue
            yield _Figure(name, component, SOLIDS, FigureUnit.PART, kind, gradient)
            if kind is not Class.UNOBSERVABLE and known.class_of(name) is Class.UNOBSERVABLE:
                kind = Class.UNOBSERVABLE
            elif kind is not Class.UNOBSERVABLE:
                kind = Class.OBSERVABLE
            carried = known.carried_gradient(name, component)
            yield _Figure(name, component, component, FigureUnit.TONNES, kind, carried)


def _line(known: Known, figure: _Figure, sd: float) -> BalanceLine:
    """Return the line of a figure."""
    system, found = known.system, known.solution
    stream, component = figure.stream, figure.component
    head = (stream, figure.shown, figure.unit, figure.kind)
    if figure.kind is Class.UNOBSERVABLE:
        return BalanceLine(*head, _NAN, _NAN, _NAN, _NAN, _NAN)
    is_amount = figure.unit is FigureUnit.TONNES
    if not component:
        value = found.flow(stream)
    else:
        value = (found.carried if is_amount else found.grade)(stream, component)
    column = system.columns[stream, component]
    if not system.is_measured[column] or (
        is_amount and (stream, component) in system.problem.grades
    ):
        evidence: tuple[tuple[str, str], ...] = ()
        if is_amount and (not component or stream in system.problem.alone):
            evidence = tuple(known.evidence(stream, component))
        measured = measured_sd = adjusted = _NAN
    else:
        scale = system.scale if is_amount else 1.0
        measured = float(system.measured[column]) * scale
        measured_sd = float(system.variance[column]) ** 0.5 * scale
        adjusted, evidence = (value - measured) / measured_sd, ()
    if figure.shown == SOLIDS:  # of the ratio r: 1 / (1 + r), which falls if r rises
        measured, measured_sd = 1 / (1 + measured), measured_sd / (1 + measured) ** 2
        value, sd, adjusted = 1 / (1 + value), sd / (1 + value) ** 2, -adjusted
    return BalanceLine(*head, measured, measured_sd, value, sd, adjusted, evidence)


@dataclass(frozen=True)
class Recovery:
    """Which part of a component that came in a stream carries out.

    Attributes
    ----------
    component, stream : str
        Of what, and where.
    part, sd : float
        The part, and its standard deviation from the errors of flows and grades.
    """

    component: str
    stream: str
    part: float
    sd: float


def recoveries_of(known: Known, feeds: Sequence[str] = ()) -> Iterator[Recovery]:
    """Yield the parts of each component that the leaving streams carry.

    Parameters
    ----------
    known : Known
        What is known.
    feeds : sequence of str
        The streams of whose components they are parts; without one, those that enter the plant.
    """
    problem, found = known.system.problem, known.solution
    flows = [flow for flow in problem.flows if not flow.either_way and not flow.only]
    ins = list(feeds) or [flow.name for flow in flows if flow.start == ENV]
    outs = [flow.name for flow in flows if flow.end == ENV]
    for component in problem.components:
        if component in problem.ratios:
            continue  # what comes beside the mass comes with other streams, too
        if any(known.class_of(name, component) is Class.UNOBSERVABLE for name in ins):
            continue
        fed = sum(found.carried(name, component) for name in ins)
        if not fed:
            continue
        for name in outs:
            if known.class_of(name, component) is Class.UNOBSERVABLE:
                continue
            part = found.carried(name, component) / fed
            gradient: dict[int, float] = {}
            for stream in dict.fromkeys([*ins, name]):
                own = (stream == name) / fed - (stream in ins) * part / fed
                for column, slope in known.carried_gradient(stream, component).items():
                    gradient[column] = gradient.get(column, 0.0) + own * slope
            yield Recovery(component, name, part, known.deviation(gradient))


def evidence_said(evidence: tuple[tuple[str, str], ...]) -> str:
    """Return the balances that determine a figure, in words."""
    parts = [f"{component or 'mass'} at {node}" for component, node in evidence]
    return "by the balances of " + ", ".join(parts) if parts else ""
