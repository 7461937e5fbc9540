"""Makes of the flows found a session that the program reconciles and certifies.

At the minimum the assays pull on each flow by what the multipliers of the components' balances say:
for the stream j, q = sum over components of grade * (difference of the multipliers at its ends). A
measurement of the flow F with the value F - v q and the variance v pulls just as much, so with such
measurements in place of the assays the balance of mass alone has the same minimum. The variance v
is what the assays add: 1/v = 1/(variance with assays) - 1/(variance without them).

So the certified flows are those found, but for grams. What is proved is that balance: that its
flows balance to the gram, and lie within their bounds. That the grades were right, and that no
other flows and grades fit better, isn't.
"""

from __future__ import annotations

from collections.abc import Iterator
from dataclasses import dataclass, replace
from typing import Any

from plantbal.balance.known import Known
from plantbal.balance.problem import Problem
from plantbal.balance.reading import GRAMS
from plantbal.balance.solve import Solution, solve

# The most of a variance, in squared grams, and of a flow in grams, that one reading may have.
_MOST_VARIANCE = 10**19
_MOST_GRAMS = 10**13
# What assays add to a variance is said if it is at least this part of it.
_LEAST_GAIN = 1e-6
# The variance of a gram, in squared tonnes.
_LEAST_VARIANCE = 1e-12
_FIRST = "2000-01-01"


@dataclass(frozen=True)
class AssayPull:
    """What assays say of a flow, as a measurement.

    Attributes
    ----------
    stream : str
        The stream.
    value, variance : float
        The measurement to which they amount, in tonnes and squared tonnes.
    """

    stream: str
    value: float
    variance: float


def pulls_of(found: Solution, known: Known) -> list[AssayPull]:
    """Return the measurements to which the assays amount.

    Parameters
    ----------
    found : Solution
        The flows and grades.
    known : Known
        What is known of them.
    """
    problem = found.system.problem
    # without bounds: what a bound holds isn't determined by meters
    free = [replace(flow, either_way=True) for flow in problem.flows if not flow.only]
    alone = Known(solve(Problem(free)))
    force = _forces(found)
    rows = []
    for flow in problem.flows:
        column = found.system.columns[flow.name, ""]
        if flow.only or not known.is_determined[column]:
            continue
        after = known.flow_deviation(flow.name) ** 2
        sure = alone.is_determined[alone.system.columns[flow.name, ""]]
        before = alone.flow_deviation(flow.name) ** 2 if sure else float("inf")
        pull = float(force[column]) / found.system.scale
        gain = 1 / after - 1 / before if after > 0 and before > 0 else 0.0
        if gain * after < _LEAST_GAIN:
            if abs(pull) * after**0.5 < _LEAST_GAIN:
                continue
            gain = _LEAST_GAIN / max(after, _LEAST_VARIANCE)
        variance = 1 / gain
        value = found.flow(flow.name) - variance * pull
        rows.append(AssayPull(flow.name, value, variance))
    return rows


def _forces(found: Solution) -> Any:
    """Return how the assays and the bounds pull on each flow: the derivatives of what isn't mass."""
    import numpy

    from plantbal.balance.solve import _matrix

    system = found.system
    nodes = len(system.problem.balanced_nodes)
    jacobian = _matrix(system, found.vector, list(found.active))
    multipliers = numpy.concatenate([found.multipliers, -found.pulls])
    multipliers[:nodes] = 0
    return jacobian.T @ multipliers


def session_of(problem: Problem, pulls: list[AssayPull], period: str) -> str:
    """Return the session of the mass balance with what assays amount to.

    A stream that was measured and assayed has one figure: the mean of both by their weights. The id
    of a transfer says where it comes from: ``meter``, ``assays`` or ``both``. A figure or a variance
    above what a row may have is shared by several.
    """
    by_name = {pull.stream: pull for pull in pulls}
    masses = [flow for flow in problem.flows if not flow.only]
    joined = {end for flow in masses for end in (flow.start, flow.end)}
    rows = [f"unit,{node}" for node in problem.nodes if node in joined]
    facts: list[tuple[str, str, float, float]] = []
    for flow in masses:
        pull, meter = by_name.get(flow.name), flow.measured
        kind = "batch,1" if pull or meter else "plain,0"
        rows.append(
            f"stream,{flow.name}{'_gain' * (flow.name in problem.nodes)},{flow.start},{flow.end},{kind}"
        )
        if pull and meter:
            weight = 1 / meter.variance + 1 / pull.variance
            value = (meter.value / meter.variance + pull.value / pull.variance) / weight
            facts.append(("both", flow.name, value, 1 / weight))
        elif pull:
            facts.append(("assays", flow.name, pull.value, pull.variance))
        elif meter:
            facts.append(("meter", flow.name, meter.value, meter.variance))
    rows.append(f"period,{period},{_FIRST},{_FIRST}")
    rows += [row for fact in facts for row in _transfers(problem, *fact)]
    return "\n".join([*rows, f"report,{period}", ""])


def _transfers(
    problem: Problem, source: str, stream: str, value: float, variance: float
) -> Iterator[str]:
    """Yield the rows of a figure."""
    name = f"{stream}{'_gain' * (stream in problem.nodes)}"
    number = problem.place[stream]
    grams, squared = round(value * GRAMS), max(round(variance * GRAMS**2) - 1, 0)
    parts = max(1, -(-abs(grams) // _MOST_GRAMS), -(-squared // _MOST_VARIANCE))
    for part in range(parts):
        share = grams * (part + 1) // parts - grams * part // parts
        own = squared * (part + 1) // parts - squared * part // parts
        yield f"transfer,{source}.{number}.{part},{name},{_FIRST},{_FIRST},{share},{own}"
