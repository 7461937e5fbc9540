"""Takes the flows, their measurements and the assays of a period from a session."""

from __future__ import annotations

from collections.abc import Collection, Iterator
from dataclasses import dataclass, replace

from plantbal.balance.problem import Flow, Measured, Problem
from plantbal.faults import InputFault, Place
from plantbal.model.forms import ASKS
from plantbal.records import read_records, text_of, without_empty_end
from plantbal.report.blocks import Block, last_blocks
from plantbal.runs import run

# Grams of a tonne, and parts per million of the whole.
GRAMS = 1e6
MILLION = 1e6


@dataclass(frozen=True)
class AskedPeriod:
    """A period of a session as a problem, with what the program says of its mass alone.

    Attributes
    ----------
    period : str
        The period.
    problem : Problem
        Its flows and grades.
    mass : Block
        The program's report of the mass balance without assays.
    left_out : tuple of str
        Assays that aren't used, and why.
    """

    period: str
    problem: Problem
    mass: Block
    left_out: tuple[str, ...] = ()


def asked_period(
    data: bytes,
    period: str,
    components: Collection[str] = (),
    closed: Collection[str] = (),
    *,
    source: str = "session",
    program: str | None = None,
    mass_alone: bool = False,
) -> AskedPeriod:
    """Return a period of a session as a problem.

    Parameters
    ----------
    data : bytes
        The session.
    period : str
        The period.
    components : collection of str
        The components; without one, all that were assayed in the period.
    closed : collection of str
        The streams whose components sum to the whole stream.
    source : str
        What the session is called in a fault.
    program : str, optional
        The program.
    mass_alone : bool
        Whether a period without assays is one of flows alone.
    """
    mass = _mass_of(data, period, source, program)
    flows = measured_flows(mass)
    names = {flow.name for flow in flows}
    grades: dict[tuple[str, str], Measured] = {}
    left_out = []
    for component, stream, ppm, variance, line in _assays(data, period):
        if components and component not in components:
            continue
        if stream not in names:
            said = f"{component} in {stream} (line {line}): it isn't in service in {period}"
            left_out.append(said)
            continue
        place = Place(file=source, line=line)
        grades[stream, component] = replace(grade_of(ppm, variance), place=place)
    named = list(dict.fromkeys(component for _, component in grades))
    for component in components:
        if component not in named:
            raise InputFault(
                f"no assay of {component} in {period}",
                place=Place(file=source),
                remedy="correct the component's name, or add its assays",
            )
    if not named and not mass_alone:
        raise InputFault(
            f"no assays in {period}",
            place=Place(file=source),
            remedy="a balance of flows and grades needs assays: plantbal report balances mass alone",
        )
    problem = Problem(tuple(flows), tuple(named), grades, frozenset(closed))
    return AskedPeriod(period, problem, mass, tuple(left_out))


def measured_flows(mass: Block) -> list[Flow]:
    """Return the streams of a round of a report, with what was measured of them."""
    return [
        Flow(
            row["name"],
            row["from"],
            row["to"],
            _measured(row["value"], row["variance"]) if row["value"] else None,
            either_way=row["name"] in (row["from"], row["to"]),
        )
        for row in mass.streams
    ]


def grade_of(ppm: int, variance: int) -> Measured:
    """Return an assay as a fraction."""
    return Measured(ppm / MILLION, max(variance, 1) / MILLION**2)


def _measured(value: str, variance: str) -> Measured:
    """Return a flow of a report in tonnes."""
    return Measured(int(value) / GRAMS, max(int(variance), 1) / GRAMS**2)


def _mass_of(data: bytes, period: str, source: str, program: str | None) -> Block:
    """Return the program's report of a period."""
    without = b"".join(
        text_of(record.fields).encode("latin-1") + b"\n"
        for record in read_records(data)
        if without_empty_end(record.fields)[:1] not in _ASKS
    )
    output = run(without + f"report,{period}\n".encode(), tests=False, program=program)
    blocks = [
        block for block in last_blocks(output.blocks_in_order).values() if block.period == period
    ]
    if not blocks:
        raise InputFault(
            f"there is no report of {period}",
            place=Place(file=source),
            remedy="correct the period's name: plantbal-desk explain says what was refused",
        )
    return blocks[-1]


# The rows that ask for output.
_ASKS = tuple((kind,) for kind in ASKS)


def _assays(data: bytes, period: str) -> Iterator[tuple[str, str, int, int, int]]:
    """Yield component, stream, grade, its variance and its line, of the assays of a period."""
    for record in read_records(data):
        fields = without_empty_end(record.fields)
        if len(fields) == 6 and fields[0] == "assay" and fields[3] == period:
            if fields[4].isdecimal() and fields[5].isdecimal():
                yield fields[1], fields[2], int(fields[4]), int(fields[5]), record.line
