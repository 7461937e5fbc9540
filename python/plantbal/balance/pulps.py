"""Water beside the solids: pulps by their solids or density, and streams of water alone.

The flows of a session are of dry solids. The sheet ``pulps`` of a workbook says of some streams
which part of the pulp is solids, by mass, or how dense the pulp is; and it has streams of water
alone, such as process water and what evaporates, with their ends. Water is then balanced at each
unit as a component that comes beside the solids, in tonnes: r = (1 - s) / s of it with a tonne of
solids, if s is the part of the pulp that is solids.
"""

from __future__ import annotations

from collections.abc import Iterator
from dataclasses import replace
from enum import Enum

from plantbal.balance.causes import BalanceCause
from plantbal.balance.problem import ENV, Flow, Measured, Problem, solids_of, water_of
from plantbal.balance.reading import GRAMS, MILLION
from plantbal.faults import InputFault, Place
from plantbal.workbook.cells import Reader
from plantbal.workbook.locales import check_locale
from plantbal.workbook.sheets import Cell, read_workbook
from plantbal.workbook.units import DENSITIES, VOLUMES, GRAMS as UNITS

WATER = "water"
_NEEDED = ("stream", "measure", "value", "error")
_OTHERS = ("unit", "solids density", "from", "to", "period")


class Measure(Enum):
    """What a row of the sheet says."""

    SOLIDS = "solids"
    DENSITY = "density"
    WATER = "water"


def with_water(problem: Problem, path: str, period: str, locale: str = "") -> Problem:
    """Return a problem with the water of a table.

    Parameters
    ----------
    problem : Problem
        The flows of solids, and the grades.
    path : str
        A workbook with a sheet ``pulps``, or that sheet.
    period : str
        The period: a row may name the one it is of.
    locale : str
        Whose numbers are read.

    Raises
    ------
    InputFault
        If a row can't be read, or says what can't be.
    """
    reader = Reader(check_locale(locale))
    if WATER in problem.components:
        both = f"{WATER} is both assayed and in {path}"
        raise InputFault(both, place=Place(file=path), remedy="leave one of the two out")
    flows = {flow.name: flow for flow in problem.flows}
    grades = dict(problem.grades)
    for cells in _rows_of(path):
        if not reader.is_missing(cells["period"]) and cells["period"].text != period:
            continue
        name, measure = cells["stream"].text, _measure(reader, cells["measure"])
        if (name, WATER) in grades or (name in flows and flows[name].only):
            what = BalanceCause.WATER_TWICE(name=name)
            raise reader.fault(cells["stream"], what, "leave one of the two out", "stream")
        if measure is Measure.WATER:
            if name in flows:
                remedy = "give water alone a name of its own, or write the solids of the pulp"
                what = BalanceCause.HAS_SOLIDS(name=name)
                raise reader.fault(cells["stream"], what, remedy, "stream")
            flows[name] = _alone(reader, problem, name, cells)
            continue
        if name not in flows:
            remedy = f"use one of {', '.join(problem.place)}"
            what = BalanceCause.NO_STREAM(name=name)
            raise reader.fault(cells["stream"], what, remedy, "stream")
        solids = _solids(reader, cells) if measure is Measure.SOLIDS else _by_density(reader, cells)
        grades[name, WATER] = water_of(solids)
    return replace(
        problem,
        flows=tuple(flows.values()),
        components=(*problem.components, WATER),
        grades=grades,
        ratios=problem.ratios | {WATER},
    )


def _rows_of(path: str) -> Iterator[dict[str, Cell]]:
    """Give the rows of the sheet, by the heads of its columns."""
    for sheet in read_workbook(path):
        lines = list(sheet.rows())
        for at, cells in enumerate(lines):
            heads = [cell.text.casefold() for cell in cells]
            if not set(_NEEDED) <= set(heads):
                continue
            for row in lines[at + 1 :]:
                line = row[0].line
                found = {head: Cell(sheet, line, 0, None) for head in _OTHERS}
                for c, head in enumerate(heads):
                    found[head] = row[c] if c < len(row) else Cell(sheet, line, c + 1, None)
                yield found
            return
    what = f"no row has the heads {', '.join(_NEEDED)}"
    remedy = f"write {','.join((*_NEEDED, *_OTHERS))} over the columns"
    raise InputFault(what, place=Place(file=path), remedy=remedy)


def _measure(reader: Reader, cell: Cell) -> Measure:
    """Return what a row says."""
    try:
        return Measure(cell.text.casefold())
    except ValueError:
        remedy = f"write one of {', '.join(each.value for each in Measure)}"
        what = BalanceCause.NO_MEASURE(text=cell.text)
        raise reader.fault(cell, what, remedy, "measure") from None


def _solids(reader: Reader, cells: dict[str, Cell]) -> Measured:
    """Return the part of a pulp that is solids."""
    part = reader.grade(cells["value"], cells["unit"], "value")
    error = reader.grade_error(cells["error"], part)
    return _measured(reader, cells, float(part) / MILLION, float(error) / MILLION)


def _by_density(reader: Reader, cells: dict[str, Cell]) -> Measured:
    """Return the part of a pulp that is solids, by the densities of the pulp and of the solids."""
    pulp, solids = reader.density(cells["value"]), reader.density(cells["solids density"])
    if pulp is None or solids is None:
        head = "value" if pulp is None else "solids density"
        remedy = "write that of the pulp as its value, and that of the dry solids beside it"
        raise reader.fault(cells[head], BalanceCause.NO_DENSITY(), remedy, head)
    cell = cells["error"]
    if cell.text.endswith("%"):
        error = reader.error(cell).share * pulp
    else:
        number, unit = reader.split(cell, DENSITIES, "error")
        error = DENSITIES[unit or "kg/m3"] * type(pulp)(number)
    density = _measured(reader, cells, float(pulp) / GRAMS, float(error) / GRAMS)
    return solids_of(density, float(solids) / GRAMS)


def _measured(reader: Reader, cells: dict[str, Cell], value: float, deviation: float) -> Measured:
    """Return a figure with its error, which must be one."""
    if not deviation > 0:
        what = BalanceCause.NO_ERROR_OF_MEASURE(text=cells["error"].text)
        raise reader.fault(cells["error"], what, "write one that isn't 0, such as 2 %", "error")
    return Measured(value, deviation**2, cells["value"].place("value"))


def _alone(reader: Reader, problem: Problem, name: str, cells: dict[str, Cell]) -> Flow:
    """Return a stream of water alone; without a value it is known by the balances, if at all."""
    ends = []
    for head in ("from", "to"):
        node = cells[head].text or ENV
        if node != ENV and node not in problem.nodes:
            remedy = f"use one of {', '.join(problem.nodes)}, or leave it empty for outside"
            raise reader.fault(cells[head], BalanceCause.NO_UNIT(name=node), remedy, head)
        ends.append(node)
    if ends[0] == ends[1]:
        what = BalanceCause.SAME_ENDS(name=name, node=ends[0])
        raise reader.fault(cells["from"], what, "write its ends into from and to", "from")
    if reader.is_missing(cells["value"]):
        return Flow(name, ends[0], ends[1], only=WATER)
    unit = reader.unit(cells["unit"], UNITS | VOLUMES, "t")
    grams = reader.grams(cells["value"], unit, DENSITIES["t/m3"], "value")
    if grams < 0:
        what = BalanceCause.WATER_BELOW_0(text=cells["value"].text)
        raise reader.fault(cells["value"], what, "exchange its ends", "value")
    error = reader.error(cells["error"], DENSITIES["t/m3"])
    deviation = max(float(error.share) * grams, float(error.grams)) / GRAMS
    measured = _measured(reader, cells, grams / GRAMS, deviation)
    return Flow(name, ends[0], ends[1], measured, only=WATER)
