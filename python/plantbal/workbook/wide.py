"""Dips and densities with a column for each tank, name or month, turned into rows.

Dips may have several columns for each tank: its level alone, or also temperature, water, density.
A sheet of densities has its names down and its months across, or its days or months down and its
names across. What else is in a row, such as an error, holds for all figures of the row.
"""

from __future__ import annotations

import datetime
import re
from collections.abc import Collection, Mapping, Sequence

from plantbal.sentence import Sentence
from plantbal.workbook.cells import Reader
from plantbal.workbook.mapping.months import month_of
from plantbal.workbook.shapeparts import (
    HEADS_WITHIN,
    Shape,
    SheetTable,
    as_row,
    cell_at,
    column_of,
    has_figure,
    heads_like,
    noted,
    split_head,
    units_below,
    wide_note,
    with_unit,
)
from plantbal.workbook.sheets import Cell
from plantbal.workbook.units import DENSITIES, unit_of

_DAYS = frozenset("day date datum tag fecha jour".split())
# What a column of a tank may have beside its level.
OF_TANKS = ("level", "temperature", "water", "density")
_SPANS = ("day", "first", "month")
_WHOLE_MONTH = re.compile("[0-9]{4}-(?:0[1-9]|1[0-2])")


def tank_head(text: str, names: Collection[str]) -> tuple[str, str] | None:
    """Return the tank of a head, and what of it: `T101`, or `T101 temperature`; None of another."""
    if text in names:
        return text, "level"
    name, _, of = text.rpartition(" ")
    return (name, of) if name in names and of in OF_TANKS else None


def dip_columns(
    lines: list[list[Cell]],
    at: int,
    names: Collection[str],
    others: Collection[str],
    reader: Reader,
) -> Shape:
    """Return the table of a sheet with days down, and one or several columns for each tank."""
    heads = lines[at]
    tanks: dict[str, dict[str, int]] = {}
    for column, cell in enumerate(heads):
        found = tank_head(cell.text, names)
        if found is not None:
            tanks.setdefault(found[0], {}).setdefault(found[1], column)
    columns = [column for own in tanks.values() for column in own.values()]
    units, body, shape = _begun(lines, at)
    beside = _beside(heads, columns, others, _DAYS)
    day = column_of(heads, [*columns, *beside.values()], _DAYS, {}, "days", "day")
    kept = [of for of in OF_TANKS if any(of in own for own in tanks.values())]
    table = SheetTable([heads_like(heads[day], "day", "tank", *kept, *beside)])
    for cells in body:
        rest = _rest(cells, beside, units, reader)
        for own in tanks.values():
            if any(has_figure(cells, column, reader) for column in own.values()):
                name = Cell(heads[day].sheet, cells[0].line, min(own.values()) + 1, None)
                figures = [_figure(cells, own.get(of), units, name, reader) for of in kept]
                tank = next(name for name, each in tanks.items() if each is own)
                row = Cell(name.sheet, name.line, name.column, tank)
                table.lines.append([cell_at(cells, day), row, *figures, *rest])
    shape.tables, shape.read = [table], {day, *columns, *beside.values()}
    firsts = [min(own.values()) for own in tanks.values()]
    shape.notes.append(wide_note(heads, firsts, "levels", day, units, "mm"))
    return shape


def _rest(
    cells: list[Cell], beside: Mapping[str, int], units: Mapping[int, str], reader: Reader
) -> list[Cell]:
    """Return what holds for all figures of a row, each with the unit of its column."""
    return [
        with_unit(cell_at(cells, column), units.get(column, ""), reader)
        for column in beside.values()
    ]


def _figure(
    cells: list[Cell], column: int | None, units: dict[int, str], none: Cell, reader: Reader
) -> Cell:
    """Return the cell of a figure with its unit; an empty one if there is no such column."""
    if column is None:
        return none
    return with_unit(cell_at(cells, column), units.get(column, ""), reader)


def _begun(lines: list[list[Cell]], at: int) -> tuple[dict[int, str], list[list[Cell]], Shape]:
    """Return the units below a row of heads, the rows below these, and a shape with both."""
    below = lines[at + 1] if at + 1 < len(lines) else []
    units = units_below(below)
    body = lines[at + 1 + bool(units) :]
    return units, body, Shape(heads=[lines[at], *([below] if units else [])], body=body)


def _beside(
    heads: list[Cell], columns: Sequence[int], others: Collection[str], but: Collection[str]
) -> dict[str, int]:
    """Return the columns whose heads are known, beside those of the figures."""
    found: dict[str, int] = {}
    for column, cell in enumerate(heads):
        head = split_head(cell)[0]
        if column not in columns and head in others and head not in but:
            found.setdefault(head, column)
    return found


# ---- densities


def density_shape(
    lines: list[list[Cell]], names: Collection[str], others: Collection[str], reader: Reader
) -> Shape:
    """Return the table of a sheet of densities by months or by names; none if it is another one."""
    for at, cells in enumerate(lines[:HEADS_WITHIN]):
        heads = {split_head(cell)[0] for cell in cells}
        months = {n: month for n, cell in enumerate(cells) if (month := month_text(cell))}
        if len(months) > 1 or (months and "name" in heads):
            return _months_across(lines, at, months, others, reader)
        of_names = {n: cell.text for n, cell in enumerate(cells) if cell.text in names}
        if of_names and heads & {*_SPANS, *_DAYS} and "name" not in heads:
            return _names_across(lines, at, of_names, others, reader)
    return Shape()


def month_text(cell: Cell) -> str:
    """Return the month that a cell names, as 2024-01: by a text, or by the day that begins it."""
    value = cell.value
    if isinstance(value, datetime.datetime):
        return f"{value:%Y-%m}" if value.day == 1 and value.time() == datetime.time(0) else ""
    if isinstance(value, str) and not re.search("[0-9]{1,2}[./-][0-9]{1,2}[./-]", value):
        found = month_of(value)
        return f"{found[0]}-{found[1]:02}" if found else ""
    return ""


def _months_across(
    lines: list[list[Cell]],
    at: int,
    months: dict[int, str],
    others: Collection[str],
    reader: Reader,
) -> Shape:
    heads = lines[at]
    units, body, shape = _begun(lines, at)
    beside = _beside(heads, list(months), others, _SPANS)
    own_unit = _own_unit(heads, lines[:at])
    head = heads[next(iter(months))]
    table = SheetTable([heads_like(head, "month", "density", *beside)])
    for cells in body:
        rest = _rest(cells, beside, units, reader)
        for column, month in months.items():
            if has_figure(cells, column, reader):
                figure = cell_at(cells, column)
                when = Cell(figure.sheet, figure.line, figure.column, month)
                unit = units.get(column, own_unit)
                table.lines.append([when, with_unit(figure, unit, reader), *rest])
    shape.tables, shape.read = [table], {*months, *beside.values()}
    ends = Sentence(
        "{months} to {months2}", months=min(months.values()), months2=max(months.values())
    )
    shape.notes.append(
        noted(heads, Sentence("there is a column of densities for each month, {ends}", ends=ends))
    )
    return shape


def _names_across(
    lines: list[list[Cell]], at: int, names: dict[int, str], others: Collection[str], reader: Reader
) -> Shape:
    heads = lines[at]
    units, body, shape = _begun(lines, at)
    beside = {
        ("day" if head in _DAYS else head): column
        for head, column in _beside(heads, list(names), {*others, *_DAYS}, ()).items()
    }
    own_unit = _own_unit(heads, lines[:at])
    table = SheetTable([heads_like(heads[next(iter(names))], "name", "density", *beside)])
    for cells in body:
        rest = _rest(cells, beside, units, reader)
        for column in names:
            if has_figure(cells, column, reader):
                figure = with_unit(cell_at(cells, column), units.get(column, own_unit), reader)
                table.lines.append([as_row(heads[column], cells), figure, *rest])
    shape.tables, shape.read = [table], {*names, *beside.values()}
    shape.notes.append(
        noted(
            heads,
            Sentence("there is a column of densities for each of {count} names", count=len(names)),
        )
    )
    return shape


def _own_unit(heads: list[Cell], titles: list[list[Cell]]) -> str:
    """Return the one unit of densities in brackets in the heads or above them; empty if none is."""
    found = set()
    for cell in [*heads, *(each for cells in titles for each in cells)]:
        match = re.search(r"[\[(]\s*([^\[\]()]+?)\s*[\])]", cell.text)
        if match and unit_of(match[1]) in DENSITIES:
            found.add(unit_of(match[1]))
    return found.pop() if len(found) == 1 else ""
