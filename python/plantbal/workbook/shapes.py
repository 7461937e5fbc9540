"""Tables as an office keeps them, turned into the long rows that the readers know.

A strapping table may have a column or a pair of columns for each tank, with the levels down; dips
may have columns for each tank, and a row for each day, and densities a column for each month; tables
may be side by side; a unit may be in brackets in a head, or in a row of units below the heads. Each
is turned into a table with the heads of its kind. Its cells keep their places, so faults and the account name the cells of the workbook.
What was recognised is a note with its evidence.
"""

from __future__ import annotations

import re
from collections.abc import Collection, Sequence
from decimal import Decimal
from itertools import pairwise

from plantbal.causes import CausedFault
from plantbal.sentence import Sentence
from plantbal.workbook.causes import SheetCause
from plantbal.workbook.cells import Reader
from plantbal.workbook.shapeparts import (
    HEADS_WITHIN,
    Shape,
    SheetTable,
    as_row,
    cell_at,
    check_units,
    column_of,
    has_figure,
    heads_like,
    is_a,
    noted,
    split_head,
    units_below,
    wide_note,
    with_unit,
)
from plantbal.workbook.sheetkinds import SHEETS
from plantbal.workbook.sheets import Cell, Sheet
from plantbal.workbook.units import LENGTHS, UNITS, VOLUMES, unit_of
from plantbal.workbook.wide import density_shape, dip_columns, tank_head

# What the columns of the levels, volumes and days are called; units name them too.
_LEVELS = frozenset("level levels dip innage stand füllstand fuellstand füllhöhe höhe".split())
_VOLUMES = frozenset("volume volumes contents volumen inhalt".split())
# Columns of names: what is in one is no unit of its column.
_NAMES = frozenset("name tank stream tag id from to component unit test kind period".split())


def shape_of(
    sheet: Sheet,
    kind: str,
    needed: Sequence[str],
    names: Collection[str],
    reader: Reader,
) -> Shape:
    """Return what was recognised in a sheet.

    Parameters
    ----------
    sheet : Sheet
        The sheet.
    kind : str
        Its kind.
    needed : sequence of str
        The heads that its kind needs.
    names : collection of str
        The tanks, if a table of its kind may have a column for each.
    reader : Reader
        How its cells are written.

    Raises
    ------
    InputFault
        If it can be read in two ways.
    """
    lines = list(sheet.rows())
    for at, cells in enumerate(lines[:HEADS_WITHIN]):
        heads = [split_head(cell)[0] for cell in cells]
        if set(needed) <= set(heads):
            return _long(lines, at, needed, reader)
    others = SHEETS[kind].heads
    if kind == "densities":
        return density_shape(lines, names, others, reader)
    for at, cells in enumerate(lines[:HEADS_WITHIN]):
        if kind == "dips" and any(tank_head(cell.text, names) for cell in cells):
            return dip_columns(lines, at, names, others, reader)
        columns = [column for column, cell in enumerate(cells) if cell.text in names]
        if columns and not {"tank", "volume"} <= {split_head(cell)[0] for cell in cells}:
            if kind == "straps" and _subheads(lines, at, columns):
                return _pairs(lines, at, columns, reader)
            if kind == "straps":
                return _strap_columns(lines, at, columns, reader)
    return Shape()


# ---- long tables


def _long(lines: list[list[Cell]], at: int, needed: Sequence[str], reader: Reader) -> Shape:
    """Return the tables side by side of a sheet, and give figures the units of their heads."""
    heads = lines[at]
    split = [split_head(cell) for cell in heads]
    below = lines[at + 1] if at + 1 < len(lines) else []
    row = units_below(below)
    if any(column >= len(split) or split[column][0] in _NAMES for column in row):
        row = {}
    units = {column: unit for column, (_, unit) in enumerate(split) if unit}
    check_units(units, row, below)
    starts = _starts([head for head, _ in split], needed)
    if not units and not row and len(starts) == 1:
        return Shape()
    shape = Shape(heads=[heads])
    if row:
        shape.heads.append(below)
        shape.notes.append(noted(below, "this row is taken for units: only units are in it"))
    units |= row
    body = lines[at + 1 + bool(row) :]
    named = [
        Cell(cell.sheet, cell.line, cell.column, head) if units.get(column) else cell
        for column, (cell, (head, _)) in enumerate(zip(heads, split))
    ]
    if "unit" in [head for head, _ in split]:
        own = {"volume"} if "volume" in needed else {"amount", "level", "grade"}
        _check_own(shape, split, units, own)
    for first, last in pairwise([*starts, max(map(len, [heads, *body]))]):
        table = SheetTable([_cut(named, first, last)])
        for cells in body:
            cut = _cut(cells, first, last)
            if any(cell.value is not None for cell in cut):
                table.lines.append(
                    [
                        with_unit(cell, units.get(first + n, ""), reader)
                        for n, cell in enumerate(cut)
                    ]
                )
        shape.tables.append(table)
    if len(starts) > 1:
        what = Sentence(
            "{count} tables are side by side: the heads {needed} are there {count} times",
            count=len(starts),
            needed=", ".join(needed),
        )
        shape.notes.append(noted(heads, what))
    return shape


def _check_own(
    shape: Shape, split: list[tuple[str, str]], units: dict[int, str], own: set[str]
) -> None:
    """Refuse a table with a column `unit` and another unit at the head of its figure.

    Raises
    ------
    InputFault
        If it is so.
    """
    for column, unit in units.items():
        head = split[column][0] if column < len(split) else ""
        if head in own:
            cell = shape.heads[0][column]
            what = SheetCause.UNIT_IN_HEADS_TOO(head=head, unit=unit)
            raise CausedFault(what, place=cell.place(), remedy="take one of the two out")


def _starts(heads: list[str], needed: Sequence[str]) -> list[int]:
    """Return the columns at which tables begin: where a head is that was there already."""
    counts = {heads.count(head) for head in needed}
    if counts == {1} or len(counts) != 1 or len(needed) < 2:
        return [0]
    starts, seen = [0], set[str]()
    for column, head in enumerate(heads):
        if head in needed and head in seen:
            starts.append(column)
            seen = set()
        seen.add(head)
    return starts if len(starts) == counts.pop() else [0]


def _cut(cells: list[Cell], first: int, last: int) -> list[Cell]:
    """Return the cells of some columns of a row; those that it doesn't reach are empty."""
    sheet, line = cells[0].sheet, cells[0].line
    return [
        cells[column] if column < len(cells) else Cell(sheet, line, column + 1, None)
        for column in range(first, last)
    ]


# ---- a column or a pair of columns for each tank


def _strap_columns(lines: list[list[Cell]], at: int, columns: list[int], reader: Reader) -> Shape:
    """Return the table of a sheet with one column of levels, and one of volumes for each tank."""
    heads = lines[at]
    below = lines[at + 1] if at + 1 < len(lines) else []
    units = units_below(below)
    level = column_of(heads, columns, _LEVELS, LENGTHS, "levels", "level")
    body = lines[at + 1 + bool(units) :]
    head_unit = split_head(heads[level])[1] or unit_of(heads[level].text)
    said = {level: head_unit} if head_unit in LENGTHS else {}
    check_units(said, units, below)
    units = said | units
    shape = Shape(heads=[heads, *([below] if len(units) > len(said) else [])], body=body)
    table = SheetTable([heads_like(heads[level], "tank", "level", "volume")])
    _check_decimals(body, [level], units, reader)
    for column in columns:
        for cells in body:
            if has_figure(cells, column, reader):
                level_cell = with_unit(cell_at(cells, level), units.get(level, ""), reader)
                volume = with_unit(cell_at(cells, column), units.get(column, ""), reader)
                table.lines.append([as_row(heads[column], cells), level_cell, volume])
    shape.tables, shape.read = [table], {level, *columns}
    shape.notes.append(wide_note(heads, columns, "volumes", level, units, "mm"))
    return shape


def _pairs(lines: list[list[Cell]], at: int, columns: list[int], reader: Reader) -> Shape:
    """Return the table of a sheet with a column of levels and one of volumes for each tank."""
    names, heads = lines[at], lines[at + 1]
    below = lines[at + 2] if at + 2 < len(lines) else []
    row = units_below(below)
    pairs = _subheads(lines, at, columns)
    units: dict[int, str] = {}
    for column in [each for pair in pairs.values() for each in pair]:
        unit = split_head(heads[column])[1] or unit_of(heads[column].text)
        if unit in UNITS:
            units[column] = unit
    check_units(units, row, below)
    shape = Shape(heads=[names, heads, *([below] if row else [])], body=lines[at + 2 + bool(row) :])
    units |= row
    _check_decimals(shape.body, [level for level, _ in pairs.values()], units, reader)
    table = SheetTable([heads_like(heads[0], "tank", "level", "volume")])
    for column, (level, volume) in pairs.items():
        for cells in shape.body:
            if has_figure(cells, level, reader) or has_figure(cells, volume, reader):
                pair = [
                    with_unit(cell_at(cells, each), units.get(each, ""), reader)
                    for each in (level, volume)
                ]
                table.lines.append([as_row(names[column], cells), *pair])
    shape.tables = [table]
    shape.read = {each for pair in pairs.values() for each in pair} | set(columns)
    what = Sentence(
        "there is a pair of columns for each of {count} tanks, levels and volumes, since their "
        "names are over pairs of such heads",
        count=len(pairs),
    )
    shape.notes.append(noted(names, what))
    return shape


def _subheads(lines: list[list[Cell]], at: int, columns: list[int]) -> dict[int, tuple[int, int]]:
    """Return the columns of levels and volumes under each tank's name; none if there are no such."""
    if at + 1 >= len(lines):
        return {}
    below = lines[at + 1]
    found = {}
    for column in columns:
        pair = [cell_at(below, each) for each in (column, column + 1)]
        kinds = [is_a(cell, _LEVELS, LENGTHS) - is_a(cell, _VOLUMES, VOLUMES) for cell in pair]
        if kinds == [1, -1] and column + 1 not in columns:
            found[column] = (column, column + 1)
        elif kinds == [-1, 1] and column + 1 not in columns:
            found[column] = (column + 1, column)
    return found if len(found) == len(columns) else {}


# ---- what helps


def _check_decimals(
    body: list[list[Cell]], levels: list[int], units: dict[int, str], reader: Reader
) -> None:
    """Refuse levels with decimals without a unit: they may be metres.

    Raises
    ------
    InputFault
        If there are such.
    """
    for column in levels:
        for cells in body if column not in units else ():
            cell = cell_at(cells, column)
            if isinstance(cell.value, str) and re.fullmatch("[0-9]+[.,][0-9]+", cell.value):
                number = reader.number(cell)
            elif isinstance(cell.value, Decimal):
                number = cell.value
            else:
                continue
            if number % 1:
                what = SheetCause.LEVELS_WITHOUT_UNIT(text=cell.text)
                remedy = "write mm, cm or m below its head"
                raise CausedFault(what, place=cell.place(), text=cell.text, remedy=remedy)
