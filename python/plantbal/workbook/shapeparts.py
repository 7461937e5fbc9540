"""What the shapes of tables are made of: cells of heads and rows, units of columns, notes.

A cell keeps its place in its sheet, whatever table it is put into.
"""

from __future__ import annotations

import re
from collections.abc import Collection
from dataclasses import dataclass, field
from decimal import Decimal
from fractions import Fraction

from plantbal.causes import CausedFault
from plantbal.sentence import Sentence
from plantbal.workbook.causes import SheetCause
from plantbal.workbook.cells import Reader
from plantbal.workbook.sheets import Cell, letters
from plantbal.workbook.units import UNITS, unit_of

HEADS_WITHIN = 40  # rows of a sheet
_UNIT_IN_HEAD = re.compile(r"(.*?)\s*[\[(]\s*([^\[\]()]+?)\s*[\])]")
# A figure without a unit after it.
_BARE = re.compile("[-+\u2212]?[0-9][0-9.,' \u00a0\u2009\u202f\u2019]*(?:[eE][-+]?[0-9]+)?")
# The most digits after a point that a text may be read by as thousands.
_THOUSANDS = 3


@dataclass
class SheetTable:
    """A table of a sheet, with the heads of its kind.

    Attributes
    ----------
    lines : list of list of Cell
        The row of heads, and those below it; each cell has its place in the sheet.
    """

    lines: list[list[Cell]]


@dataclass
class Shape:
    """What was recognised in a sheet.

    Attributes
    ----------
    tables : list of SheetTable
        Its tables; none if it is to be read as it is.
    heads : list of list of Cell
        Rows that are heads, or units of heads.
    body : list of list of Cell
        The rows below them.
    read : set of int
        The columns that are read, counted from 0; empty if the tables say themselves what isn't.
    notes : list of str
        What was recognised, and by what.
    """

    tables: list[SheetTable] = field(default_factory=list)
    heads: list[list[Cell]] = field(default_factory=list)
    body: list[list[Cell]] = field(default_factory=list)
    read: set[int] = field(default_factory=set)
    notes: list[str] = field(default_factory=list)


def split_head(cell: Cell) -> tuple[str, str]:
    """Return the head of a column in small letters, and the unit in brackets after it."""
    match = _UNIT_IN_HEAD.fullmatch(cell.text)
    if match and unit_of(match.group(2)) in UNITS:
        return match.group(1).casefold(), unit_of(match.group(2))
    return cell.text.casefold(), ""


def with_unit(cell: Cell, unit: str, reader: Reader) -> Cell:
    """Return a cell with a number as one with its unit after it, as the locale writes it."""
    text = cell.value
    if isinstance(text, Decimal):
        digits = f"{text:f}"
        if len(digits.partition(".")[2]) == _THOUSANDS:
            digits += "0"  # else it could be thousands
        text = digits.replace(".", reader.marks_of(cell)[0])
    if not unit or not isinstance(text, str) or not _BARE.fullmatch(text):
        return cell
    return Cell(cell.sheet, cell.line, cell.column, f"{text} {unit}")


def cell_at(cells: list[Cell], column: int) -> Cell:
    """Return the cell of a column; an empty one if the row doesn't reach it."""
    if column < len(cells):
        return cells[column]
    return Cell(cells[0].sheet, cells[0].line, column + 1, None)


def has_figure(cells: list[Cell], column: int, reader: Reader) -> bool:
    """Say whether something other than a word for nothing is in a column of a row."""
    return not reader.is_missing(cell_at(cells, column))


def as_row(name: Cell, cells: list[Cell]) -> Cell:
    """Return a tank's name as if it were in a row, at its head's column."""
    return Cell(name.sheet, cells[0].line, name.column, name.value)


def heads_like(cell: Cell, *heads: str) -> list[Cell]:
    """Return heads in the row of a cell."""
    return [Cell(cell.sheet, cell.line, cell.column, head) for head in heads]


def is_a(cell: Cell, words: Collection[str], units: dict[str, Fraction]) -> int:
    """Return 1 if a head is one of some words, or of a unit, and 0 otherwise."""
    head, unit = split_head(cell)
    first = re.split(r"[\s_/]", head)[0]
    return int(first in words or (unit or unit_of(cell.text)) in units)


def units_below(cells: list[Cell]) -> dict[int, str]:
    """Return the units of a row that has nothing but units, by columns; none if it isn't such."""
    texts = {column: cell for column, cell in enumerate(cells) if cell.value is not None}
    units = {column: unit_of(cell.text) for column, cell in texts.items()}
    if all(isinstance(texts[column].value, str) for column in texts):
        if units and all(unit in UNITS for unit in units.values()):
            return units
    return {}


def check_units(units: dict[int, str], row: dict[int, str], cells: list[Cell]) -> None:
    """Refuse a row of units that differs from the units of the heads.

    Raises
    ------
    InputFault
        If it is so.
    """
    for column, unit in row.items():
        if units.get(column, unit) != unit:
            what = SheetCause.UNIT_OF_HEAD_DIFFERS(unit=unit, other=units[column])
            place = cell_at(cells, column).place()
            raise CausedFault(what, place=place, remedy="take one of the two out")


def column_of(
    heads: list[Cell],
    columns: list[int],
    words: Collection[str],
    units: dict[str, Fraction],
    what: str,
    head: str,
) -> int:
    """Return the column of the levels or of the days: by its head, or the only other one.

    Raises
    ------
    InputFault
        If there is none, or more than one.
    """
    others = [column for column in range(len(heads)) if column not in columns]
    found = [column for column in others if is_a(heads[column], words, units)]
    if len(found) == 1:
        return found[0]
    if not found and columns[0] == 1:
        return 0
    said = ", ".join(cell.text for cell in heads if cell.column - 1 in columns[:3])
    cause = SheetCause.SEVERAL_COLUMNS_BESIDE if found else SheetCause.NO_COLUMN_BESIDE
    raise CausedFault(
        cause(what=what, names=said),
        place=heads[0].sheet.place(heads[0].line),
        remedy=Sentence("call one column {head}", head=head),
    )


def wide_note(
    heads: list[Cell],
    columns: list[int],
    what: str,
    beside: int,
    units: dict[int, str],
    default: str,
) -> str:
    """Say that a sheet has a column for each tank."""
    names = [heads[column].text for column in columns]
    said = f"{', '.join(names[:3])}{' ..' if len(names) > 3 else ''}"
    others = sorted({units[column] for column in [beside, *columns] if column in units})
    note = Sentence(
        "there is a column of {what} for each of {count} tanks ({said}), beside column {column}, "
        "since the heads are names of tanks; units: {units}",
        what=Sentence(what),
        count=len(names),
        said=said,
        column=letters(beside + 1),
        units=", ".join(others) or Sentence("none is given"),
    )
    return noted(heads, note)


def noted(cells: list[Cell], what: str) -> str:
    """Return a note on a row."""
    return Sentence("{place} {what}", place=cells[0].sheet.place(cells[0].line), what=what)
