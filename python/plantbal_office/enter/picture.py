"""The faults of a workbook at their cells, in a picture of each sheet."""

from __future__ import annotations

import re
from collections import defaultdict
from collections.abc import Iterable, Sequence
from dataclasses import dataclass, field
from pathlib import Path

from plantbal.faults import Fault, Faults, Place
from plantbal.workbook.sheets import Sheet, letters, read_workbook
from plantbal_office.sentences import said

# How many faults have a picture, and how much of a sheet stands around each.
MOST = 60
ABOVE, BELOW, BESIDE = 2, 1, 7
_CELL = re.compile(r"([A-Z]+)([0-9]+)")
_LETTERS = 26


@dataclass
class PictureCell:
    """A cell of a picture: what stands there, and what is wrong with it."""

    text: str
    faults: list[str] = field(default_factory=list)
    remedies: list[str] = field(default_factory=list)


@dataclass
class PictureRow:
    """A row of a picture: its number, its cells, and whether rows before it are left out."""

    number: int
    cells: list[PictureCell]
    is_cut: bool = False


@dataclass
class SheetPicture:
    """A part of a sheet, with the faults at its cells."""

    name: str
    columns: list[str]
    rows: list[PictureRow]


@dataclass(frozen=True)
class FaultPlace:
    """Where a fault stands in a sheet; 0 is the whole row, or the whole column."""

    line: int
    column: int
    what: str
    remedy: str


def spot_of(place: Place) -> tuple[int, int]:
    """Return the row and the column of a place; 0 if it has none."""
    found = _CELL.fullmatch(place.cell)
    if found is None:
        return place.line or 0, place.column or 0
    column = 0
    for letter in found[1]:
        column = _LETTERS * column + ord(letter) - ord("A") + 1
    return int(found[2]), column


def all_of(fault: Fault) -> Sequence[Fault]:
    """Return the faults that a fault is of: its own if it isn't several."""
    return fault.faults if isinstance(fault, Faults) else (fault,)


def pictures_of(fault: Fault, workbook: Path) -> tuple[list[SheetPicture], list[Fault]]:
    """Return the pictures of a workbook's faults, and those that have no cell.

    Parameters
    ----------
    fault : Fault
        What is wrong with it.
    workbook : Path
        The workbook.
    """
    try:
        sheets = read_workbook(workbook)
    except Fault:
        return [], list(all_of(fault))
    by_sheet: dict[int, list[FaultPlace]] = defaultdict(list)
    rest: list[Fault] = []
    for each in all_of(fault):
        at = _sheet_of(each.place, sheets)
        line, column = spot_of(each.place)
        if at is None or not line or sum(map(len, by_sheet.values())) >= MOST:
            rest.append(each)
            continue
        found = FaultPlace(line, column, said(each.what), said(each.remedy))
        if found not in by_sheet[at]:  # a row of many tanks says the same of each
            by_sheet[at].append(found)
    return [_picture(sheets[at], found) for at, found in by_sheet.items()], rest


def _sheet_of(place: Place, sheets: Sequence[Sheet]) -> int | None:
    """Return the number of the sheet in which a place is."""
    for at, sheet in enumerate(sheets):
        if sheet.is_csv and place.file == sheet.file:
            return at
        if not sheet.is_csv and place.sheet == sheet.name:
            return at
    return None


def _picture(sheet: Sheet, faults: Iterable[FaultPlace]) -> SheetPicture:
    """Return the part of a sheet that its faults are in, below its head."""
    wrong: dict[int, list[FaultPlace]] = defaultdict(list)
    for each in faults:
        wrong[each.line].append(each)
    numbers = [number for number, _ in sheet.lines]
    near = {n for line in wrong for n in range(line - ABOVE, line + BELOW + 1)}
    shown = {*numbers[:1], *(n for n in numbers if n in near), *wrong}
    widest = max((len(values) for n, values in sheet.lines if n in shown), default=1)
    columns = _columns(wrong, widest)
    values_of = dict(sheet.lines)
    rows = []
    before = 0
    for number in sorted(shown):
        values = values_of.get(number, [])
        cells = []
        for column in columns:
            value = values[column - 1] if column <= len(values) else None
            cells.append(_spot(value, [each for each in wrong[number] if each.column == column]))
        whole = [each for each in wrong[number] if each.column not in columns]
        if whole and cells:
            cells[0].faults += [each.what for each in whole]
            cells[0].remedies += [each.remedy for each in whole if each.remedy]
        rows.append(PictureRow(number, cells, is_cut=bool(before) and number > before + 1))
        before = number
    return SheetPicture(
        Path(sheet.file).name if sheet.is_csv else sheet.name, list(map(letters, columns)), rows
    )


def _columns(wrong: dict[int, list[FaultPlace]], widest: int) -> list[int]:
    """Return which columns are shown: the first, and those near a fault if there are many."""
    if widest <= 2 * BESIDE:
        return list(range(1, widest + 1))
    near = {1}
    for each in (each for some in wrong.values() for each in some if each.column):
        near |= set(range(max(1, each.column - 2), min(widest, each.column + 2) + 1))
    return sorted(near)[: 3 * BESIDE]


def _spot(value: object, faults: Sequence[FaultPlace]) -> PictureCell:
    """Return a cell of a picture."""
    text = "" if value is None else str(value)[:80]
    remedies = [each.remedy for each in faults if each.remedy]
    return PictureCell(text, [each.what for each in faults], list(dict.fromkeys(remedies)))
