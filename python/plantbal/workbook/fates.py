"""The account of a workbook: what became of each row, so that none is lost in silence.

Each row of a sheet that isn't empty is a row of heads, was read, was skipped, or is at fault:
these four add up to the rows of the file. A row that no reader took is said in the end, and so is
each column that isn't read; one of figures or units is a fault.
"""

from __future__ import annotations

import enum
import re
from collections import Counter
from collections.abc import Iterable, Iterator, Sequence
from dataclasses import dataclass, field

from plantbal.causes import CausedFault
from plantbal.faults import Fault, InputFault, Place
from plantbal.sentence import Sentence, phrase
from plantbal.workbook.causes import SheetCause
from plantbal.workbook.cells import Reader
from plantbal.workbook.remedies import OptionRemedy
from plantbal.workbook.sheets import Cell, NoValue, Sheet
from plantbal.workbook.units import UNITS, unit_of

_CELL = re.compile(r"[A-Z]+([0-9]+)")
# What a column of remarks, or of running numbers, is called: such a column is no figure lost.
_REMARKS = frozenset(
    "remark remarks comment comments note notes bemerkung bemerkungen kommentar anmerkung "
    "anmerkungen remarque remarques commentaire observaciones no no. nr nr. # pos pos. line".split()
)
_SAID = 4  # rows of a sheet that a note names


class Fate(enum.Enum):
    """What became of a row."""

    HEADS = "heads"
    READ = "read"
    PASSED = "skipped"
    FAULT = "at fault"


@dataclass(frozen=True, slots=True)
class SheetFates:
    """What became of the rows of a sheet.

    Attributes
    ----------
    file, sheet : str
        The file, and the sheet's name.
    rows : int
        How many rows aren't empty.
    heads, read, passed, at_fault : int
        How many of them are heads, were read, were skipped, or are at fault.
    """

    file: str
    sheet: str
    rows: int
    heads: int
    read: int
    passed: int
    at_fault: int


@dataclass
class Fates:
    """What became of the rows of a workbook.

    Attributes
    ----------
    sheets : list of Sheet
        The workbook.
    fates : list of dict of int to Fate
        Of each sheet the fates of its lines so far.
    """

    sheets: list[Sheet]
    fates: list[dict[int, Fate]] = field(init=False)

    def __post_init__(self) -> None:
        self.fates = [{} for _ in self.sheets]
        self._places = {id(sheet): at for at, sheet in enumerate(self.sheets)}
        for sheet, fates in zip(self.sheets, self.fates):  # what a mapping has taken already
            fates |= {n: Fate.HEADS if heads else Fate.PASSED for n, heads in sheet.taken.items()}

    def put(self, fate: Fate, *rows: Sequence[Cell]) -> None:
        """Say what became of rows."""
        for cells in rows:
            at = self._places.get(id(cells[0].sheet)) if cells else None
            if at is not None:
                self.fates[at].setdefault(cells[0].line, fate)

    def put_lines(self, fate: Fate, sheet: Sheet, lines: Iterable[int]) -> None:
        """Say what became of rows of a sheet by their numbers."""
        fates = self.fates[self._places[id(sheet)]]
        for line in lines:
            fates.setdefault(line, fate)

    def put_sheet(self, fate: Fate, sheet: Sheet) -> None:
        """Say what became of the rows of a sheet of which nothing is known."""
        at = self._places.get(id(sheet))
        for line, _ in sheet.lines if at is not None else ():
            self.fates[at or 0].setdefault(line, fate)

    def put_faults(self, faults: Iterable[Fault]) -> None:
        """Mark the rows that faults name; of a fault of a whole sheet those not accounted for."""
        names = {(sheet.file, "" if sheet.is_csv else sheet.name): sheet for sheet in self.sheets}
        lines: dict[int, set[int]] = {}
        for fault in faults:
            sheet = names.get((fault.place.file, fault.place.sheet))
            if sheet is None:
                continue
            place, line = self._places[id(sheet)], _line_of(fault.place)
            fates = self.fates[place]
            if place not in lines:
                lines[place] = {number for number, _ in sheet.lines}
            if line in lines[place]:
                fates[line] = Fate.FAULT
            elif line == 0:
                self.put_sheet(Fate.FAULT, sheet)

    def left(self, sheet: Sheet) -> list[list[Cell]]:
        """Return the rows of a sheet that nothing is known of."""
        fates = self.fates[self._places[id(sheet)]]
        return [sheet.row(at) for at, (line, _) in enumerate(sheet.lines) if line not in fates]

    def of_sheets(self) -> list[SheetFates]:
        """Return what became of the rows of each sheet."""
        found = []
        for sheet, fates in zip(self.sheets, self.fates):
            counts = Counter(fates.get(line) for line, _ in sheet.lines)
            if sheet.taken:  # rows that a mapping has taken, which may be gone
                lines = {line for line, _ in sheet.lines}
                counts.update(fates.get(line) for line in sheet.taken if line not in lines)
            count = [counts[fate] for fate in Fate]
            found.append(SheetFates(sheet.file, sheet.name, counts.total(), *count))
        return found


def _line_of(place: Place) -> int:
    """Return the line of a place in a sheet; 0 if it is the whole sheet."""
    cell = _CELL.fullmatch(place.cell)
    return int(cell.group(1)) if cell else place.line or 0


def is_figure(reader: Reader, cell: Cell) -> bool:
    """Say whether a figure stands in a cell."""
    if isinstance(cell.value, NoValue):
        return True
    if cell.value is None or isinstance(cell.value, bool) or not re.search("[0-9]", cell.text):
        return False
    if cell.text.endswith("%"):
        return True
    try:
        reader.number(cell)
    except Fault:
        return False
    return True


def is_unit(cell: Cell) -> bool:
    """Say whether a unit stands in a cell."""
    return isinstance(cell.value, str) and unit_of(cell.text) in UNITS


def unread_column(
    reader: Reader, head: Cell, below: Iterable[Cell]
) -> tuple[InputFault | None, str]:
    """Return what is to be said of a column that isn't read: a fault, or a note.

    Parameters
    ----------
    reader : Reader
        How the cells are written.
    head : Cell
        Its head, or the cell of one that has none.
    below : iterable of Cell
        The cells below it.
    """
    cells = [cell for cell in below if not reader.is_missing(cell)]
    name = (
        Sentence("the column {text!r}", text=head.text)
        if head.text
        else Sentence("this column without a head")
    )
    units = [cell for cell in cells if is_unit(cell)]
    figures = [cell for cell in cells if is_figure(reader, cell)]
    what = Sentence("units" if len(units) >= len(figures) else "figures")
    first = next(iter(units if len(units) >= len(figures) else figures), head)
    if 2 * (len(units) + len(figures)) > len(cells) and head.text.casefold() not in _REMARKS:
        remedy = OptionRemedy.LEAVE_OUT(text=head.text).sentence if head.text else ""
        other = "give it the head of a column that is read"
        remedy = (
            Sentence("{other}, or {remedy}", other=phrase(other), remedy=phrase(remedy))
            if remedy
            else Sentence("{other}, or empty it", other=phrase(other))
        )
        case = SheetCause.COLUMN_NOT_READ(column=name, content=what)
        return CausedFault(case, place=first.place(head.text), text=first.text, remedy=remedy), ""
    if not cells:
        return None, ""
    at = (head if head.text else cells[0]).place()
    return None, Sentence("{place} {column} isn't read", place=at, column=name)


def unread_rows(reader: Reader, rows: Sequence[Sequence[Cell]]) -> Iterator[InputFault | str]:
    """Give what is to be said of rows of a sheet that aren't read: faults, and a note.

    Figures are here days and amounts with their units too.
    """
    others = []
    for cells in rows:
        there = [cell for cell in cells if not reader.is_missing(cell)]
        figures = [cell for cell in there if re.match("[+-]?[0-9]", cell.text) or is_unit(cell)]
        if len(figures) > 1 and 2 * len(figures) > len(there):
            yield CausedFault(
                SheetCause.ROW_NOT_READ(),
                place=figures[0].place(),
                text=figures[0].text,
                remedy="put it below the heads of its table, or take it out",
            )
        else:
            others.append(cells[0])
    if others:
        place = others[0].sheet.place(others[0].line)
        lines = ", ".join(str(cell.line) for cell in others[:_SAID])
        if len(others) == 1:
            yield Sentence("{place} the row is skipped", place=place)
        elif len(others) <= _SAID:
            yield Sentence("{place} the rows {lines} are skipped", place=place, lines=lines)
        else:
            what = "{place} the rows {lines} and {count:,} more are skipped"
            yield Sentence(what, place=place, lines=lines, count=len(others) - _SAID)
