"""The tables of a plant's workbook: its sheets by their kinds, their heads, their rows.

`Tables` is what all readers share: the cells, the session that they make, and what is wrong.
"""

from __future__ import annotations

import datetime
import difflib
import re
from collections.abc import Callable, Collection, Container, Iterator, Mapping, Sequence
from contextlib import contextmanager
from dataclasses import dataclass
from decimal import Decimal

from plantbal.causes import Case, CausedFault
from plantbal.faults import Fault, InputFault, Refusal
from plantbal.sentence import Sentence, phrase
from plantbal.session import Session
from plantbal.workbook.causes import SheetCause
from plantbal.workbook.fates import Fate, Fates, is_figure, unread_column, unread_rows
from plantbal.workbook.base import MOST_GRAMS, MOST_VARIANCE, error_said
from plantbal.workbook.cells import Reader
from plantbal.workbook.sheetforms import SheetKind
from plantbal.workbook.sheetkinds import PASSED, SHEETS
from plantbal.workbook.shapeparts import HEADS_WITHIN, Shape
from plantbal.workbook.shapes import shape_of
from plantbal.workbook.sheets import Cell, Sheet

_HEADS_THAT_TELL = 3  # with fewer columns a sheet of another kind might be meant
OTHER_HEADS = {"date": "day", "datum": "day", "volume (m3)": "volume", "level (mm)": "level"}
TOTALS = frozenset(
    "total totals sum summe summen gesamt somme totale suma σ average mean mittelwert mittel "
    "min max minimum maximum count anzahl mtd ytd".split()
)


@dataclass(frozen=True)
class SheetRow:
    """A row of a sheet, by the heads of its columns."""

    cells: Mapping[str, Cell]

    def __getitem__(self, head: str) -> Cell:
        return self.cells[head]

    def text(self, head: str) -> str:
        """Return the text of a cell."""
        return self.cells[head].text


def kind_of_heads(sheet: Sheet) -> str:
    """Return the kind of a sheet that has a row with the heads of one, or nothing."""
    for _, values in sheet.lines[:HEADS_WITHIN]:
        texts = {value.strip().casefold() for value in values if isinstance(value, str)}
        heads = {OTHER_HEADS.get(text, text) for text in texts}
        for kind in SHEETS.values():
            if len(kind.needed) >= _HEADS_THAT_TELL and heads.issuperset(kind.needed):
                return kind.word
    return ""


def is_rows_of_critical(sheet: Sheet) -> bool:
    """Say whether a sheet has the rows that `plantbal-desk critical` writes."""
    return bool(sheet.lines) and all(values[0] == "critical" for _, values in sheet.lines)


class Tables:
    """Reads the tables of a workbook, and keeps what is wrong.

    Parameters
    ----------
    sheets : list of Sheet
        The workbook.
    reader : Reader
        How its cells are written.
    skip : tuple of str
        Heads of columns to leave out.

    Attributes
    ----------
    fates : Fates
        What became of each row.
    names_across : callable
        Gives the names that may be heads of columns in a sheet of a kind.
    written : list of Cell
        The days that are texts.
    """

    def __init__(self, sheets: list[Sheet], reader: Reader, skip: Sequence[str] = ()) -> None:
        self.reader = reader
        self.skip = {head.casefold() for head in skip}
        self.session = Session(strict=False)
        self.faults: list[Fault] = []
        self.notes: list[str] = []
        self.written: list[Cell] = []
        self.fates = Fates(sheets)
        self.names_across: Callable[[str], Collection[str]] = lambda kind: ()
        self.sheets = self._by_kind(sheets)

    def _by_kind(self, sheets: list[Sheet]) -> dict[str, list[Sheet]]:
        found: dict[str, list[Sheet]] = {kind: [] for kind in SHEETS}
        for sheet in sheets:
            self.notes += [f"{sheet.place()} {note}" for note in sheet.notes]
            word = sheet.word or re.split(r"[^a-z]", sheet.name.strip().casefold(), maxsplit=1)[0]
            if word == "critical" and is_rows_of_critical(sheet):
                word = "rows"
            if word in found:
                # without a row below its heads a sheet is as if it weren't there
                if len(sheet.lines) > (0 if word in ("streams", "rows") else 1):
                    found[word].append(sheet)
                else:
                    self._take_heads(sheet)
                continue
            near = difflib.get_close_matches(word, SHEETS, n=1, cutoff=0.8)
            if near:
                remedy = Sentence("call it {near}", near=near[0])
                what = SheetCause.NO_SHEET_OF_NAME(name=sheet.name)
                self.faults.append(CausedFault(what, place=sheet.place(), remedy=remedy))
            else:
                self._pass_over(sheet, word)
        return found

    def _take_heads(self, sheet: Sheet) -> None:
        """Take the row of a sheet that has no other: its heads, or one that isn't read."""
        for cells in sheet.rows():
            if not any(is_figure(self.reader, cell) for cell in cells):
                self.fates.put(Fate.HEADS, cells)

    def _pass_over(self, sheet: Sheet, word: str) -> None:
        """Say that a sheet is skipped; one with the heads of a table is a fault."""
        self.fates.put_sheet(Fate.PASSED, sheet)
        if word in PASSED or not sheet.lines:
            return
        kind = kind_of_heads(sheet)
        if kind and len(sheet.lines) > 1:
            what = SheetCause.SHEET_NOT_READ(kind=kind)
            self.faults.append(
                CausedFault(what, place=sheet.place(), remedy=Sentence("call it {kind}", kind=kind))
            )
        else:
            self.notes.append(Sentence("{place} the sheet is skipped", place=sheet.place()))

    @contextmanager
    def kept(self) -> Iterator[None]:
        """Keep a fault of the block."""
        try:
            yield
        except Fault as fault:
            self.faults.append(fault)

    def fault(self, cell: Cell, what: Case, remedy: str = "", head: str = "") -> None:
        """Keep a fault at a cell."""
        self.faults.append(self.reader.fault(cell, what, remedy, head))

    def put(self, fields: Sequence[str], cells: Mapping[str, Cell]) -> bool:
        """Give a row to the session; if it is refused, that is a fault at the cell of its column.

        Parameters
        ----------
        fields : sequence of str
            The row.
        cells : mapping of str to Cell
            The cells by the columns of the row; the first stands for all others.
        """
        if self.session.row(*fields):
            return True
        refusal: Refusal = self.session.refused.take_back()
        cell = cells.get(refusal.column) or next(iter(cells.values()))
        refusal.place = cell.place()
        self.faults.append(refusal)
        return False

    def bearable(self, found: int, grams: int, cell: Cell) -> int:
        """Return the variance of a figure, in squared grams.

        Raises
        ------
        InputFault
            If it is wider than a row bears.
        """
        if found > MOST_VARIANCE and abs(grams) <= MOST_GRAMS:  # else the figure is refused
            most = error_said(MOST_VARIANCE)
            what = SheetCause.ERROR_TOO_WIDE(text=cell.text, error=error_said(found), most=most)
            remedy = "look at the error's unit, or enter the figure in several parts"
            raise self.reader.fault(cell, what, remedy)
        return found

    def rows(self, kind: str, facts: bool = False) -> Iterator[SheetRow]:
        """Give the rows of the sheets of a kind."""
        for sheet in self.sheets[kind]:
            with self.kept():
                yield from self._rows_of(sheet, kind, facts)

    def _rows_of(self, sheet: Sheet, kind: str, facts: bool) -> Iterator[SheetRow]:
        own, shape = SHEETS[kind], Shape()
        if own.is_shaped:
            names = self.names_across(kind) if own.is_across else ()
            shape = shape_of(sheet, kind, own.needed, names, self.reader)
        if not shape.tables:
            yield from self._rows_in(sheet, list(sheet.rows()), own, facts)
            return
        self.notes += shape.notes
        self.fates.put(Fate.HEADS, *shape.heads)
        if shape.read:
            self.say_columns(shape.heads[0], shape.body, shape.read)
        for table in shape.tables:
            yield from self._rows_in(sheet, table.lines, own, facts)

    def _rows_in(
        self, sheet: Sheet, lines: list[list[Cell]], kind: SheetKind, facts: bool
    ) -> Iterator[SheetRow]:
        needed, others = kind.needed, kind.others
        at, heads = self._heads(sheet, lines, needed, others)
        self.fates.put(Fate.HEADS, lines[at])
        wrong = self._wrong_heads(lines[at], heads, others)
        self.say_columns(lines[at], lines[at + 1 :], {*heads.values(), *wrong})
        for cells in lines[at + 1 :]:
            row = {
                head: cells[column] if column < len(cells) else self.beside(cells, column)
                for head, column in heads.items()
            }
            for head in (*needed, *others):
                row.setdefault(head, Cell(sheet, cells[0].line, 0, None))
            if all(self.reader.is_missing(row[head]) for head in heads):
                continue
            if facts and (self.is_total(cells) or self.is_remark(cells)):
                continue
            self.fates.put(Fate.READ, cells)
            yield SheetRow(row)

    def beside(self, cells: list[Cell], column: int) -> Cell:
        """Return the empty cell of a column that a row doesn't reach."""
        return Cell(cells[0].sheet, cells[0].line, column + 1, None)

    def _heads(
        self,
        sheet: Sheet,
        lines: list[list[Cell]],
        needed: tuple[str, ...],
        others: tuple[str, ...],
    ) -> tuple[int, dict[str, int]]:
        """Return which row has the heads, and the column of each."""
        best: tuple[int, dict[str, int]] = 0, {}
        for at, cells in enumerate(lines[:HEADS_WITHIN]):
            found: dict[str, int] = {}
            for column, cell in enumerate(cells):
                head = cell.text.casefold()
                head = OTHER_HEADS.get(head, head)
                if head in (*needed, *others):
                    found.setdefault(head, column)
            if len(found) > len(best[1]):
                best = at, found
        at, heads = best
        for head in needed:
            if head not in heads:
                like = self._near_head(lines[at], head)
                remedy = Sentence("the columns are {needed}", needed=", ".join(needed))
                if others:
                    remedy = Sentence(
                        "the columns are {needed}, and, where they apply, {others}",
                        needed=", ".join(needed),
                        others=", ".join(others),
                    )
                if like:
                    remedy = Sentence("{like} is nearly its name", like=like)
                place = sheet.place(lines[at][0].line)
                raise CausedFault(SheetCause.NO_COLUMN(head=head), place=place, remedy=remedy)
        return at, heads

    def _wrong_heads(
        self, cells: list[Cell], heads: dict[str, int], others: tuple[str, ...]
    ) -> set[int]:
        """Keep the faults of heads that stand twice or are misspelt, and return their columns."""
        wrong = set()
        for column, cell in enumerate(cells):
            if cell.text.casefold() in self.skip:
                continue
            head = OTHER_HEADS.get(cell.text.casefold(), cell.text.casefold())
            if heads.get(head, column) != column:
                self.fault(cell, SheetCause.TWO_COLUMNS(head=head), "take one of the two out")
                wrong.add(column)
            near = difflib.get_close_matches(cell.text.casefold(), others, n=1, cutoff=0.75)
            if near and near[0] not in heads:
                what = SheetCause.NO_COLUMN_HERE(head=cell.text)
                self.fault(cell, what, Sentence("did you mean {near}?", near=near[0]))
                wrong.add(column)
        return wrong

    def _near_head(self, cells: list[Cell], head: str) -> str:
        texts = [cell.text for cell in cells if cell.text]
        return next(iter(difflib.get_close_matches(head, texts, n=1)), "")

    def is_total(self, cells: list[Cell]) -> bool:
        """Say whether a row is a sum or the like, and note that it is skipped."""
        first = next((cell for cell in cells if cell.value is not None), None)
        if first is None or not isinstance(first.value, str):
            return False
        words = re.split(r"[\s:.]+", first.text.casefold())
        if words[0] not in TOTALS:
            return False
        self.pass_row(cells, first)
        return True

    def is_remark(self, cells: list[Cell]) -> bool:
        """Say whether a row has nothing but a text of several words, which no name or figure is."""
        there = [cell for cell in cells if not self.reader.is_missing(cell)]
        if len(there) != 1 or not isinstance(there[0].value, str):
            return False
        if len(there[0].text.split()) < 2 or re.match("[-+]?[0-9]", there[0].text):
            return False
        self.pass_row(cells, there[0])
        return True

    def pass_row(self, cells: list[Cell], first: Cell) -> None:
        """Pass over a row, and say so by its first cell with a value."""
        self.fates.put(Fate.PASSED, cells)
        note = Sentence("{place} the row {text!r} is skipped", place=first.place(), text=first.text)
        if note not in self.notes:  # a row may be of several tables
            self.notes.append(note)

    # ---- what isn't read

    def pass_sheet(self, sheet: Sheet, why: str) -> None:
        """Pass over a sheet, and say why."""
        self.fates.put_sheet(Fate.PASSED, sheet)
        self.notes.append(
            Sentence("{place} the sheet is skipped: {why}", place=sheet.place(), why=phrase(why))
        )

    def say_columns(self, heads: list[Cell], lines: list[list[Cell]], read: set[int]) -> None:
        """Say which columns aren't read; one of figures or units is a fault.

        Parameters
        ----------
        heads : list of Cell
            The row of heads.
        lines : list of list of Cell
            The rows below it.
        read : set of int
            The columns that are read, counted from 0.
        """
        for column in range(max(map(len, [heads, *lines]))):
            head = heads[column] if column < len(heads) else self.beside(heads, column)
            if column in read or head.text.casefold() in self.skip:
                continue
            below = (cells[column] for cells in lines if column < len(cells))
            fault, note = unread_column(self.reader, head, below)
            if fault is not None:
                self.faults.append(fault)
            elif note:
                self.notes.append(note)

    def say_unread(self, kinds: Container[str] = tuple(SHEETS)) -> None:
        """Say which rows of the sheets of these kinds aren't read; rows of figures are faults."""
        self.fates.put_faults(self.faults)
        for kind, sheets in self.sheets.items():
            for sheet in sheets if kind in kinds else ():
                self._say_rows(self.fates.left(sheet))
        for sheet in self.fates.sheets:
            if len(sheet.lines) == 1:
                self._say_rows(self.fates.left(sheet))

    def _say_rows(self, rows: list[list[Cell]]) -> None:
        for said in unread_rows(self.reader, rows):
            if isinstance(said, InputFault):
                self.faults.append(said)
            else:
                self.notes.append(said)
        self.fates.put_faults(self.faults)
        self.fates.put(Fate.PASSED, *rows)

    # ---- days

    def maybe_day(self, cell: Cell) -> bool:
        """Say whether a cell looks like a day."""
        if isinstance(cell.value, str) and not re.search(r"[0-9]{2}", cell.value):
            return False
        if isinstance(cell.value, Decimal) and not 36_000 <= cell.value <= 73_000:
            return False
        try:
            self.reader.day(cell)
        except Fault:
            return False
        return True

    def day(self, cell: Cell) -> datetime.date | None:
        """Return a day, or None with a fault."""
        with self.kept():
            day = self.reader.day(cell, "day")
            if isinstance(cell.value, str):
                self.written.append(cell)
            return day
        return None
