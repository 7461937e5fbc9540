"""The cells of a sheet of Excel, read as a stream, a row at a time.

A cell far away or a merge of a million cells takes no memory, and a million cells with the same
number have it once. A number is the decimal number that the file has, as its style shows it.
"""

from __future__ import annotations

import datetime
import enum
import zipfile
from decimal import Decimal
from functools import lru_cache
from itertools import pairwise
from typing import Any

from plantbal import limits
from plantbal.causes import CausedFault
from plantbal.faults import Place
from plantbal.workbook.packed import hidden_notes
from plantbal.workbook.sheets import Held, NoValue, Sheet, Value, letters, without_end
from plantbal.workbook.xlsxparts import SPACE, TRUE, Part, Parts, Style, XlsxCause, rich_text
from plantbal.workbook.xmlwalk import SoughtElement, walk

_MOST_KEPT = 100_000
_DIGITS = "0123456789"


class CellSight(enum.Enum):
    """How whoever looks at a cell sees its value."""

    PLAIN = "as it is"
    STRUCK = "struck through"
    UNSEEN = "not at all, since its form shows no figure"

    @classmethod
    def of(cls, style: Style, is_number: bool) -> CellSight:
        """Return how a cell of a style is seen."""
        if style.is_struck:
            return cls.STRUCK
        hides = is_number and style.form.is_blank and not style.is_date
        return cls.UNSEEN if hides else cls.PLAIN


class CellValues:
    """The values of cells by what the file has of them; those of which it has the same are one.

    Parameters
    ----------
    parts : Parts
        What the small parts of the workbook say.
    """

    def __init__(self, parts: Parts) -> None:
        self._parts = parts
        self._kept: dict[tuple[str, str, str], tuple[Value, CellSight]] = {}

    def of(self, kind: str, text: str, style: str) -> tuple[Value, CellSight]:
        """Return the value of a cell in which a text stands, and how whoever looks at it sees it.

        Parameters
        ----------
        kind : str
            The type of the cell: ``n`` for a number.
        text : str
            What stands in it.
        style : str
            The number of its style.
        """
        key = kind, text, style
        found = self._kept.get(key)
        if found is None:
            number = int(style)
            if not 0 <= number < len(self._parts.styles):
                raise ValueError(f"there is no style {number}")
            value, shown = self._made(kind, text, number), self._parts.styles[number]
            found = value, CellSight.of(shown, kind == "n" and bool(value))
            if len(self._kept) < _MOST_KEPT:
                self._kept[key] = found
        return found

    def _made(self, kind: str, text: str, style: int) -> Value:
        if kind == "n":
            return self._number(text, style)
        if kind == "s":
            number = int(text)
            if not 0 <= number < len(self._parts.texts):
                raise ValueError(f"there is no text {number}")
            return self._parts.texts[number].strip() or None
        if kind == "b":
            return bool(int(text))
        if kind == "d":
            from openpyxl.utils.datetime import from_ISO8601

            return _moment(from_ISO8601(text))
        return text.strip() or None

    def _number(self, text: str, style: int) -> Value:
        """Return a number, or the day or time that it stands for, as its style shows it."""
        number = float(text) if "." in text or "e" in text or "E" in text else int(text)
        shown = self._parts.styles[style]
        if not shown.is_date:
            # `repr` gives the digits of the file, of which a cell has at most 17
            exact = Decimal(repr(number))
            if not exact.is_finite():
                raise ValueError(f"{text[:40]!r} is stored as a number")
            return shown.form.value(exact)
        from openpyxl.utils.datetime import MAC_EPOCH, WINDOWS_EPOCH, from_excel

        epoch = MAC_EPOCH if self._parts.epoch.year == MAC_EPOCH.year else WINDOWS_EPOCH
        try:
            return _moment(from_excel(number, epoch, timedelta=shown.is_span))
        except (OverflowError, ValueError):
            return "#VALUE!"


def _moment(found: Any) -> Value:
    """Return a day or a time as a value, and a span of time as a text."""
    if isinstance(found, (datetime.datetime, datetime.time)):
        return found
    if isinstance(found, datetime.date):
        return datetime.datetime.combine(found, datetime.time())
    return str(found)


class XlsxRows:
    """Reads the rows of a sheet.

    Parameters
    ----------
    file : str
        The workbook's name.
    parts : Parts
        What the small parts of the workbook say.
    part : Part
        The sheet.
    values : CellValues
        The values of cells.
    held : Held
        Counts what the workbook holds.
    """

    def __init__(self, file: str, parts: Parts, part: Part, values: CellValues, held: Held) -> None:
        self._part, self._values, self._held = part, values, held
        self._made = Sheet(file, part.name, [], epoch=parts.epoch)
        # the cells that are struck through, and those whose form shows no figure
        self._said: dict[CellSight, list[str]] = {CellSight.STRUCK: [], CellSight.UNSEEN: []}
        self._hidden: list[int] = []  # the rows that are hidden, of those that have values
        self._columns: dict[int, int] = {}  # the hidden columns: from which to which
        # the row that is being read, and the cell
        self._line = self._column = 0
        self._row: list[Value] = []
        self._line_text = ""
        self._is_hidden = self._is_numbered = self._is_sheet = False
        self._cell: dict[str, str] = {}
        self._has_value = self._is_formula = False
        self._text: list[str] = []
        self._rich: list[str] = []

    def sheet(self, archive: zipfile.ZipFile) -> Sheet:
        """Return the sheet, with notes on what is hidden or struck through."""
        cell = {
            f"{SPACE}v": SoughtElement(begin=self._begin_value, take=self._text.append),
            f"{SPACE}f": SoughtElement(begin=self._begin_formula),
            f"{SPACE}is": SoughtElement(rich_text(self._rich)),
        }
        row = {f"{SPACE}c": SoughtElement(cell, self._begin_cell, self._end_cell)}
        rows = {f"{SPACE}row": SoughtElement(row, self._begin_row, self._end_row)}
        columns = {f"{SPACE}col": SoughtElement(begin=self._take_columns)}
        whole = {f"{SPACE}sheetData": SoughtElement(rows), f"{SPACE}cols": SoughtElement(columns)}
        with archive.open(self._part.member) as source:
            walk(
                source,
                SoughtElement({f"{SPACE}worksheet": SoughtElement(whole, self._begin_sheet)}),
            )
        made = self._made
        if any(one[0] >= other[0] for one, other in pairwise(made.lines)):
            made.lines = _in_order(made.lines)
        width = max((len(values) for _, values in made.lines), default=0)
        hidden = sorted(
            {at for each in self._columns.items() for at in range(each[0], each[1] + 1)}
        )
        some = [letters(column) for column in hidden if column <= width]
        is_hidden = self._part.is_hidden and width > 0
        struck, unseen = self._said[CellSight.STRUCK], self._said[CellSight.UNSEEN]
        made.notes = list(hidden_notes(is_hidden, self._hidden, some, struck, unseen))
        if not self._is_sheet:
            made.notes.append("this isn't a sheet of cells, and isn't read")
        return made

    def _begin_sheet(self, attributes: dict[str, str]) -> None:
        self._is_sheet = True

    def _take_columns(self, attributes: dict[str, str]) -> None:
        """Take what is said of columns next to each other; of the same first one the last holds."""
        first = int(attributes["min"])
        self._columns.pop(first, None)
        if attributes.get("hidden") in TRUE or _is_none(attributes.get("width")):
            self._columns[first] = min(int(attributes["max"]), limits.COLUMNS)

    def _begin_row(self, attributes: dict[str, str]) -> None:
        number = attributes.get("r")
        self._is_numbered = number is not None
        self._take_line(self._line + 1 if number is None else _row_number(number))
        self._is_hidden = attributes.get("hidden") in TRUE or _is_none(attributes.get("ht"))
        self._column = 0

    def _take_line(self, line: int) -> None:
        self._line, self._line_text = line, str(line)
        if not 1 <= line <= limits.ROWS:
            raise self._beyond(1)

    def _end_row(self) -> None:
        values = without_end(self._row)
        if values:
            self._held.take(self._made, self._line, values)
            self._made.lines.append((self._line, values[:]))
            values.clear()
            if self._is_hidden:
                self._hidden.append(self._line)

    def _begin_cell(self, attributes: dict[str, str]) -> None:
        self._cell = attributes
        place = attributes.get("r")
        if place:
            name = place.rstrip(_DIGITS)
            self._column = _column_of(name)
            if place[len(name) :] != self._line_text:
                self._take_place(place, int(place[len(name) :]))
        else:
            self._column += 1
        if self._column > limits.COLUMNS:
            raise self._beyond(self._column)

    def _take_place(self, place: str, line: int) -> None:
        """Take the row that a cell names, if nothing else has said it.

        Raises
        ------
        ValueError
            If another row was named.
        """
        if line != self._line:
            if self._is_numbered:
                raise ValueError(f"the cell {place} is in row {self._line:,}")
            self._take_line(line)
        self._is_numbered = True

    def _begin_value(self, attributes: dict[str, str]) -> None:
        if self._has_value:
            raise ValueError("a cell has two values")
        self._has_value = True

    def _begin_formula(self, attributes: dict[str, str]) -> None:
        self._is_formula = True

    def _end_cell(self) -> None:
        kind = self._cell.get("t", "n")
        taken = self._rich if kind == "inlineStr" else self._text
        if taken:
            text = taken[0] if len(taken) == 1 else "".join(taken)
            value, look = self._values.of(kind, text, self._cell.get("s", "0"))
        else:
            value, look = NoValue() if self._is_formula else None, CellSight.PLAIN
        if value is not None:
            row, at = self._row, self._column - 1
            if at == len(row):
                row.append(value)
            else:
                row += [None] * (at + 1 - len(row))
                row[at] = value
            if look is not CellSight.PLAIN:
                self._said[look].append(f"{letters(self._column)}{self._line}")
        if self._has_value or taken:
            self._text.clear()
            self._rich.clear()
        self._has_value = self._is_formula = False

    def _beyond(self, column: int) -> CausedFault:
        return CausedFault(
            XlsxCause.BEYOND_SHEET(row=self._line, column=column),
            place=Place(file=self._made.file, sheet=self._made.name),
            remedy=f"a sheet has {limits.ROWS:,} rows and {limits.COLUMNS:,} columns",
        )


def _is_none(size: str | None) -> bool:
    """Say whether a height or a width is 0, so that nobody sees what stands there."""
    return size is not None and float(size) == 0


def _row_number(text: str) -> int:
    """Return the number of a row; some programs write it with a decimal point."""
    number = float(text)
    if not number.is_integer():
        raise ValueError(f"{text[:40]} isn't the number of a row")
    return int(number)


@lru_cache(maxsize=None)
def _column_of(name: str) -> int:
    """Return the number of a column by its letters, counted from 1."""
    from openpyxl.utils import column_index_from_string

    found: int = column_index_from_string(name)
    return found


def _in_order(lines: list[tuple[int, list[Value]]]) -> list[tuple[int, list[Value]]]:
    """Return rows in the order of their numbers; of one that is there twice the later cells hold."""
    rows: dict[int, list[Value]] = {}
    for line, values in lines:
        row = rows.setdefault(line, [])
        row += [None] * (len(values) - len(row))
        for at, value in enumerate(values):
            if value is not None:
                row[at] = value
    return sorted(rows.items())
