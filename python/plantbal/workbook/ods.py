"""Workbooks of OpenDocument, as LibreOffice saves them: read as a stream, a row at a time.

A row or cell that is repeated a million times to a sheet's end stands there once, with a count: only
what has a value is taken as often as it is there, and counted against the limits. What a comment, a
tracked change or a drawing holds is no cell. Entities are refused. Hidden sheets, rows and columns
and cells that are struck through are read as all others, and said.
"""

from __future__ import annotations

import datetime
import io
import re
import zipfile
from collections.abc import Iterator
from dataclasses import dataclass, field
from decimal import Decimal, InvalidOperation
from typing import Any
from xml.etree.ElementTree import Element, iterparse

from plantbal import limits
from plantbal.faults import InputFault, Place
from plantbal.sentence import Sentence
from plantbal.workbook.cellforms import Form, form_shown
from plantbal.workbook.packed import check_size, hidden_notes, readable
from plantbal.workbook.sheets import (
    EPOCH,
    EPOCH_1904,
    Held,
    NoValue,
    Sheet,
    Value,
    letters,
    without_end,
)
from plantbal.workbook.xmlwalk import check_beginning

_SPACE = {
    "office": "urn:oasis:names:tc:opendocument:xmlns:office:1.0",
    "table": "urn:oasis:names:tc:opendocument:xmlns:table:1.0",
    "text": "urn:oasis:names:tc:opendocument:xmlns:text:1.0",
    "style": "urn:oasis:names:tc:opendocument:xmlns:style:1.0",
}
_TIME = re.compile(r"PT([0-9]+)H([0-9]+)M([0-9]+)(?:[.,][0-9]+)?S")


def _named(short: str) -> str:
    """Return the whole name of ``table:name``."""
    space, _, name = short.partition(":")
    return f"{{{_SPACE[space]}}}{name}"


_TABLE, _ROW, _CELL, _COVERED, _COLUMN = map(
    _named,
    (
        "table:table",
        "table:table-row",
        "table:table-cell",
        "table:covered-table-cell",
        "table:table-column",
    ),
)
_CHANGES, _STYLE, _NULL_DATE = map(
    _named, ("table:tracked-changes", "style:style", "table:null-date")
)
_PARAGRAPH, _SPACES, _BREAK, _TAB = map(_named, ("text:p", "text:s", "text:line-break", "text:tab"))
_READ_AT_END = frozenset({_ROW, _COLUMN, _TABLE, _STYLE, _NULL_DATE})
_COLUMNS_REPEATED = _named("table:number-columns-repeated")
_ROWS_REPEATED = _named("table:number-rows-repeated")
_VISIBILITY, _STYLE_NAME, _FORMULA = map(
    _named, ("table:visibility", "table:style-name", "table:formula")
)
_VALUE_TYPE, _VALUE, _DATE_VALUE, _TIME_VALUE, _TRUE = map(
    _named,
    (
        "office:value-type",
        "office:value",
        "office:date-value",
        "office:time-value",
        "office:boolean-value",
    ),
)


def ods_of(name: str, data: bytes) -> list[Sheet]:
    """Return the sheets of the bytes of an ods file.

    Raises
    ------
    InputFault
        If it can't be read, or holds more than `plantbal.limits` has.
    """
    with readable(name):
        check_size(name, data)
        with zipfile.ZipFile(io.BytesIO(data)) as packed:
            if b"encryption-data" in packed.read("META-INF/manifest.xml"):
                what, remedy = "this workbook is protected by a password", "save it without one"
                raise InputFault(what, place=Place(file=name), remedy=remedy)
            with packed.open("content.xml") as content:
                check_beginning(content)
            with packed.open("content.xml") as content:
                return _OdsReading(name).sheets(iterparse(content, events=("start", "end")))


@dataclass
class _Table:
    """A sheet that is being read.

    Attributes
    ----------
    sheet : Sheet
        The sheet so far.
    is_hidden : bool
        Whether it is hidden.
    line : int
        The rows that have been read.
    column : int
        The columns that have been declared.
    hidden, struck, columns : list
        The rows with values that are hidden, the cells that are struck through, hidden columns.
    unseen : list of str
        The cells that show no figure.
    """

    sheet: Sheet
    is_hidden: bool
    line: int = 0
    column: int = 0
    hidden: list[int] = field(default_factory=list)
    struck: list[str] = field(default_factory=list)
    unseen: list[str] = field(default_factory=list)
    columns: list[int] = field(default_factory=list)

    def finished(self) -> Sheet:
        """Return the sheet with its notes."""
        width = max((len(values) for _, values in self.sheet.lines), default=0)
        some = [letters(column) for column in self.columns if column <= width]
        is_hidden = self.is_hidden and width > 0
        self.sheet.notes = list(
            hidden_notes(is_hidden, self.hidden, some, self.struck, self.unseen)
        )
        return self.sheet


class _OdsReading:
    """Reads the sheets of a stream of elements.

    Parameters
    ----------
    file : str
        The workbook's name.
    """

    def __init__(self, file: str) -> None:
        self.file = file
        self.held = Held()
        self.struck_styles: set[str] = set()
        self.hidden_styles: set[str] = set()
        self.epoch = EPOCH
        self.table: _Table | None = None

    def sheets(self, events: Any) -> list[Sheet]:
        """Return the sheets; each element is dropped once it has been read."""
        found: list[Sheet] = []
        stack: list[Element] = []
        within = dict.fromkeys((_CHANGES, _CELL, _ROW), 0)  # how many of them are open
        for event, element in events:
            tag = element.tag
            if event == "start":
                if tag == _TABLE and self.table is None and not within[_CHANGES]:
                    self.table = self._begin(element)
                stack.append(element)
                if tag in within:
                    within[tag] += 1
                continue
            stack.pop()
            if tag in within:
                within[tag] -= 1
            if tag not in _READ_AT_END:
                continue
            if tag == _STYLE:
                self._take_style(element)
            elif tag == _NULL_DATE:
                self.epoch = EPOCH_1904 if _is_1904(element) else EPOCH
            elif self.table is not None and not within[_CELL]:
                if tag == _TABLE:
                    found.append(self.table.finished())
                    self.table = None
                elif tag == _ROW:
                    self._take_row(self.table, element)
                elif tag == _COLUMN:
                    self._take_column(self.table, element)
            if stack and not within[_ROW] and tag != _NULL_DATE:
                stack[-1].remove(element)
        for sheet in found:
            sheet.epoch = self.epoch
        return found

    def _begin(self, element: Element) -> _Table:
        name = element.get(_named("table:name"), "")
        return _Table(
            Sheet(self.file, name, []), element.get(_STYLE_NAME, "") in self.hidden_styles
        )

    def _take_style(self, element: Element) -> None:
        """Take a style that hides a sheet, or strikes a cell through."""
        name = element.get(_named("style:name"), "")
        for each in element:
            if each.get(_named("table:display")) == "false":
                self.hidden_styles.add(name)
            if each.get(_named("style:text-line-through-style"), "none") != "none":
                self.struck_styles.add(name)

    def _take_column(self, table: _Table, element: Element) -> None:
        count = _count(element, _COLUMNS_REPEATED, limits.COLUMNS)
        if element.get(_VISIBILITY, "visible") != "visible":
            table.columns += range(table.column + 1, min(table.column + count, limits.COLUMNS) + 1)
        table.column += count

    def _take_row(self, table: _Table, element: Element) -> None:
        """Take a row as often as it is there, if it has a value."""
        count = _count(element, _ROWS_REPEATED, limits.ROWS)
        values = self._values(table, element)
        if values:
            if table.line + count > limits.ROWS:
                raise self._fault(
                    table, Sentence("there is a cell in row {line:,}", line=table.line + count)
                )
            for line in range(table.line + 1, table.line + count + 1):
                self.held.take(table.sheet, line, values)
                table.sheet.lines.append((line, list(values)))
                if element.get(_VISIBILITY, "visible") != "visible":
                    table.hidden.append(line)
        table.line += count

    def _fault(self, table: _Table, what: str) -> InputFault:
        place = Place(file=self.file, sheet=table.sheet.name)
        remedy = Sentence(
            "a sheet has {rows:,} rows and {columns:,} columns",
            rows=limits.ROWS,
            columns=limits.COLUMNS,
        )
        return InputFault(what, place=place, remedy=remedy)

    def _values(self, table: _Table, element: Element) -> list[Value]:
        """Return the values of a row, without empty ones at its end."""
        row: list[Value] = []
        empty = 0
        for cell in element:
            if cell.tag not in (_CELL, _COVERED):
                continue
            count = _count(cell, _COLUMNS_REPEATED, limits.COLUMNS)
            value = _value(cell) if cell.tag == _CELL else None
            if value is None:
                empty += count
                continue
            if len(row) + empty + count > limits.COLUMNS:
                raise self._fault(
                    table,
                    Sentence("there is a cell in column {count:,}", count=len(row) + empty + count),
                )
            row += [None] * empty
            empty = 0
            if cell.get(_STYLE_NAME, "") in self.struck_styles:
                table.struck.append(f"{letters(len(row) + 1)}{table.line + 1}")
            if isinstance(value, Decimal) and value and _form(cell, value).is_blank:
                table.unseen.append(f"{letters(len(row) + 1)}{table.line + 1}")
            row += [value] * count
        return without_end(row)


def _is_1904(element: Element) -> bool:
    return element.get(_named("table:date-value"), "").startswith("1904")


def _count(element: Element, name: str, most: int) -> int:
    """Return how often something is there; a count that is none is a fault of the file."""
    count = int(element.get(name, "1"))
    if not 1 <= count <= most:
        raise ValueError(Sentence("something is repeated {count:,} times", count=count))
    return count


def _form(cell: Element, number: Decimal) -> Form:
    """Return how a cell shows its number."""
    return form_shown("\n".join(_texts(cell)), number)


def _value(cell: Element) -> Value:
    """Return what stands in a cell; numbers are as the file has them."""
    kind = cell.get(_VALUE_TYPE, "")
    if kind in ("float", "currency", "percentage"):
        number = _number(cell.get(_VALUE, ""))
        return (Form(True, "") if kind == "percentage" else _form(cell, number)).value(number)
    if kind == "date":
        return _date(cell.get(_DATE_VALUE, ""))
    if kind == "time":
        match = _TIME.fullmatch(cell.get(_TIME_VALUE, ""))
        if match and int(match[1]) < 24:
            return datetime.time(int(match[1]), int(match[2]), int(match[3]))
        return cell.get(_TIME_VALUE, "") or None
    if kind == "boolean":
        return cell.get(_TRUE) == "true"
    text = "\n".join(_texts(cell)).strip()
    if text:
        return text
    return NoValue() if cell.get(_FORMULA) and not kind else None


def _number(text: str) -> Decimal:
    try:
        number = Decimal(text)
    except InvalidOperation:
        raise ValueError(Sentence("{text!r} is stored as a number", text=text[:40])) from None
    if not number.is_finite() or len(text) > limits.DIGITS or abs(number.adjusted()) > 400:
        raise ValueError(Sentence("{text!r} is stored as a number", text=text[:40]))
    return number


def _date(text: str) -> datetime.datetime:
    found = datetime.datetime.fromisoformat(text.partition(".")[0])
    return found.replace(tzinfo=None)


def _texts(cell: Element) -> Iterator[str]:
    """Give the paragraphs of a cell, not those of its comments."""
    for paragraph in cell:
        if paragraph.tag == _PARAGRAPH:
            yield "".join(_pieces(paragraph))


def _pieces(element: Element) -> Iterator[str]:
    yield element.text or ""
    for each in element:
        if each.tag == _SPACES:
            yield " " * _count(each, _named("text:c"), limits.CELL_CHARACTERS)
        elif each.tag == _BREAK:
            yield "\n"
        elif each.tag == _TAB:
            yield "\t"
        elif not each.tag.endswith("}annotation"):
            yield from _pieces(each)
        yield each.tail or ""
