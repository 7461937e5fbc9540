"""Workbooks: the sheets of an xlsx or ods file or a folder of CSV files, as cells with their places.

No row is lost in silence: a quote out of place is a fault with its line, and a sheet's `notes` say
what a reader of the workbook might not expect, such as hidden rows.
"""

from __future__ import annotations

import csv
import datetime
import re
import sys
from collections.abc import Iterator, Mapping, Sequence
from dataclasses import dataclass, field
from decimal import Decimal
from pathlib import Path
from typing import TYPE_CHECKING, Any, BinaryIO

from plantbal import limits
from plantbal.faults import InputFault, Place, read_bytes, too_large, unread
from plantbal.sentence import Sentence

if TYPE_CHECKING:
    from plantbal.workbook.hourheads import HoursAcross

# How the letters of columns begin: Z is the 26th.
_LETTERS = 26
# Days are counted from here by Excel, and by workbooks that count from 1904.
EPOCH = datetime.date(1899, 12, 30)
EPOCH_1904 = datetime.date(1904, 1, 1)
_TABLES = (".csv", ".txt", ".tsv")
# A line of a text with its end, as a file gives it that is opened without newlines being changed.
_LINE = re.compile(r"[^\r\n]*(?:\r\n?|\n)|[^\r\n]+")
_MARK = 20  # letters in which `sep=;` and the end of its line are
_MOST_KEPT = 100_000
_WORKBOOKS = (".xlsx", ".xlsm", ".xls", ".xlsb", ".ods")


@dataclass(frozen=True, slots=True)
class Percent:
    """A number that its cell shows in percent.

    Attributes
    ----------
    number : Decimal
        The percents: 1.5 for 1.5 %.
    """

    number: Decimal


class Shown(Decimal):
    """A number that its cell shows with a unit after it, by the cell's form.

    Attributes
    ----------
    unit : str
        What is after the number, such as `kg`.
    """

    unit: str

    def __new__(cls, number: Decimal, unit: str) -> Shown:
        """Return a number with what is shown after it."""
        made = super().__new__(cls, number)
        made.unit = unit
        return made


class InThousands(Decimal):
    """A number of which its cell shows the thousands or the millions, by its form.

    Attributes
    ----------
    shown : Decimal
        The number that is shown, before it is rounded.
    """

    shown: Decimal

    def __new__(cls, number: Decimal, powers: int) -> InThousands:
        """Return a number of which so many powers of a thousand are shown."""
        made = super().__new__(cls, number)
        made.shown = number.scaleb(-3 * powers)
        return made


@dataclass(frozen=True, slots=True)
class NoValue:
    """A formula whose value isn't in the file."""


Value = str | Decimal | Percent | datetime.datetime | datetime.time | bool | NoValue | None


@dataclass(frozen=True, slots=True)
class Cell:
    """A cell: what stands in it, and where it is.

    Attributes
    ----------
    sheet : Sheet
        Its sheet.
    line, column : int
        Its row and column, counted from 1; column 0 if the sheet has no such column.
    value : str, Decimal, datetime or None
        What stands in it; a text without spaces around it, and None for nothing.
    """

    sheet: Sheet
    line: int
    column: int
    value: Value

    @property
    def text(self) -> str:
        """What stands in it, as a text."""
        value = self.value
        if value is None:
            return ""
        if isinstance(value, Percent):
            return f"{value.number:f} %"
        if isinstance(value, Decimal):
            return f"{value:f}"
        if isinstance(value, datetime.datetime) and value.time() == datetime.time():
            return value.date().isoformat()
        return str(value)

    def place(self, head: str = "") -> Place:
        """Return where it is."""
        return self.sheet.place(self.line, self.column, head)


@dataclass
class Sheet:
    """A sheet of a workbook, or a CSV file of a folder.

    Attributes
    ----------
    file : str
        The file.
    name : str
        The sheet's name; a CSV file's name without its ending.
    lines : list of (int, list of Value)
        The rows that aren't empty, each with its number, counted from 1.
    is_csv : bool
        Whether it is a CSV file.
    epoch : date
        The day from which days are counted.
    notes : list of str
        What is to be said of how it was read.
    word : str
        The kind of sheet that it is read as, if its name doesn't say it.
    locale : str
        Whose numbers and days it has, if others than the workbook.
    taken : dict of int to bool
        The rows that a mapping has taken: whether they are heads, or skipped.
    across : HoursAcross or None
        Its heads that are the hours of a day, if a mapping says so.
    """

    file: str
    name: str
    lines: list[tuple[int, list[Value]]]
    is_csv: bool = False
    epoch: datetime.date = EPOCH
    notes: list[str] = field(default_factory=list)
    word: str = ""
    locale: str = ""
    taken: dict[int, bool] = field(default_factory=dict)
    across: HoursAcross | None = None

    def place(self, line: int | None = None, column: int | None = None, head: str = "") -> Place:
        """Return a place in it; column 0 is that of a cell whose column isn't there."""
        column = column or None
        if self.is_csv:
            return Place(file=self.file, line=line, column=column, head=head)
        cell = f"{letters(column)}{line}" if line is not None and column is not None else ""
        return Place(file=self.file, sheet=self.name, cell=cell, line=None if cell else line)

    def rows(self) -> Iterator[list[Cell]]:
        """Give the rows as cells, empty ones at the end left out."""
        return map(self.row, range(len(self.lines)))

    def row(self, place: int) -> list[Cell]:
        """Return the row at a place among the lines as cells."""
        line, values = self.lines[place]
        return [Cell(self, line, at, value) for at, value in enumerate(values, 1)]


def letters(column: int) -> str:
    """Return the letters of a column, counted from 1."""
    text = ""
    while column:
        column, rest = divmod(column - 1, _LETTERS)
        text = chr(ord("A") + rest) + text
    return text


Source = str | Path | BinaryIO | Mapping[str, Any]


def read_workbook(path: Source) -> list[Sheet]:
    """Return the sheets of a workbook, of a folder of CSV files, or of tables in memory.

    Parameters
    ----------
    path : str, Path, binary file or mapping of DataFrame
        An xlsx or ods file, also an open one, a CSV file, or a folder; or tables by the names of sheets.

    Raises
    ------
    InputFault
        If it can't be read, or holds more than `plantbal.limits` has.
    """
    if isinstance(path, Mapping):
        from plantbal.workbook.frames import sheets_of_frames

        return sheets_of_frames(path)
    if not isinstance(path, (str, Path)):
        return _read_open(path)
    place = Path(path)
    try:
        if place.is_dir():
            return _read_folder(place)
    except OSError as error:
        raise unread(path, error) from error
    if place.suffix.lower() in _TABLES:
        return [read_csv(place)]
    return _packed_of(*read_bytes(place, limits.WORKBOOK_BYTES))


def _packed_of(name: str, data: bytes) -> list[Sheet]:
    """Return the sheets of the bytes of an xlsx or ods file."""
    if b"opendocument.spreadsheet" in data[:200]:
        from plantbal.workbook.ods import ods_of

        return ods_of(name, data)
    from plantbal.workbook.xlsx import xlsx_of

    return xlsx_of(name, data)


def _read_open(file: BinaryIO) -> list[Sheet]:
    """Return the sheets of an open xlsx or ods file."""
    if not hasattr(file, "read"):
        what = Sentence("a {name} isn't a workbook", name=type(file).__name__)
        raise InputFault(what, remedy="give a path, an open xlsx file, or DataFrames by sheets")
    name = str(getattr(file, "name", "the workbook"))
    data = file.read(limits.WORKBOOK_BYTES + 1)
    if not isinstance(data, bytes):
        what = "it is open as text"
        raise InputFault(what, place=Place(file=name), remedy="open it with mode 'rb'")
    if len(data) > limits.WORKBOOK_BYTES:
        raise too_large(name, limits.WORKBOOK_BYTES)
    return _packed_of(name, data)


def _read_folder(folder: Path) -> list[Sheet]:
    """Return the CSV files of a folder; of a workbook in it, that it isn't read."""
    entries = []
    for entry in folder.iterdir():
        entries.append(entry)
        if len(entries) > limits.FOLDER_FILES:
            raise InputFault(
                Sentence(
                    "this folder has more than {folder_files:,} files",
                    folder_files=limits.FOLDER_FILES,
                ),
                place=Place(file=str(folder)),
                remedy="name a folder with the files of one workbook",
            )
    sheets = [read_csv(file) for file in sorted(entries) if file.suffix.lower() in _TABLES]
    if not sheets:
        raise InputFault(
            "there is no CSV file in this folder",
            place=Place(file=str(folder)),
            remedy="write streams.csv, readings.csv and so on into it",
        )
    note = "it isn't read: of a folder only CSV files are"
    for file in sorted(entries):
        if file.suffix.lower() in _WORKBOOKS and not file.name.startswith((".", "~")):
            sheets.append(Sheet(str(file), file.stem, [], is_csv=True, notes=[note]))
    return sheets


def without_end(values: list[Value]) -> list[Value]:
    """Return values without empty ones at the end."""
    while values and values[-1] is None:
        values.pop()
    return values


class Held:
    """Counts what the sheets of a workbook hold, and refuses one that holds too much.

    Attributes
    ----------
    cells : int
        The cells so far, each row from its first column to its last one with a value.
    """

    def __init__(self) -> None:
        self.cells = 0

    def take(self, sheet: Sheet, line: int, values: Sequence[Value]) -> None:
        """Count the cells of a row of a sheet.

        Raises
        ------
        InputFault
            If it has too many columns, the workbook too many cells, or a cell too long a text.
        """
        self.cells += len(values)
        longest = 0
        for value in values:
            if isinstance(value, str) and len(value) > longest:
                longest = len(value)
        for count, most, what in (
            (len(values), limits.COLUMNS, "columns in a row"),
            (self.cells, limits.CELLS, "cells in the workbook"),
            (longest, limits.CELL_CHARACTERS, "characters in a cell"),
        ):
            if count > most:
                raise InputFault(
                    Sentence("there are more than {most:,} {what}", most=most, what=Sentence(what)),
                    place=sheet.place(line),
                    remedy="give the plant's workbook, of which no sheet has as many",
                )


# ---- CSV


def read_csv(path: Path) -> Sheet:
    """Return a CSV file as a sheet, whatever parts its fields.

    Raises
    ------
    InputFault
        If it can't be read, or a double quote in it isn't closed.
    """
    name, data = read_bytes(path, limits.WORKBOOK_BYTES)
    return csv_sheet(name, path.stem, data)


def csv_sheet(name: str, word: str, data: bytes) -> Sheet:
    """Return the bytes of a CSV file as a sheet of a name, as `read_csv`; `name` is the file's.

    Raises
    ------
    InputFault
        If they are no text, or a double quote in it isn't closed.
    """
    text, notes = _decoded(name, data)
    first, _, rest = text[:_MARK].partition("\n")
    marked = re.fullmatch(r"sep=(.)\r?", first.lower())
    part = marked.group(1) if marked else _parting(text)
    sheet = Sheet(name, word, [], is_csv=True, notes=notes)
    held, same = Held(), Same()
    if marked:
        text = rest + text[_MARK:]
    for row in csv_rows(text, part, name, 1 + bool(marked)):
        values: list[Value] = [
            same.text(each.strip(" \t\u00a0\u202f")) or None for each in row.fields
        ]
        if any(value is not None for value in values):
            sheet.lines.append((row.first, without_end(values)))
            held.take(sheet, row.first, values)
            _say_lines(sheet, row, part)
    return sheet


class Same:
    """Keeps each of many texts once: stamps and tags stand in a sheet again and again."""

    def __init__(self) -> None:
        self._kept: dict[str, str] = {}

    def text(self, text: str) -> str:
        """Return a text, or one like it that was there before."""
        if len(self._kept) < _MOST_KEPT:
            return self._kept.setdefault(text, text)
        return self._kept.get(text, text)


@dataclass(frozen=True, slots=True)
class CsvRow:
    """A row of a CSV file: its fields, and the first and the last line that it stands in."""

    fields: list[str]
    first: int
    last: int


def csv_rows(text: str, part: str, name: str, begin: int = 1) -> Iterator[CsvRow]:
    """Give the rows of a CSV text that begins in a line.

    Raises
    ------
    InputFault
        If a double quote isn't closed, or stands within a field.
    """
    csv.field_size_limit(sys.maxsize)
    at = begin
    try:
        lines = (found[0] for found in _LINE.finditer(text))
        reader = csv.reader(lines, delimiter=part, strict=True)
        for fields in reader:
            last = begin + reader.line_num - 1
            yield CsvRow(fields, at, last)
            at = last + 1
    except (csv.Error, TypeError) as error:  # a quote can't part fields
        raise InputFault(
            "a double quote in this row isn't closed, or is within a field: "
            "rows after it would be lost",
            place=Place(file=name, line=at),
            remedy="take it out, or write it twice within double quotes",
        ) from error


def _say_lines(sheet: Sheet, row: CsvRow, part: str) -> None:
    """Say that a field goes over several lines.

    Raises
    ------
    InputFault
        If one of them has the fields of a row.
    """
    if row.first == row.last:
        return
    fields = len(sheet.lines[0][1])
    for text in row.fields:
        inner = re.split(r"\r\n|\r|\n", text)[1:]
        if any(line.count(part) + 1 >= max(2, fields) for line in inner):
            raise InputFault(
                Sentence(
                    "a field within double quotes goes to line {last}, with rows in it",
                    last=row.last,
                ),
                place=sheet.place(row.first),
                remedy="take the double quote out, or write it twice within double quotes",
            )
    sheet.notes.append(
        Sentence(
            "line {first}: a field within double quotes goes to line {last}",
            first=row.first,
            last=row.last,
        )
    )


def _decoded(name: str, data: bytes) -> tuple[str, list[str]]:
    """Return the text of a file, and what is to be said of its encoding."""
    place = Place(file=name)
    if data.startswith((b"\xff\xfe", b"\xfe\xff")):
        try:
            return data.decode("utf-16"), []
        except UnicodeDecodeError as error:
            what = "this is UTF-16 that is cut off or damaged"
            raise InputFault(what, place=place, remedy='save it as "CSV UTF-8"') from error
    if b"\0" in data:
        raise InputFault("this isn't text", place=place, remedy='save it as "CSV UTF-8" or as xlsx')
    try:
        return data.decode("utf-8-sig"), []
    except UnicodeDecodeError:
        return data.decode("cp1252", errors="replace"), [
            "it isn't UTF-8, and is read as Windows-1252"
        ]


def _parting(text: str) -> str:
    """Return what parts the fields: a tab, semicolon or bar that most lines have, or a comma."""
    lines = [line for line in text.splitlines() if line.strip()]
    for part in "\t;|":
        if 2 * sum(part in line for line in lines) > len(lines):
            return part
    return ","
