"""A sheet as its mapping says: names and words as in the book, figures, days, and faults at its cells."""

from __future__ import annotations

import datetime
import re
from decimal import Decimal

from plantbal.faults import InputFault
from plantbal.sentence import Sentence
from plantbal.workbook.locales import symbols
from plantbal.workbook.mapping.form import NAME, SheetMapping, WorkbookMapping
from plantbal.workbook.mapping.months import month_of, month_of_sheet
from plantbal.workbook.mapping.vocabulary import plain_word
from plantbal.workbook.sheets import Sheet, Value

# A row of a sheet: its number, and what stands in it.
Line = tuple[int, list[Value]]


class Mapped:
    """A sheet, what its mapping says of it, and what of the sheet has been taken.

    Parameters
    ----------
    mapping : WorkbookMapping
        The mapping.
    own : SheetMapping
        What it says of the sheet.
    given : Sheet
        The sheet.
    """

    def __init__(self, mapping: WorkbookMapping, own: SheetMapping, given: Sheet) -> None:
        self.mapping = mapping
        self.own = own
        self.given = given
        self.lines: list[Line] = [(line, list(values)) for line, values in given.lines]
        self.taken: dict[int, bool] = {}  # rows that are heads, and those that are skipped
        self.notes: list[str] = []
        self.names = {plain_text(key): value for key, value in mapping.names.items()}
        self.words = {plain_word(key): value for key, value in mapping.words.items()}
        # columns that the sheet itself doesn't have
        self.beside: dict[str, Value] = {head: self._given(v) for head, v in own.given.items()}
        self.width = max((len(values) for _, values in self.lines), default=0)  # where these stand

    def _given(self, text: str) -> Value:
        """Return a figure of the mapping, which has a decimal point, as the sheet would write it."""
        if plain_text(text) in self.names:
            return self.names[plain_text(text)]
        if re.fullmatch(r"[0-9]+(?:\.[0-9]+)?", text):
            return Decimal(text)
        locale = self.own.locale or self.mapping.locale
        match = re.fullmatch(r"([0-9]+)\.([0-9]+)( .+)", text)
        if match is None or not locale:
            return text
        return f"{match[1]}{symbols(locale)[0]}{match[2]}{match[3]}"

    @property
    def counters(self) -> dict[str, str]:
        """The figures at which counters begin again, by the tags or streams of their heads."""
        found = {}
        for head, figure in self.own.counters.items():
            to = self.own.columns.get(head, head)
            if figure:
                found[self.names.get(plain_text(to), to)] = figure
        return found

    def fault(self, line: int, column: int, what: str, remedy: str) -> InputFault:
        """Return a fault at a cell; columns are counted from 0."""
        return InputFault(what, place=self.given.place(line, column + 1), remedy=remedy)

    def named(self, value: Value) -> Value:
        """Return a text, as it is called in the book."""
        if isinstance(value, str):
            return self.names.get(plain_text(value), value)
        return value

    def day(self, line: int, column: int, value: Value) -> Value:
        """Return the day of a month by its number."""
        if isinstance(value, str) and re.fullmatch(r"[0-9]{1,2}\.?", value):
            value = Decimal(value.rstrip("."))
        if not isinstance(value, Decimal):
            return value
        own = self.own.month
        month = month_of_sheet(self.given.name) if own == NAME else month_of(own)
        if month is None:
            what = "no month is given for this day"
            remedy = 'write month = "2024-01" into the mapping, or name the sheet by its month'
            raise self.fault(line, column, what, remedy)
        try:
            return datetime.datetime(*month, int(value) if value == int(value) else 0)
        except ValueError as error:
            what = Sentence(
                "{value} isn't a day of {month}-{month2:02}",
                value=value,
                month=month[0],
                month2=month[1],
            )
            raise self.fault(line, column, what, "correct it, or the mapping's month") from error


def plain_text(text: str) -> str:
    """Return a text with single spaces."""
    return " ".join(text.split())
