"""The readings of a workbook, in whatever form they are: days down, days across, or long."""

from __future__ import annotations

import datetime
import re
from itertools import islice

from plantbal.causes import CausedFault
from plantbal.faults import Fault
from plantbal.sentence import Sentence, phrase
from plantbal.workbook.acrosshours import AcrossDays, AcrossRow
from plantbal.workbook.bookings import Bookings
from plantbal.workbook.causes import SheetCause
from plantbal.workbook.cells import Error, Reader
from plantbal.workbook.locales import day_order
from plantbal.workbook.daily import Daily, long_by_day, wide_by_day
from plantbal.workbook.fates import Fate, is_unit
from plantbal.workbook.hourheads import HoursAcross, hour_heads
from plantbal.workbook.plant import PlantReader, StreamRow
from plantbal.workbook.remedies import OptionRemedy
from plantbal.workbook.shapeparts import HEADS_WITHIN, cell_at, has_figure
from plantbal.workbook.sheets import Cell, Sheet
from plantbal.workbook.summed import SummedCell, SummedFact, summed_fact
from plantbal.workbook.tables import TOTALS, Tables
from plantbal.workbook.units import AMOUNTS, is_rate, unit_of

_LONG = {
    "day": ("day", "date", "datum", "time", "timestamp"),
    "tag": ("tag", "tagname", "tag name", "point", "stream"),
    "value": ("value", "amount", "reading", "quantity"),
    "unit": ("unit", "units", "uom", "einheit"),
}
# The columns of a sheet with the hours of a day across, beside these.
_OF_HOURS = ("day", "tag", "unit")
_HOURS = 20  # heads that may be those of a day
# How a day that was typed wrong begins, perhaps with its weekday; other texts are remarks.
_LIKE_DAY = re.compile(r"(?:[^\W\d_]+[.,]?\s*)?[0-9]+\s?[./-]\s?[0-9]")


class Readings:
    """Reads the sheets of readings.

    Parameters
    ----------
    tables : Tables
        The tables of the workbook.
    plant : PlantReader
        Its plant.
    bookings : Bookings
        What takes the figures.

    Attributes
    ----------
    listed : set of str
        The streams that have a column or a row, with figures or without.
    whole : bool
        Whether each meter of the plant has to have a column.
    summed : list of SummedFact
        The readings that are made of hours or of a counter.
    """

    def __init__(self, tables: Tables, plant: PlantReader, bookings: Bookings) -> None:
        self.tables = tables
        self.reader = tables.reader
        self.plant = plant
        self.bookings = bookings
        self.listed: set[str] = set()
        self.whole = True
        self.summed: list[SummedFact] = []

    def reading(self, stream: StreamRow, cell: Cell, day: datetime.date | None, unit: str) -> None:
        """Take a reading."""
        with self.tables.kept():
            own = unit or stream.unit or "t"
            measuring = self.bookings.measuring
            applied = measuring.of_day(stream, cell, own, day) if day is not None else None
            if applied is not None:
                grams = measuring.grams(applied)
            else:
                grams = self.reader.grams(cell, own, stream.density, stream.tag)
            if day is None:
                return
            error = stream.error or Error()
            if stream.error is None and stream.kind == "metered":
                what = SheetCause.READING_WITHOUT_ERROR(name=stream.name)
                raise self.reader.fault(stream.cell, what, "write it into its row", "stream")
            if grams == 0 and not error.grams:
                remedy = "give its meter one in tonnes as well, such as `1.5 % or 0.2 t`"
                what = SheetCause.ZERO_WITHOUT_ERROR()
                raise self.reader.fault(cell, what, remedy, stream.tag)
            is_wet = self.reader.is_wet(cell, own)
            fact = self.bookings.book(stream, day, grams, error, cell, is_wet, applied=applied)
            if fact and isinstance(cell, SummedCell):
                self.summed.append(summed_fact(fact, cell, own))

    def read(self) -> None:
        """Read the readings, in whatever form they stand."""
        found: set[str] = set()
        wide = False
        for sheet in self.tables.sheets["readings"]:
            with self.tables.kept():
                if sheet.across is not None:
                    self._read_hours(sheet, sheet.across)
                    continue
                at, form = self._form(list(islice(sheet.rows(), HEADS_WITHIN)))
                heads = sheet.row(at)
                if form:
                    self.tables.fates.put(Fate.HEADS, heads)
                if form == "long":
                    self._read_long(heads, self._long_lines(sheet, at))
                elif form == "wide":
                    wide = True
                    found |= self._read_wide(heads, self._wide_lines(sheet, at))
                elif form == "across":
                    self._read_across(heads, list(islice(sheet.rows(), at + 1, None)))
                else:
                    remedy = "write the tags of the sheet streams over the columns"
                    if any(len(hour_heads(row)) > _HOURS for _, row in sheet.lines[:HEADS_WITHIN]):
                        remedy = "let plantbal-desk map write a mapping, which reads hours across"
                    place = sheet.place(sheet.lines[0][0])
                    raise CausedFault(SheetCause.NO_TAGS(), place=place, remedy=remedy)
        for stream in self.plant.tags.values():
            if wide and self.whole and stream.kind == "metered" and stream.tag not in found:
                if stream.name not in found and stream.name not in self.bookings.days:
                    sheet = self.tables.sheets["readings"][0]
                    what = SheetCause.NO_COLUMN_OF_STREAM(stream=stream.said)
                    remedy = "add it; its cells may be empty"
                    self.tables.faults.append(CausedFault(what, place=sheet.place(), remedy=remedy))
        self._check_order()

    def check_counters(self) -> None:
        """Give the counters of the settings to their streams, or say that there is no such tag."""
        counters, self.plant.settings.counters = self.plant.settings.counters, {}
        for row in self.plant.setting_rows:
            stream = self.plant.named(row["for"], "for") if row.text("for") in counters else None
            if stream is not None:
                self.plant.settings.counters[stream.name] = counters[row.text("for")]

    def _names(self) -> dict[str, str]:
        """Return the streams by their names and tags."""
        names = {stream.name: stream.name for stream in self.plant.streams.values()}
        return names | {tag: stream.name for tag, stream in self.plant.tags.items()}

    def _long_lines(self, sheet: Sheet, at: int) -> list[list[Cell]]:
        """Return the rows below the heads with a figure a day, if they have hours or counters."""
        columns = _long_columns(sheet.row(at))
        found = long_by_day(self.reader, self.plant.settings, sheet, at, self._names(), columns)
        if found is None:
            return list(islice(sheet.rows(), at + 1, None))
        return self._lines_of(sheet, found)

    def _wide_lines(self, sheet: Sheet, at: int) -> list[list[Cell]]:
        """Return the rows below the heads with figures a day, if they have hours or counters."""
        lines = list(islice(sheet.rows(), at + 1, None))
        settings = self.plant.settings
        found = wide_by_day(self.reader, settings, sheet.row(at), lines, self._names())
        return lines if found is None else self._lines_of(sheet, found)

    def _lines_of(self, sheet: Sheet, found: Daily) -> list[list[Cell]]:
        """Return the rows by day, and keep what is said of their hours."""
        self.tables.fates.put_lines(Fate.READ, sheet, found.taken)
        self.tables.faults += found.faults
        self.tables.notes += found.notes
        return found.lines

    def _form(self, lines: list[list[Cell]]) -> tuple[int, str]:
        """Return which row has the heads, and whether they are wide, long or days across."""
        known = set(self.plant.tags) | set(self.plant.streams) | self.plant.bad
        for at, cells in enumerate(lines[:HEADS_WITHIN]):
            texts = [cell.text.casefold() for cell in cells]
            if all(set(_LONG[head]) & set(texts) for head in ("day", "tag", "value")):
                return at, "long"
            if any(cell.text in known for cell in cells[1:]):
                if not any(self.tables.maybe_day(cell) for cell in cells):
                    return at, "wide"
            if sum(self.tables.maybe_day(cell) for cell in cells[1:]) >= 2:
                return at, "across"
        return 0, ""

    def _read_long(self, heads: list[Cell], lines: list[list[Cell]]) -> None:
        at = _long_columns(heads)
        self.tables.say_columns(heads, lines, set(at.values()))
        for cells in lines:
            row = {
                name: cells[column] if column < len(cells) else self.tables.beside(cells, column)
                for name, column in at.items()
            }
            if self.tables.is_total(cells) or all(self.reader.is_missing(c) for c in row.values()):
                continue
            self.tables.fates.put(Fate.READ, cells)
            day = self.tables.day(row["day"])
            stream = self.plant.named(row["tag"], "tag")
            if stream is None:
                continue
            self.listed.add(stream.name)
            if self.reader.is_missing(row["value"]):
                continue
            with self.tables.kept():
                unit = self.reader.unit(row.get("unit"), AMOUNTS, "")
                self.reading(stream, row["value"], day, unit)

    def _columns(
        self, heads: list[Cell], lines: list[list[Cell]]
    ) -> tuple[dict[int, StreamRow], set[int]]:
        """Return the stream of each column of readings, and the columns that were taken for such.

        Columns without a figure may be others.
        """
        found: dict[int, StreamRow] = {}
        tried: set[int] = set()
        first: dict[str, Cell] = {}
        for column, cell in enumerate(heads[1:], 1):
            if not cell.text or cell.text.casefold() in self.tables.skip:
                continue
            below = [cells[column] for cells in lines if column < len(cells)]
            figures = [each for each in below if not self.reader.is_missing(each)]
            known = cell.text in self.plant.tags or cell.text in self.plant.streams
            likely = [each for each in figures if re.match("[+-]?[0-9]", each.text)]
            if not known and not found and all(map(self.tables.maybe_day, likely)):
                continue  # the days, perhaps with remarks between them, or nothing
            if not known and not any(re.match("[+-]?[0-9]", each.text) for each in figures):
                continue
            tried.add(column)
            stream = self.plant.named(cell, "")
            if stream is None:
                if not known and cell.text not in self.plant.bad:
                    fault = self.tables.faults[-1]
                    words = {"remedy": phrase(fault.remedy), "text": cell.text}
                    fault.remedy = OptionRemedy.OR_LEAVE_OUT(**words).sentence
            elif stream.name in first:
                other = str(first[stream.name].place()).rstrip(":")
                self.tables.fault(cell, SheetCause.COLUMN_TWICE(stream=stream.said, other=other))
            else:
                found[column] = stream
                first[stream.name] = cell
        return found, tried

    def _units_row(self, cells: list[Cell], columns: dict[int, StreamRow]) -> dict[int, str] | None:
        """Return the units of a row below the heads, or None if it is none."""
        texts = {column: cells[column] for column in columns if column < len(cells)}
        units = {column: cell for column, cell in texts.items() if cell.text}
        known = AMOUNTS
        if not units or not all(
            isinstance(cell.value, str) and re.fullmatch(r"[\[(]?[^\W\d_][\w³/]*[\])]?", cell.text)
            for cell in units.values()
        ):
            return None
        if not any(unit_of(cell.text) in known or is_rate(cell.text) for cell in units.values()):
            return None
        found = {}
        for column, cell in units.items():
            with self.tables.kept():
                found[column] = self.reader.unit(cell, known, "")
                own = columns[column].unit
                if own and own != found[column]:
                    what = SheetCause.UNIT_OF_STREAM_DIFFERS(text=cell.text, unit=own)
                    raise self.reader.fault(cell, what, "write the same unit in both")
        return found

    def _day_column(self, columns: dict[int, StreamRow], lines: list[list[Cell]]) -> int:
        """Return the column of the days: the first without a stream that looks like it."""
        for column in range(min(columns, default=0)):
            if any(
                column < len(cells) and self.tables.maybe_day(cells[column]) for cells in lines[:10]
            ):
                return column
        return 0

    def _read_wide(self, heads: list[Cell], lines: list[list[Cell]]) -> set[str]:
        """Read a sheet with days down, and return the tags and streams that it has."""
        columns, tried = self._columns(heads, lines)
        at = self._day_column(columns, lines)
        self.tables.say_columns(heads, lines, {at, *tried, *_headless(heads, lines)})
        units: dict[int, str] = {}
        seen: dict[datetime.date, Cell] = {}
        for cells in lines:
            figures = {
                column: cells[column]
                for column in columns
                if column < len(cells) and not self.reader.is_missing(cells[column])
            }
            first = cells[at] if at < len(cells) else self.tables.beside(cells, at)
            if not seen:
                row = self._units_row(cells, columns)
                if row is not None:
                    units = row
                    self.tables.fates.put(Fate.HEADS, cells)
                    continue
            if self.tables.is_total(cells) or (first.value is None and not figures):
                continue
            if not figures and isinstance(first.value, str) and not self.tables.maybe_day(first):
                if not _LIKE_DAY.match(first.text):
                    self.tables.pass_row(cells, first)
                    continue
            self.tables.fates.put(Fate.READ, cells)
            day = self.tables.day(first)
            if day is not None and day in seen:
                other = str(seen[day].place()).rstrip(":")
                what = SheetCause.DAY_TWICE(day=day, other=other)
                self.tables.fault(first, what, "leave one of the two out")
                continue
            if day is not None:
                seen[day] = first
            for beside in _headless(heads, [cells]):
                if beside > at:
                    self.tables.fault(cells[beside], SheetCause.NO_HEAD(), "write its tag over it")
            for column, cell in figures.items():
                self.reading(columns[column], cell, day, units.get(column, ""))
        if not seen:
            self.tables.notes.append(
                Sentence(
                    "{place} there is no day below this row",
                    place=heads[0].sheet.place(heads[0].line),
                )
            )
        names = {stream.name for stream in columns.values()}
        self.listed |= names
        return names | {stream.tag for stream in columns.values()}

    def _read_across(self, heads: list[Cell], lines: list[list[Cell]]) -> None:
        """Read a sheet with a row a tag and a column a day."""
        first = next(at for at, cell in enumerate(heads) if self.tables.maybe_day(cell))
        days: dict[int, datetime.date] = {}
        for column, cell in enumerate(heads):
            if column >= first and cell.text and cell.text.casefold() not in TOTALS:
                day = self.tables.day(cell)
                if day is not None and day in days.values():
                    what = SheetCause.DAY_TWICE_ACROSS(day=day)
                    self.tables.fault(cell, what, "leave one of the two out")
                elif day is not None:
                    days[column] = day
        self._say_across(heads, lines, first)
        for cells in lines:
            known = [
                cell
                for cell in cells[:first]
                if cell.text in {*self.plant.tags, *self.plant.streams}
            ]
            figures = any(not self.reader.is_missing(cell) for cell in cells[first:])
            if self.tables.is_total(cells) or (not known and not figures):
                continue
            self.tables.fates.put(Fate.READ, cells)
            stream = self.plant.named((known or cells)[0], "tag")
            if stream is None:
                continue
            self.listed.add(stream.name)
            units = [c.text for c in cells[:first] if unit_of(c.text) in AMOUNTS]
            for column, day in days.items():
                if column < len(cells) and not self.reader.is_missing(cells[column]):
                    unit = unit_of(units[0]) if units else ""
                    self.reading(stream, cells[column], day, unit)

    def _read_hours(self, sheet: Sheet, across: HoursAcross) -> None:
        """Read a sheet with the hours of a day across, as a mapping says."""
        place = next(n for n, (line, _) in enumerate(sheet.lines) if line == across.line)
        heads, lines = sheet.row(place), list(islice(sheet.rows(), place + 1, None))
        self.tables.fates.put(Fate.HEADS, heads)
        at = {cell.text: cell.column - 1 for cell in reversed(heads) if cell.text in _OF_HOURS}
        self.tables.say_columns(heads, lines, {*at.values(), *across.columns})
        days = AcrossDays(self.reader, self.plant.settings, sheet, across, at.get("unit", -1))
        rows: dict[str, list[AcrossRow]] = {}
        for cells in lines:
            first = cell_at(cells, at["day"])
            figures = any(has_figure(cells, column, self.reader) for column in across.columns)
            if self.tables.is_total(cells) or (first.value is None and not figures):
                continue
            self.tables.fates.put(Fate.READ, cells)
            day = self.tables.day(first)
            stream = self.plant.named(cell_at(cells, at["tag"]), "tag")
            if stream is not None and day is not None:
                rows.setdefault(stream.name, []).append(AcrossRow(day, cells))
        for name, own in rows.items():
            stream = self.plant.streams[name]
            self.listed.add(name)
            found = days.days(stream.said, name, own)
            with self.tables.kept():
                unit = self.reader.unit(days.unit_of(own), AMOUNTS, "")
                for each in found.found:
                    self.reading(stream, each.cell, each.day, unit)
        self.tables.faults += days.found.faults
        self.tables.notes += days.say()

    def _say_across(self, heads: list[Cell], lines: list[list[Cell]], first: int) -> None:
        """Say which columns of a sheet with days across aren't read; the days begin at one."""
        read = {column for column, cell in enumerate(heads) if column >= first and cell.text}
        for cells in lines:
            for column, cell in enumerate(cells[:first]):
                if cell.text in {*self.plant.tags, *self.plant.streams} or is_unit(cell):
                    read.add(column)
        for cell in heads[first:]:
            if cell.text.casefold() in TOTALS:
                self.tables.notes.append(
                    Sentence(
                        "{place} the column {text!r} is skipped", place=cell.place(), text=cell.text
                    )
                )
        self.tables.say_columns(heads, lines, read)

    def _check_order(self) -> None:
        """Say if days follow each other only when day and month are exchanged."""
        if not self.reader.locale or not self.tables.written:
            return
        order = day_order(self.reader.locale)
        other = {"dmy": "en_US", "mdy": "en_GB"}.get(order)
        texts = [
            cell for cell in self.tables.written if re.search(r"[0-9][/-][0-9]{1,2}[/-]", cell.text)
        ]
        if other is None or len(texts) < 3 or len(texts) < len(self.tables.written):
            return
        swapped = Reader(locale=other)
        try:
            own = {self.reader.day(cell) for cell in texts}
            turned = {swapped.day(cell) for cell in texts}
        except Fault:
            return
        if _run(turned) and not _run(own):
            own_locale = self.reader.locale
            what = SheetCause.DAYS_OUT_OF_ORDER(locale=own_locale, text=texts[0].text)
            remedy = OptionRemedy.READ_AS(other=other).sentence
            self.tables.fault(texts[0], what, remedy)


def _long_columns(heads: list[Cell]) -> dict[str, int]:
    """Return the columns of a sheet with a row for each figure."""
    at: dict[str, int] = {}
    for column, cell in enumerate(heads):
        for name, words in _LONG.items():
            if cell.text.casefold() in words:
                at.setdefault(name, column)
    return at


def _headless(heads: list[Cell], lines: list[list[Cell]]) -> set[int]:
    """Return the columns that have a figure and no head."""
    found = set()
    for cells in lines:
        for column, cell in enumerate(cells):
            headless = column >= len(heads) or not heads[column].text
            if headless and re.match("[+-]?[0-9]", cell.text):
                found.add(column)
    return found


def _run(days: set[datetime.date]) -> bool:
    """Say whether days follow each other."""
    return (max(days) - min(days)).days + 1 == len(days)
