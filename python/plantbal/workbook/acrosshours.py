"""Sheets of readings whose heads are the hours of a day, turned into figures of days.

A row has a day, the tag or the stream, and a figure for each hour. The figures become instants by the
plant's clocks, as those of sheets with a row for each hour, and the days are summed in the same way.
On a day with 23 hours the hour that isn't there has no figure. On one with 25 the second of the two
hours has a column of its own, or a mapping says that the figure of the one column is of both.
"""

from __future__ import annotations

import datetime
from collections.abc import Iterator, Sequence
from dataclasses import dataclass

from plantbal.causes import CausedFault
from plantbal.faults import InputFault
from plantbal.sentence import Sentence
from plantbal.workbook.causes import SheetCause
from plantbal.workbook.cells import Reader
from plantbal.workbook.daily import Daily, without_rates
from plantbal.workbook.hourheads import HoursAcross, NamedBy, hours_in_order
from plantbal.workbook.hours import (
    AgainFigure,
    Clock,
    SeriesDays,
    SeriesFigure,
    Starts,
    counter_days,
    summed_days,
)
from plantbal.workbook.settings import Settings
from plantbal.workbook.sheets import Cell, Sheet
from plantbal.workbook.shapeparts import cell_at
from plantbal.workbook.units import is_rate

_HOUR = datetime.timedelta(hours=1)
_SAID = {NamedBy.BEGIN: Sentence("its beginning"), NamedBy.END: Sentence("its end")}


@dataclass(frozen=True, slots=True)
class AcrossRow:
    """A row with the hours of a day.

    Attributes
    ----------
    day : date
        The day.
    cells : list of Cell
        Its cells.
    """

    day: datetime.date
    cells: list[Cell]


class AcrossDays:
    """Adds up the hours of the rows of a sheet.

    Parameters
    ----------
    reader : Reader
        How its cells are written.
    settings : Settings
        What holds for its figures.
    sheet : Sheet
        The sheet.
    across : HoursAcross
        Its hours.
    unit : int
        The column of the units; -1 without one.

    Raises
    ------
    InputFault
        If the heads aren't the hours of one day, each once.
    """

    def __init__(
        self, reader: Reader, settings: Settings, sheet: Sheet, across: HoursAcross, unit: int
    ) -> None:
        self.reader, self.clock, self.across = reader, Clock(settings), across
        self.sheet, self.unit = sheet, unit
        self.found = Daily([])
        self.counters: list[str] = []
        try:
            self.hours = hours_in_order(across)
        except ValueError as error:
            place = sheet.place(across.line, int(error.args[0]) + 1)
            remedy = "correct the head, or hours in the mapping: begin, end or count"
            raise CausedFault(
                SheetCause.HEAD_NOT_NEXT_HOUR(), place=place, remedy=remedy
            ) from error
        self._seconds = {begin for _, begin, head in self.hours if head.is_again}

    def days(self, name: str, stream: str, rows: Sequence[AcrossRow]) -> SeriesDays:
        """Return the days of a stream, and keep the count of their hours and their faults."""
        days = SeriesDays()
        modulus = self.clock.settings.counters.get(stream)
        try:
            is_rate_ = is_rate(self._one_unit(rows))
            figures = [
                figure
                for row in sorted(rows, key=lambda each: each.day)
                for figure in self._figures(row, is_rate_, is_counter=modulus is not None)
            ]
            if modulus is None:
                days = summed_days(self.reader, self.clock, name, figures, Starts(self.clock))
            else:
                self.counters.append(name)
                days = counter_days(self.reader, self.clock, name, modulus, figures)
        except InputFault as fault:
            days.faults.append(fault)
        self.found.take(days)
        return days

    def unit_of(self, rows: Sequence[AcrossRow]) -> Cell | None:
        """Return the unit of a stream's figures, of an amount; None if the sheet has none."""
        if self.unit < 0:
            return None
        return without_rates([cell_at(rows[0].cells, self.unit)], [0])[0]

    def _one_unit(self, rows: Sequence[AcrossRow]) -> str:
        if self.unit < 0:
            return ""
        units = [cell_at(row.cells, self.unit) for row in rows]
        for cell in units:
            if cell.text != units[0].text:
                both = units[0].text or "no unit", cell.text or "none"
                what = SheetCause.UNITS_OF_TAG_DIFFER(first=both[0], other=both[1])
                raise self.reader.fault(cell, what, "write the same unit for all")
        return units[0].text

    def _figures(
        self, row: AcrossRow, of_rate: bool, *, is_counter: bool
    ) -> Iterator[SeriesFigure]:
        """Give the figures of a row with their stamps."""
        if self.across.named is NamedBy.COUNT:
            yield from self._counted(row, is_counter)
            return
        midnight = datetime.datetime(row.day.year, row.day.month, row.day.day)
        is_end = self.across.named is NamedBy.END
        for column, begin, head in self.hours:
            cell, at = cell_at(row.cells, column), midnight + begin * _HOUR
            if is_counter:  # its figure is of the instant that names the hour
                at += _HOUR if is_end else datetime.timedelta(0)
            times = self.clock.times(at)
            is_missing = self.reader.is_missing(cell)
            if is_missing and (times == 0 or (head.is_again and times < 2)):
                continue  # the day has no such hour
            figure = SeriesFigure(cell, cell, at)
            yield figure
            is_alone = times == 2 and not is_missing and begin not in self._seconds
            if is_alone and not is_counter:
                yield self._again(figure, of_rate)

    def _again(self, figure: SeriesFigure, of_rate: bool) -> SeriesFigure:
        """Return the figure of an hour that comes twice for its second time.

        Raises
        ------
        InputFault
            If nobody has said that the figure of the one column is of both hours.
        """
        if not self.across.is_of_both:
            what = SheetCause.HOUR_TWICE(at=figure.at, zone=self.clock.settings.zone)
            remedy = (
                'write twice = "both" below the sheet in the mapping if the figure is of both hours; '
                "else give the second hour a column of its own, with a B after the number in its head"
            )
            raise self.reader.fault(figure.cell, what, remedy)
        return AgainFigure(figure.stamp, figure.cell, figure.at, int(of_rate))

    def _counted(self, row: AcrossRow, is_counter: bool) -> Iterator[SeriesFigure]:
        """Give the figures of a row whose hours are counted from the day's beginning."""
        instants = self.clock.hours(row.day)
        instants.append(self.clock.begin(row.day + datetime.timedelta(days=1)))
        for column, place, _ in self.hours:
            cell = cell_at(row.cells, column)
            if place < len(instants) - 1:
                yield SeriesFigure(cell, cell, instants[place + is_counter])
            elif not self.reader.is_missing(cell):
                what = SheetCause.NO_HOUR_OF_DAY(day=row.day, hours=len(instants) - 1)
                raise self.reader.fault(cell, what, "empty it, or correct the plant's zone")

    def say(self) -> list[str]:
        """Return what was recognised."""
        place, zone = self.sheet.place(self.across.line), self.clock.settings.zone
        where = Sentence(" in {zone}", zone=zone) if zone else ""
        days = ", ".join(
            Sentence("{count} of {hours} hours", count=len(own), hours=hours)
            for hours, own in sorted(self.found.by_hours.items())
        )
        notes: list[str] = []
        if self.across.named is NamedBy.COUNT:
            notes.append(
                Sentence(
                    "{place} the heads count the hours of a day: they are added up by day{zone}, days: {days}",
                    place=place,
                    zone=where,
                    days=days,
                )
            )
        else:
            notes.append(
                Sentence(
                    "{place} the heads are the hours of a day, each named by {end}: they are added up by day{zone}, days: {days}",
                    place=place,
                    end=_SAID[self.across.named],
                    zone=where,
                    days=days,
                )
            )
        if self.found.filled:
            notes.append(
                Sentence(
                    "{place} {filled:,} hours without a figure are taken for 0",
                    place=place,
                    filled=self.found.filled,
                )
            )
        return notes
