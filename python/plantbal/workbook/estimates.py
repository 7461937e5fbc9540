"""Reads the estimates of a workbook: guesses for days without a reading."""

from __future__ import annotations

import datetime

from plantbal.sentence import Sentence
from plantbal.workbook.amounts import grams_of_row
from plantbal.workbook.base import PeriodDays, days_between
from plantbal.workbook.bookings import Bookings
from plantbal.workbook.causes import SheetCause
from plantbal.workbook.plant import PlantReader
from plantbal.workbook.tables import SheetRow, Tables

# One guess is for at most as many days more than its first.
MOST_GUESSED = 366


class Estimates:
    """Reads the sheet of estimates.

    Parameters
    ----------
    tables : Tables
        The tables of the workbook.
    plant : PlantReader
        Its plant.
    bookings : Bookings
        What takes the guesses.
    """

    def __init__(self, tables: Tables, plant: PlantReader, bookings: Bookings) -> None:
        self.tables = tables
        self.reader = tables.reader
        self.plant = plant
        self.bookings = bookings

    def read(self) -> None:
        """Read estimates, which stand for missing readings; each row is one guess."""
        for row in self.tables.rows("estimates", facts=True):
            cell = row["stream"] if self.reader.is_missing(row["tag"]) else row["tag"]
            day = self.tables.day(row["day"])
            last = day if self.reader.is_missing(row["last"]) else self.tables.day(row["last"])
            stream = self.plant.named(cell, "tag")
            if stream is None:
                continue
            with self.tables.kept():
                density, grams, is_wet = grams_of_row(self.reader, row, stream)
                error = self.reader.error(row["error"], density)
                if day is None or last is None:
                    continue
                for some in self._guessed(row, day, last):
                    for each in some:
                        self.bookings.book(
                            stream, each, grams, error, row["amount"], is_wet, len(some)
                        )

    def _guessed(
        self, row: SheetRow, first: datetime.date, last: datetime.date
    ) -> list[list[datetime.date]]:
        """Return the days of a guess, those of each period by themselves.

        Raises
        ------
        InputFault
            If the last day is before the first, or very far from it.
        """
        if not first <= last <= first + datetime.timedelta(MOST_GUESSED):
            what = SheetCause.GUESS_TOO_LONG(first=first, last=last)
            remedy = Sentence(
                "write a last day up to {most_guessed} days after the first",
                most_guessed=MOST_GUESSED,
            )
            raise self.reader.fault(row["last"], what, remedy, "last")
        found: dict[tuple[PeriodDays, ...], list[datetime.date]] = {}
        for day in days_between(first, last):
            found.setdefault(tuple(self.bookings.periods.spans_at(day)), []).append(day)
        return list(found.values())
