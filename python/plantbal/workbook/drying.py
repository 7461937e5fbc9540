"""Reads the moistures of a workbook, and makes dry figures of wet ones by them."""

from __future__ import annotations

import datetime
from dataclasses import dataclass
from fractions import Fraction

from plantbal.causes import CausedFault
from plantbal.sentence import Sentence
from plantbal.workbook.causes import SheetCause
from plantbal.workbook.cells import Error
from plantbal.workbook.moisture import WHOLE, Moisture, Moistures
from plantbal.workbook.periods import PeriodSheet
from plantbal.workbook.plant import PlantReader, StreamRow
from plantbal.workbook.sheets import Cell
from plantbal.workbook.tables import SheetRow, Tables
from plantbal.workbook.units import WET


@dataclass(frozen=True)
class Dry:
    """An amount as it is booked.

    Attributes
    ----------
    grams, variance : int
        The dry amount, and its variance in squared grams.
    """

    grams: int
    variance: int


class MoistureReader:
    """Reads the sheet of moistures.

    Parameters
    ----------
    tables : Tables
        The tables of the workbook.
    plant : PlantReader
        Its plant.
    periods : PeriodSheet
        The periods that a day may be in.

    Attributes
    ----------
    found : Moistures
        What was read.
    """

    def __init__(self, tables: Tables, plant: PlantReader, periods: PeriodSheet) -> None:
        self.tables = tables
        self.reader = tables.reader
        self.plant = plant
        self.periods = periods
        self.found = Moistures()

    def read(self) -> None:
        """Read the moistures: of a ticket, of a day, of a day's shifts, or of several days."""
        for row in self.tables.rows("moistures", facts=True):
            with self.tables.kept():
                found = self._moisture(row)
                if not self.reader.is_missing(row["id"]):
                    name = row.text("id")
                    if name in self.found.of_tickets:
                        what = SheetCause.MOISTURE_OF_TICKET_TWICE(name=name)
                        raise self.reader.fault(row["id"], what, "leave one of the two out", "id")
                    self.found.of_tickets[name] = found
                    continue
                cell = row["stream"] if self.reader.is_missing(row["tag"]) else row["tag"]
                stream = self.plant.named(cell, "stream")
                if stream is not None:
                    self._keep(stream, row, found)

    def _moisture(self, row: SheetRow) -> Moisture:
        """Return the moisture of a row."""
        part = self.reader.grade(row["moisture"], row["unit"], "moisture")
        if not 0 <= part < WHOLE:
            what = SheetCause.NOT_A_MOISTURE(text=row.text("moisture"))
            remedy = "it is what part of the wet tonnes is water, from 0 to less than 100 %"
            raise self.reader.fault(row["moisture"], what, remedy, "moisture")
        error = self.reader.grade_error(row["error"], part)
        first, last = (
            None if self.reader.is_missing(row[head]) else self.reader.day(row[head], head)
            for head in ("first" if self.reader.is_missing(row["day"]) else "day", "last")
        )
        if last is not None and (first is None or last < first):
            what = SheetCause.NO_FIRST_DAY()
            raise self.reader.fault(row["last"], what, "write the first day too", "last")
        return Moisture(part / WHOLE, (error / WHOLE) ** 2, row["moisture"], first, last or first)

    def _keep(self, stream: StreamRow, row: SheetRow, found: Moisture) -> None:
        """Keep a moisture of a stream; another one of the same days is that of another shift."""
        own = self.found.of_streams.setdefault(stream.name, [])
        same = [each for each in own if (each.first, each.last) == (found.first, found.last)]
        tonnes = None
        if not self.reader.is_missing(row["amount"]):
            tonnes = Fraction(self.reader.number(row["amount"], "amount"))
            if tonnes <= 0:
                what = SheetCause.NO_TONNES_OF_SHIFT(text=row.text("amount"))
                raise self.reader.fault(row["amount"], what, "write its wet tonnes", "amount")
        if same and (tonnes is None or not same[0].shifts):
            other = str(same[0].cell.place()).rstrip(":")
            what = SheetCause.MOISTURE_TWICE(stream=stream.said, other=other)
            remedy = "write the wet tonnes of each shift into a column amount"
            raise self.reader.fault(row["moisture"], what, remedy, "moisture")
        shift = same[0] if same else found
        if tonnes is not None:
            shift.add_shift(tonnes, found.part, found.variance)
        if not same:
            own.append(found)

    def no_moisture(self, stream: StreamRow, cell: Cell, of: str) -> CausedFault:
        """Return the fault that nothing says how wet an amount is."""
        unit = next(iter(WET))
        what = SheetCause.NO_MOISTURE(text=cell.text, unit=unit, stream=stream.said, of=of)
        remedy = "add it to a sheet moistures (stream, day, moisture, error), or write dry tonnes"
        return self.reader.fault(cell, what, remedy)

    def dried(
        self, moisture: Moisture, stream: StreamRow, grams: int, error: Error, times: Fraction
    ) -> tuple[Fraction, int]:
        """Return a dry amount in grams and its variance."""
        self.found.use(stream.name, moisture)
        variance = moisture.dry_variance(grams, error.variance(grams), times)
        return moisture.dry(grams), variance

    def dried_on(
        self, stream: StreamRow, day: datetime.date, grams: int, error: Error, cell: Cell
    ) -> Dry:
        """Return the dry figure of a day."""
        moisture = self.found.on(stream.name, day)
        if moisture is None:
            raise self.no_moisture(stream, cell, Sentence("on {day}", day=day))
        spans = [
            each
            for each in self.periods.spans_at(day)
            if each.first <= day.toordinal() <= each.last
        ]
        days = max((moisture.days_in(each.first, each.last) for each in spans), default=1)
        exact, variance = self.dried(moisture, stream, grams, error, Fraction(max(1, days)))
        return Dry(self.reader.whole(cell, exact), variance)

    def say(self) -> None:
        """Say what was dried, and keep a fault for each moisture of a stream without wet figures."""
        self.tables.notes += self.found.notes()
        for name, moisture in self.found.unused():
            if name in self.plant.streams and not self.tables.faults:
                what = SheetCause.DRIES_NOTHING(name=name, unit=next(iter(WET)))
                remedy = "write wmt as the unit of its figures, or take the moistures out"
                self.tables.fault(moisture.cell, what, remedy, "moisture")
