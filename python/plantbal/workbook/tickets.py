"""Reads the tickets of a workbook: batches of ships, trains and trucks."""

from __future__ import annotations

import datetime
from dataclasses import dataclass
from fractions import Fraction

from plantbal.sentence import Sentence
from plantbal.workbook.amounts import grams_of_row
from plantbal.workbook.base import days_between
from plantbal.workbook.causes import SheetCause
from plantbal.workbook.cells import Error
from plantbal.workbook.drying import Dry, MoistureReader
from plantbal.workbook.measuring import Applied, Measuring
from plantbal.workbook.moisture import Moisture
from plantbal.workbook.plant import PlantReader, StreamRow
from plantbal.workbook.sheets import Cell
from plantbal.workbook.tables import SheetRow, Tables


@dataclass(frozen=True)
class Ticket:
    """A ticket of a batch: its row, stream, days, grams and error."""

    row: SheetRow
    stream: StreamRow
    first: datetime.date
    last: datetime.date
    grams: int
    error: Error


class Tickets:
    """Reads the sheet of tickets.

    Parameters
    ----------
    tables : Tables
        The tables of the workbook.
    plant : PlantReader
        Its plant.
    moistures : MoistureReader
        The moistures, for what is wet.
    measuring : Measuring
        What volumes become masses by.

    Attributes
    ----------
    found : list of (date, date, Cell)
        The first and the last day of each ticket, and the cell of its id.
    """

    def __init__(
        self,
        tables: Tables,
        plant: PlantReader,
        moistures: MoistureReader,
        measuring: Measuring,
    ) -> None:
        self.tables = tables
        self.reader = tables.reader
        self.plant = plant
        self.moistures = moistures
        self.measuring = measuring
        self.found: list[tuple[datetime.date, datetime.date, Cell]] = []

    def read(self) -> None:
        """Read the tickets of batches."""
        wet: list[tuple[Ticket, Moisture]] = []
        volumes: list[tuple[Ticket, Applied]] = []
        for row in self.tables.rows("tickets", facts=True):
            stream = self.plant.named(row["stream"], "stream")
            first = self.tables.day(row["first"])
            last = first if self.reader.is_missing(row["last"]) else self.tables.day(row["last"])
            if stream is None:
                continue
            with self.tables.kept():
                days = days_between(first, last) if first and last else []
                applied = self.measuring.of_ticket(stream, row, days)
                density: Fraction | None
                if applied is not None:
                    density = Fraction(applied.batch.weight.kilograms) * 1000
                    grams, is_wet = self.measuring.grams(applied), False
                else:
                    density, grams, is_wet = grams_of_row(self.reader, row, stream)
                error = self._error(row, stream, density)
                if first is None or last is None:
                    continue
                ticket = Ticket(row, stream, first, last, grams, error)
                if is_wet:
                    wet.append((ticket, self._moisture_of(ticket)))
                elif applied is not None:
                    volumes.append((ticket, applied))
                else:
                    self._put_ticket(ticket, Dry(grams, error.variance(grams)))
        self._put_wet(wet)
        self._put_volumes(volumes)

    def _error(self, row: SheetRow, stream: StreamRow, density: Fraction | None) -> Error:
        """Return the error of a ticket: its row's, or its stream's."""
        if not self.reader.is_missing(row["error"]):
            return self.reader.error(row["error"], density)
        if stream.error is None:
            remedy = "write one here, or in the sheet streams"
            what = SheetCause.TICKET_WITHOUT_ERROR()
            raise self.reader.fault(row["error"], what, remedy, "error")
        return stream.error

    def _put_ticket(self, ticket: Ticket, figure: Dry) -> bool:
        """Give a ticket to the session, and return whether it took it."""
        row = ticket.row
        days = str(ticket.first), str(ticket.last)
        fields = [row.text("id"), ticket.stream.name, *days, str(figure.grams)]
        cells = {head: row[head] for head in ("id", "stream", "first", "last")}
        cells |= {"grams": row["amount"], "variance": row["error"]}
        variance = self.tables.bearable(figure.variance, figure.grams, row["amount"])
        is_put = self.tables.put(["transfer", *fields, str(variance)], cells)
        if is_put:
            self.found.append((ticket.first, ticket.last, row["id"]))
        return is_put

    def _moisture_of(self, ticket: Ticket) -> Moisture:
        """Return the moisture of a wet ticket: its own, or that of its days."""
        found = self.moistures.found.of_tickets.get(ticket.row.text("id"))
        days = days_between(ticket.first, ticket.last)
        found = found or self.moistures.found.of_days(ticket.stream.name, days)
        if found is None:
            name = Sentence("in the ticket {value}", value=ticket.row.text("id"))
            raise self.moistures.no_moisture(ticket.stream, ticket.row["amount"], name)
        return found

    def _put_wet(self, wet: list[tuple[Ticket, Moisture]]) -> None:
        """Give wet tickets to the session as dry ones; those of one moisture share its error."""
        sums: dict[int, int] = {}
        for ticket, moisture in wet:
            sums[id(moisture)] = sums.get(id(moisture), 0) + abs(ticket.grams)
        for ticket, moisture in wet:
            with self.tables.kept():
                times = Fraction(sums[id(moisture)], abs(ticket.grams) or 1)
                exact, variance = self.moistures.dried(
                    moisture, ticket.stream, ticket.grams, ticket.error, times
                )
                grams = self.reader.whole(ticket.row["amount"], exact)
                self._put_ticket(ticket, Dry(grams, variance))

    def _put_volumes(self, volumes: list[tuple[Ticket, Applied]]) -> None:
        """Give tickets of volumes to the session; those of one density share its error."""
        sums: dict[int, int] = {}
        for ticket, applied in volumes:
            for shared in (applied.density, applied.temperature):
                sums[id(shared)] = sums.get(id(shared), 0) + abs(ticket.grams)
        for ticket, applied in volumes:
            with self.tables.kept():
                own = abs(ticket.grams) or 1
                times = [
                    Fraction(max(1, sums[id(shared)]), own) if shared is not None else Fraction(1)
                    for shared in (applied.density, applied.temperature)
                ]
                more = applied.variance(*times)
                figure = Dry(ticket.grams, ticket.error.variance(ticket.grams) + more)
                if self._put_ticket(ticket, figure):
                    name = ticket.row.text("id")
                    self.measuring.keep(name, applied, figure.grams, figure.variance)
