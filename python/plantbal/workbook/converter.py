"""Reads a workbook as a whole: the readers of its sheets, each handed what it needs."""

from __future__ import annotations

from collections.abc import Collection, Sequence

from plantbal.accounts.reading import read_accounts
from plantbal.accounts.sheet import Accounts
from plantbal.causes import CausedFault
from plantbal.faults import Fault, Place
from plantbal.sentence import Sentence
from plantbal.session import Session
from plantbal.workbook.assays import Assays
from plantbal.workbook.bookings import Bookings
from plantbal.workbook.causes import SheetCause
from plantbal.workbook.cells import Reader
from plantbal.workbook.dips import Dips
from plantbal.workbook.drying import MoistureReader
from plantbal.workbook.estimates import Estimates
from plantbal.workbook.figures import rounded_down
from plantbal.workbook.measuresheets import MeasureReader, Measures
from plantbal.workbook.measuring import Measuring
from plantbal.workbook.missing import Missing
from plantbal.workbook.periods import PeriodSheet
from plantbal.workbook.plant import PlantReader
from plantbal.workbook.readings import Readings
from plantbal.workbook.sessionrows import RowsSheet
from plantbal.workbook.sheetforms import Stage
from plantbal.workbook.sheetkinds import SHEETS
from plantbal.workbook.sheets import Sheet
from plantbal.workbook.tables import Tables
from plantbal.workbook.tickets import Tickets


class Converter:
    """Reads the sheets one after the other, and keeps what is wrong.

    Parameters
    ----------
    sheets : list of Sheet
        The workbook.
    reader : Reader
        How its cells are written.
    skip : sequence of str
        Heads of columns to leave out.

    Attributes
    ----------
    tables : Tables
        Its tables.
    plant, periods, moistures, measures, measuring, bookings, readings, estimates, tickets, dips, assays, rows
        The readers of its sheets.
    known : collection of str
        The streams and tanks that have an account elsewhere.
    accounts : Accounts
        The accounts that it has.
    """

    def __init__(self, sheets: list[Sheet], reader: Reader, skip: Sequence[str] = ()) -> None:
        self.tables: Tables = Tables(sheets, reader, skip)
        self.plant: PlantReader = PlantReader(self.tables)
        tables, plant = self.tables, self.plant
        self.periods: PeriodSheet = PeriodSheet(tables)
        self.moistures: MoistureReader = MoistureReader(tables, plant, self.periods)
        self.measures: MeasureReader = MeasureReader(tables, plant, Measures())
        self.measuring: Measuring = Measuring(tables, self.periods, self.measures.found)
        self.bookings: Bookings = Bookings(
            tables, plant, self.periods, self.moistures, self.measuring
        )
        self.readings: Readings = Readings(tables, plant, self.bookings)
        self.estimates: Estimates = Estimates(tables, plant, self.bookings)
        self.tickets: Tickets = Tickets(tables, plant, self.moistures, self.measuring)
        self.dips: Dips = Dips(tables, plant, self.measuring)
        self.assays: Assays = Assays(tables, plant)
        self.rows: RowsSheet = RowsSheet(tables)
        self.known: Collection[str] = ()
        self.accounts = Accounts()

    @property
    def session(self) -> Session:
        """The session that is made."""
        return self.tables.session

    @property
    def sheets(self) -> dict[str, list[Sheet]]:
        """The sheets by their kinds."""
        return self.tables.sheets

    @property
    def faults(self) -> list[Fault]:
        """All that is wrong."""
        return self.tables.faults

    @property
    def notes(self) -> list[str]:
        """What has to be said."""
        return self.tables.notes

    def read(self, stage: Stage) -> None:
        """Read the sheets of a stage, in the order of their list."""
        kinds = [kind for kind in SHEETS.values() if kind.stage is stage]
        for reader in dict.fromkeys(kind.reader for kind in kinds):
            reader(self)

    def read_accounts(self) -> None:
        """Read the accounts."""
        self.accounts = read_accounts(self.tables, self.plant, self.known)

    def read_facts(self) -> None:
        """Read all facts, and declare the months of those if there is no sheet of periods."""
        self.readings.check_counters()
        self.read(Stage.FACTS)
        days = {day for days in self.bookings.days.values() for day in days}
        self.periods.take_months(days or {first for first, _, _ in self.tickets.found})
        self.bookings.check_bases()
        self.moistures.say()
        self.measuring.say()

    def check_whole(self, design: bool = False) -> None:
        """Keep a fault if there is nothing to report; a design needs streams alone."""
        asked = self.plant.streams and (self.session.periods or design)
        if self.sheets["rows"] or self.faults or asked:
            return
        place = Place(file=next((s.file for k in self.sheets.values() for s in k), ""))
        what = SheetCause.NO_PERIOD()
        remedy = "write readings, or a sheet periods; --design asks for the design alone"
        if not self.plant.streams:
            what, remedy = SheetCause.NO_STREAM(), "write the rows of the sheet streams"
        self.faults.append(CausedFault(what, place=place, remedy=remedy))

    def say_missing(self) -> None:
        """Say which days are missing, and which facts stand in no period."""
        Missing(self.tables, self.plant, self.bookings, self.tickets, self.dips).say()

    def say_rounded(self) -> None:
        """Say what was rounded, and which figures are taken for missing ones."""
        for cell in self.tables.reader.passed.values():
            word = f"cells with {cell.text!r} are taken for missing figures, as --missing has it"
            self.notes.append(f"{cell.place()} {word}: this is the first")
        for sheet, (count, cell, most) in self.tables.reader.rounded.items():
            where = str(cell.place()).rstrip(":")
            figures = "figure was" if count == 1 else "figures were"
            self.notes.append(
                Sentence(
                    "{sheet}: {count} {figures} rounded to whole grams or other whole units, by at most {most} of one, the first in {where}",
                    sheet=sheet,
                    count=count,
                    figures=figures,
                    most=rounded_down(most, 3),
                    where=where,
                )
            )
