"""How a workbook that is added to a book is read; what it doesn't have of the plant is the
book's."""

from __future__ import annotations

import datetime
from collections.abc import Collection, Iterable, Iterator, Sequence
from dataclasses import dataclass, replace
from pathlib import Path

from plantbal.book.forms import MEASURES
from plantbal.book.measures import take_measures
from plantbal.book.meters import Meter, plant_with_meters
from plantbal.book.remedies import BookRemedy
from plantbal.book.said import listed
from plantbal.book.vanished import PulledSource
from plantbal.faults import Fault, Faults, InputFault, Refusal
from plantbal.memory import uncollected
from plantbal.sentence import Sentence, counted
from plantbal.session import Period
from plantbal.workbook.base import PeriodDays
from plantbal.workbook.conversion import Conversion
from plantbal.workbook.converter import Converter
from plantbal.workbook.options import ReadingOptions
from plantbal.workbook.plant import StreamRow, TankRow
from plantbal.workbook.sheetkinds import SHEETS
from plantbal.workbook.sheets import Sheet, read_workbook
from plantbal.workbook.tables import is_rows_of_critical, kind_of_heads

_PLANT = ("boundaries", "units", "tanks", "straps")
# What is said of a part of the plant that a sheet doesn't have.
_NOT_HERE = {
    "streams": (
        "1 stream of the book isn't here: {names}",
        "{count:,} streams of the book aren't here: {names}",
    ),
    "tanks": (
        "1 tank of the book isn't here: {names}",
        "{count:,} tanks of the book aren't here: {names}",
    ),
    "straps": (
        "1 table of the book isn't here: {names}",
        "{count:,} tables of the book aren't here: {names}",
    ),
}
_FIRST = 12  # faults that are said; the others are counted


@dataclass(frozen=True)
class Tabled:
    """Sheets that come from elsewhere than a workbook, such as a database.

    Attributes
    ----------
    name : str
        What the journal calls them.
    sheets : list of Sheet
        The sheets.
    cleared : tuple of (str, date), optional
        The booked facts that aren't wanted any more, by their tags, streams or tanks and their
        days: these are struck, and no others. None if the sheets say what is gone, as a workbook
        does.
    source : PulledSource, optional
        Where they are read from again and again; then what has vanished there is gone.
    """

    name: str
    sheets: list[Sheet]
    cleared: tuple[tuple[str, datetime.date], ...] | None = None
    source: PulledSource | None = None


Given = str | Path | Tabled


def workbook_name(workbook: Given) -> str:
    """Return what the journal calls a workbook."""
    return workbook.name if isinstance(workbook, Tabled) else Path(workbook).name


def sheets_of(path: Given, reading: ReadingOptions) -> list[Sheet]:
    """Return the sheets of a workbook, as its mapping says.

    A CSV file of another name, of which the mapping says nothing, is what its heads say.
    """
    if isinstance(path, Tabled):
        return path.sheets
    sheets = read_workbook(path)
    if len(sheets) == 1 and sheets[0].is_csv and not Path(path).is_dir():
        name = sheets[0].name.strip().casefold()
        if not any(name.startswith(kind) for kind in SHEETS) and not reading.names(sheets[0]):
            sheets[0].name = _kind_of(sheets[0])
    return reading.sheets(sheets)


def _kind_of(sheet: Sheet) -> str:
    """Return the kind of a sheet that has the heads of one; without them it is one of readings."""
    return "rows" if is_rows_of_critical(sheet) else kind_of_heads(sheet) or "readings"


def check_faults(found: Conversion, then: str) -> None:
    """Raise if something is wrong with a workbook.

    Raises
    ------
    Faults
        If it is so.
    """
    if not found.ok:
        raise Faults(found.faults, found.said(), then)


def raise_all(faults: Sequence[Fault]) -> None:
    """Raise if something is wrong with facts.

    Raises
    ------
    Faults
        If it is so.
    """
    if faults:
        raise Faults(faults, [str(fault) for fault in faults[:_FIRST]], "nothing is booked")


def converted(
    workbook: Given,
    reading: ReadingOptions,
    plant: list[tuple[str, ...]],
    meters: dict[str, Meter],
    periods: Iterable[Period] = (),
    accounts: Collection[str] = (),
    kept: str = "",
) -> Converter:
    """Return what a workbook holds; what it doesn't have of the plant, or of periods, is the book's.

    Parameters
    ----------
    workbook : str or Path
        The workbook.
    reading : ReadingOptions
        How it is read.
    plant : list of tuple of str
        The rows of the book's plant.
    meters : dict of str to Meter
        The book's meters.
    periods : iterable of Period
        The book's periods.
    accounts : collection of str
        The streams and tanks that have an account in the book.
    kept : str
        What the book keeps of products, factors, gauges and tables of water.

    Raises
    ------
    Fault
        If something is wrong with it.
    """
    with uncollected():
        work = Converter(sheets_of(workbook, reading), reading.reader, reading.skip)
        work.readings.whole = False
        work.periods.spans = [PeriodDays(each.first, each.last) for each in periods]
        work.known = accounts
        _read_plant(work, plant, meters)
        work.read_accounts()
        take_measures(work, MEASURES, kept)
        work.measures.read()
        work.read_facts()
        edits = list(_edits(work))
        if not edits:
            work.rows.read()
        for sheet in work.sheets["windows"]:
            work.tables.pass_sheet(sheet, BookRemedy.ASK_FOR_WINDOW().sentence)
        if not edits:
            work.tables.say_unread()
        work.say_rounded()
    work.faults.extend([*work.session.refused, *edits])
    if work.faults:
        work.faults[:0] = _left_out(work, *plant_with_meters(plant, meters))
    found = Conversion(work.session, work.faults, work.notes)
    check_faults(found, "nothing is booked")
    return work


def _read_plant(work: Converter, plant: list[tuple[str, ...]], meters: dict[str, Meter]) -> None:
    """Have a workbook's plant read, or take the book's with more critical values.

    Without tanks or tables these are the book's.
    """
    streams, tanks = plant_with_meters(plant, meters)
    if not work.sheets["streams"]:
        work.plant.take_plant(plant, streams, tanks)
        for sheet in [each for kind in _PLANT for each in work.sheets[kind]]:
            work.tables.pass_sheet(sheet, "without a sheet streams the plant is the book's")
        work.plant.read_critical()
        booked = {row[:-1] for row in plant if row[0] == "critical"}
        for fault in work.faults:
            if isinstance(fault, Refusal) and fault.row[:-1] in booked:
                fault.remedy = BookRemedy.DECLARED_STAYS_HERE().sentence
        return
    work.plant.begin(plant)
    if not work.sheets["tanks"]:
        rows = [row for row in plant if row[0] == "tank"]
        work.plant.take_tanks(rows, [replace(tank, points=[]) for tank in tanks])
    work.plant.read()
    if not work.sheets["straps"]:
        work.plant.take_straps(row for row in plant if row[0] == "strap")


def _left_out(work: Converter, streams: list[StreamRow], tanks: list[TankRow]) -> Iterator[Fault]:
    """Give what is to be said of sheets that have a part of the plant only, such as what is new."""
    tables = [tank.name for tank in tanks if tank.points and tank.name in work.plant.tanks]
    with_table = [tank.name for tank in work.plant.tanks.values() if tank.points]
    for kind, booked, there in (
        ("streams", [each.name for each in streams], list(work.plant.streams)),
        ("tanks", [each.name for each in tanks], list(work.plant.tanks)),
        ("straps", tables, with_table),
    ):
        names = [name for name in booked if name not in there and name not in work.plant.bad]
        if names and work.sheets[kind]:
            yield InputFault(
                counted(len(names), *_NOT_HERE[kind], names=listed(names)),
                place=work.sheets[kind][0].place(),
                remedy="write the whole plant into this sheet, with what is new",
            )


def _edits(work: Converter) -> Iterator[Fault]:
    """Give what is to be said of rows that a book has its own commands for."""
    for sheet in work.sheets["rows"]:
        for cells in sheet.rows():
            if cells[0].text in ("amend", "strike", "close"):
                act = cells[0].text
                remedy = BookRemedy.DO_BY_COMMAND(act=act).sentence
                what = Sentence("a row {act} is in a sheet rows", act=act)
                yield InputFault(what, place=cells[0].place(), remedy=remedy)
