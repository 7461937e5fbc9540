"""Makes a book of the plant that a workbook has, with its first year.

The workbook's readings are added by `add`.
"""

from __future__ import annotations

from collections.abc import Collection, Iterable
from pathlib import Path

from plantbal.accounts.sheet import Accounts
from plantbal.audit.believed import program_digest
from plantbal.book.accounting import put_accounts
from plantbal.book.forms import JOURNAL, is_year, is_year_file, year_file
from plantbal.book.ledger import PLANT_KINDS, rows_text
from plantbal.book.measures import put_measures
from plantbal.book.meters import meters_of, meters_text
from plantbal.book.reading import check_faults, sheets_of
from plantbal.book.mapping import put_reading
from plantbal.book.remedies import BookRemedy
from plantbal.book.results import Begun
from plantbal.book.store import METERS, PLANT, Act, Action, Store
from plantbal.book.years import calendar_year
from plantbal.faults import Fault, InputFault, Place
from plantbal.model.forms import FIRST_DAY, LAST_DAY
from plantbal.program import call
from plantbal.report.parsing import parse_rows
from plantbal.sentence import Sentence
from plantbal.workbook.conversion import NO_STREAMS, Conversion
from plantbal.workbook.converter import Converter
from plantbal.workbook.options import ReadingOptions
from plantbal.workbook.sheetforms import Stage
from plantbal.workbook.sheetkinds import PLANT_SHEETS

# Of the sessions of a book: with it a day of service can be given at any time.
VERSION = (("version", "2"),)


def begin(
    book: Store,
    year: str,
    workbook: str | Path,
    *,
    reading: ReadingOptions = ReadingOptions(),
    program: str | Path | None = None,
    who: str = "",
) -> Begun:
    """Make the book; the parameters are those of `plantbal.Book.begin`."""
    check_year(year)
    reading = reading.kept(None)
    rows, work = plant_rows_of(workbook, reading)
    with book.opened(new=True):
        check_nothing_is_there(book, year)
        action = Action(Act.NEW, year, Path(workbook).name, who=who)
        action.program = program_digest(program)
        action.written = {PLANT: rows_text(rows), METERS: meters_text(meters_of(work.plant))}
        action.written[year_file(year)] = rows_text(rows)
        told = put_accounts(Accounts(), work.accounts, book, action)
        put_reading(book, reading, action)
        told += put_measures(book, action, work.measures.found)
        action.rows = [f"{year}: 1 to {len(rows)}"]
        classes = classes_by_design(rows, program)
        book.do(action)
    return Begun(year, len(rows), classes, (*told, *work.notes))


def check_nothing_is_there(book: Store, year: str) -> None:
    """Refuse to make a book where one is, or where something of one is left.

    A file whose name begins with a year counts only if it is that year's, or a session.

    Raises
    ------
    Fault
        If it is so.
    """
    if book.has(JOURNAL):
        what = Sentence("there is a book in {folder} already", folder=str(book.folder.resolve()))
        raise Fault(what, remedy=BookRemedy.ADD_WORKBOOK().sentence)
    for name in book.remains():
        kind = book.text(name).partition("\n")[0].partition(",")[0]
        if is_year_file(name) and name != year_file(year) and kind not in PLANT_KINDS:
            continue
        raise InputFault(
            "it already exists, and isn't overwritten",
            place=Place(file=str(book.path(name))),
            remedy=BookRemedy.PUT_BACK_OR_MOVE().sentence,
        )


def check_year(name: str) -> None:
    """Refuse what is no name of a year.

    Raises
    ------
    Fault
        If it is none.
    """
    if not is_year(name) or (len(name) == 4 and calendar_year(name) is None):
        form = "write four digits, {first} to {last}, or more: 2024, 2024-2"
        remedy = Sentence(form, first=FIRST_DAY.year, last=LAST_DAY.year)
        raise Fault(Sentence("{year!r} isn't a year", year=name), text=name, remedy=remedy)


def plant_rows_of(
    workbook: str | Path, reading: ReadingOptions, accounts: Collection[str] = ()
) -> tuple[list[tuple[str, ...]], Converter]:
    """Return the rows of the plant that a workbook has, and what was read of it.

    Raises
    ------
    Fault
        If something is wrong with it.
    """
    work = Converter(sheets_of(workbook, reading), reading.reader, reading.skip)
    if not work.sheets["streams"] and not work.faults:
        what, remedy = "there is no sheet streams", NO_STREAMS
        raise InputFault(what, place=Place(file=str(workbook)), remedy=remedy)
    work.known = accounts
    work.plant.begin(VERSION)
    work.read(Stage.PLANT)
    work.tables.say_unread(PLANT_SHEETS)
    work.faults.extend(work.session.refused)
    found = Conversion(work.session, work.faults, work.notes)
    check_faults(found, "nothing is made")
    return [row for row in work.session if row[0] in PLANT_KINDS], work


def classes_by_design(
    rows: Iterable[tuple[str, ...]], program: str | Path | None
) -> dict[str, list[str]]:
    """Return which streams of a plant have each class by its design."""
    text = rows_text(rows) + "design\n"
    _, output = call(["run"], text.encode("ascii"), program=program)
    found: dict[str, list[str]] = {}
    for row in parse_rows("the design", output.decode("ascii")):
        if row["row"] == "class":
            found.setdefault(row["class"], []).append(row["name"])
    return found
