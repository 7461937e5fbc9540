"""Begins the next year with the plant, the dips on its eve, and whatever else touches both years.

It is refused unless each tank holds the same, to the gram, at the end of one year and at the
beginning of the other.
"""

from __future__ import annotations

import datetime
from collections.abc import Iterable
from dataclasses import dataclass, replace
from pathlib import Path

from plantbal.amounts import tonnes_of
from plantbal.audit.believed import program_digest
from plantbal.book.accounting import accounts_of, put_accounts
from plantbal.book.beginning import check_year, classes_by_design, plant_rows_of
from plantbal.book.contents import grams_by_program
from plantbal.book.ledger import BookFact, YearLedger, number_with_commas, rows_text
from plantbal.book.mapping import mapping_of, put_reading
from plantbal.book.measures import keep_measures, put_measures
from plantbal.book.meters import meters_of, meters_text, read_meters
from plantbal.book.remedies import BookRemedy
from plantbal.book.results import Begun
from plantbal.book.store import METERS, PLANT, Act, Action, Store
from plantbal.book.years import Years, calendar_year, periods_of
from plantbal.faults import Fault, InputFault, Place, Refusal
from plantbal.model.forms import FIRST_DAY, LAST_DAY
from plantbal.records import read_records
from plantbal.sentence import Day, Figure, Sentence, phrase
from plantbal.workbook.options import ReadingOptions

_DAY = datetime.timedelta(1)


def follow(
    book: Store,
    year: str,
    *,
    plant: str | Path | None = None,
    first: datetime.date | None = None,
    reading: ReadingOptions = ReadingOptions(),
    program: str | Path | None = None,
    who: str = "",
) -> Begun:
    """Begin the next year; the parameters are those of `plantbal.Book.next`."""
    check_year(year)
    return _follow(book, year, NextPlant(plant, reading), first, program, who)


def retire(
    book: Store,
    name: str,
    until: datetime.date,
    *,
    year: str = "",
    program: str | Path | None = None,
    who: str = "",
) -> Begun:
    """End the service of a tank or stream; the parameters are those of `plantbal.Book.retire`."""
    if not year:
        with book.opened(reading=True):
            year = next_part(Years(book).last.name)
    check_year(year)
    return _follow(book, year, NextPlant(retired=name, until=until), None, program, who)


@dataclass(frozen=True)
class NextPlant:
    """The plant of a next year.

    Attributes
    ----------
    workbook : str, Path or None
        The workbook that has it; None for that of the book.
    reading : ReadingOptions
        How the workbook is read.
    retired : str
        A tank or stream of the book's plant that goes out of service.
    until : date
        Its last day.
    """

    workbook: str | Path | None = None
    reading: ReadingOptions = ReadingOptions()
    retired: str = ""
    until: datetime.date = datetime.date.max


def _follow(
    book: Store,
    year: str,
    plant: NextPlant,
    first: datetime.date | None,
    program: str | Path | None,
    who: str,
) -> Begun:
    """Begin the next year with a plant."""
    with book.opened():
        if year in book.years:
            return Begun(year, 0, {}, is_begun=False)
        old = Years(book).last
        if year <= old.name:
            what = Sentence(
                "{year} doesn't come after {last}, the last year", year=year, last=old.name
            )
            raise Fault(what, text=year, remedy="name a later one")
        first = first_day(year, first, book.text(f"{old.name}.csv"), old)
        action = Action(Act.NEXT, year, who=who)
        action.program = program_digest(program)
        new, notes = begun(book, action, year, plant, first)
        contents = carry(old, new, first - _DAY, program)
        classes = classes_by_design(new.plant, program) if plant.workbook else {}
        action.written[f"{new.name}.csv"] = rows_text(new.session)
        action.rows = [f"{new.name}: 1 to {new.count}"]
        book.do(action)
    tanks = [name for name, kind in new.session.nodes.items() if kind == "tank"]
    unopened = tuple(name for name in tanks if name not in contents)
    return Begun(year, len(new.plant), classes, tuple(notes), first, contents, unopened)


def first_day(name: str, wanted: datetime.date | None, text: str, old: YearLedger) -> datetime.date:
    """Return the first day of the next year: the one after the last period of the year before it.

    Raises
    ------
    Fault
        If it is another one than is wanted.
    """
    periods = periods_of(f"{old.name}.csv", text)
    eve = max((last for _, last in periods.values()), default=None)
    if eve is None:
        what = Sentence("{year} has no period yet", year=old.name)
        raise Fault(what, remedy="add its workbooks first")
    year = calendar_year(name)
    first = eve + _DAY
    if wanted is None:
        wanted = first if year is None else datetime.date(year, 1, 1)
    if wanted != first:
        form = "the last period of {year} ends on {eve}, and {name} begins on {wanted}"
        what = Sentence(form, year=old.name, eve=eve, name=name, wanted=wanted)
        remedy = BookRemedy.FILL_OR_FIRST(year=old.name, first=first).sentence
        raise Fault(what, remedy=remedy)
    return first


def begun(
    book: Store,
    action: Action,
    year: str,
    plant: NextPlant,
    first: datetime.date,
) -> tuple[YearLedger, list[str]]:
    """Return the next year with its plant alone, and what is skipped of another plant.

    An action has that other plant written.

    Raises
    ------
    Fault
        If a row of the plant is refused, or is none.
    """
    file, text = str(book.path(PLANT)), book.text(PLANT)
    notes: list[str] = []
    if plant.retired:
        known = [record.fields for record in read_records(text.encode("utf-8"))]
        rows, notes = dated(known, plant.retired, plant.until, first)
        text = rows_text(rows)
        action.what = f"{plant.retired} until {plant.until}"
        action.written = {PLANT: text}
    elif plant.workbook:
        accounts = accounts_of(book)
        reading = plant.reading.kept(mapping_of(book))
        rows, work = plant_rows_of(plant.workbook, reading, accounts)
        if plant.reading.mapping is not None:
            put_reading(book, reading, action)
        kept = read_meters(book) | {each.name: each for each in meters_of(work.plant)}
        file, text = str(plant.workbook), rows_text(rows)
        action.what = Path(plant.workbook).name
        action.written |= {PLANT: text, METERS: meters_text(kept.values())}
        keep_measures(work, book)
        told = put_measures(book, action, work.measures.found)
        notes = [*told, *put_accounts(accounts, work.accounts, book, action), *work.notes]
    new = YearLedger.read(year, file, text, first, datetime.date.max)
    for record in read_records(text.encode("utf-8")):
        if record.fields not in new.plant:
            place = Place(file=file, line=record.line)
            form = "a plant file can't contain a {kind} row"
            raise InputFault(Sentence(form, kind=record.fields[0]), place=place)
    return new, notes


def next_part(year: str) -> str:
    """Return the name of another part of a year: 2024b after 2024, and 2024c after that."""
    return year[:-1] + chr(ord(year[-1]) + 1) if year[-1:] in "bcdefgh" else f"{year}b"


def dated(
    rows: Iterable[tuple[str, ...]], name: str, until: datetime.date, first: datetime.date
) -> tuple[list[tuple[str, ...]], list[str]]:
    """Return the rows of a plant with the last day of a tank or stream, and what is said of others.

    With a tank the streams that come in or go out end.

    Raises
    ------
    Fault
        If there is no such tank or stream, or it would be out of service before the year begins.
    """
    kept = [row for row in rows if row[0] != "version"]
    if not any(row[0] in ("tank", "stream") and row[1] == name for row in kept):
        what = Sentence("there is no tank or stream {name!r}", name=name)
        raise Fault(what, text=name, remedy=BookRemedy.NAME_A_PLACE().sentence)
    if until < first:
        form = "{until} is before {first}, on which the next part of the year begins"
        what = Sentence(form, until=until, first=first)
        remedy = "periods up to there are in the book; give its last day in the part that begins"
        raise Fault(what, text=str(until), remedy=remedy)
    found: list[tuple[str, ...]] = [("version", "2")]
    notes: list[str] = []
    for row in kept:
        count = {"tank": 3, "stream": 6}.get(row[0], 0)
        if count and (row[1] == name or (row[0] == "stream" and name in row[2:4])):
            since, end = (*row[count:], str(FIRST_DAY), str(LAST_DAY))[:2]
            row = (*row[:count], since, min(end, str(until)))
            notes.append(Sentence("{name}: in service until {day}", name=row[1], day=Day(row[-1])))
        found.append(row)
    return found, notes


def carry(
    old: YearLedger, new: YearLedger, eve: datetime.date, program: str | Path | None
) -> dict[str, int]:
    """Put to a year what goes over from the one before it, and return the contents of its tanks.

    Raises
    ------
    Fault
        If what a tank holds at the end of one year isn't what it holds as the other begins.
    """
    tanks = {name for name, kind in new.session.nodes.items() if kind == "tank"}
    dips = [fact for fact in old.facts.values() if fact.kind == "dip" and fact.first == eve]
    later = [fact for fact in old.facts.values() if fact.last > eve]
    for fact in [*dips, *later]:
        if fact.place in tanks or fact.place in new.session.streams:
            # A ticket has its own id again, by which workbooks call it.
            own = old.origin(fact) if fact.kind == "transfer" else fact.id
            _put(new, replace(fact, id=own))
    closing = grams_by_program(old.plant, dips, program)
    opening = grams_by_program(new.plant, [dip for dip in dips if dip.place in tanks], program)
    for name, grams in closing.items():
        if grams != opening.get(name, 0):
            raise _other(old, new, name, grams, opening.get(name))
    return opening


def _put(new: YearLedger, fact: BookFact) -> None:
    try:
        new.put(*fact.row())
    except Refusal as refusal:
        form = "{id} doesn't go over: {said}"
        what = Sentence(form, id=fact.id, said=phrase(refusal.said))
        raise Fault(what, text=fact.id, remedy=refusal.remedy) from refusal


def _other(old: YearLedger, new: YearLedger, name: str, closing: int, opening: int | None) -> Fault:
    """Return what is to be said of a tank whose contents would change."""
    amount = Figure(f"{number_with_commas(tonnes_of(closing))} t")
    words = {"name": name, "amount": amount, "old": old.name, "new": new.name}
    if opening is None:
        form = "{name} holds {amount} as {old} ends, and isn't in the plant of {new}"
        remedy = "book where it went as a transfer, or keep the tank"
        return Fault(Sentence(form, **words), text=name, remedy=remedy)
    form = "{name} holds {amount} as {old} ends, and by the other table {other} as {new} begins"
    what = Sentence(form, other=Figure(f"{number_with_commas(tonnes_of(opening))} t"), **words)
    return Fault(what, text=name, remedy="keep its table, or give the tank another name")
