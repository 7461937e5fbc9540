"""Adds a workbook to a book: what is new, what is changed, and nothing twice."""

from __future__ import annotations

import datetime
from collections.abc import Callable, Iterator, Mapping, Sequence
from dataclasses import dataclass
from typing import Protocol

from plantbal.accounts.sheet import Accounts
from plantbal.book.accounting import accounts_of, put_accounts
from plantbal.book.changes import Changes, compare, not_in_workbook, strayed
from plantbal.book.forms import MEASURES
from plantbal.book.declaring import put_periods, put_plant
from plantbal.book.doubts import Doubts
from plantbal.book.ledger import FACT_KINDS, BookFact, YearLedger, rows_text
from plantbal.book.measures import (
    density_changes,
    put_measures,
    put_summed,
    put_trails,
    trails_of,
)
from plantbal.book.mapping import mapping_of, put_reading
from plantbal.book.meters import Meter, changed_meters, meters_of, meters_text, read_meters
from plantbal.book.naming import Names
from plantbal.book.reading import Given, Tabled, converted, raise_all, workbook_name
from plantbal.book.results import Added, YearAdded
from plantbal.book.said import closed_in, lacks_said
from plantbal.book.store import METERS, PLANT, Act, Action, Store
from plantbal.book.remedies import BookRemedy
from plantbal.book.vanished import PulledSource, lost_of
from plantbal.book.years import Years
from plantbal.faults import Fault, InputFault, Refusal
from plantbal.model.causes import Cause
from plantbal.sentence import Sentence, counted
from plantbal.workbook.converter import Converter
from plantbal.workbook.options import ReadingOptions
from plantbal.workbook.sheets import Cell


class Reasoned(Protocol):
    """What has a reason for each fact that is changed."""

    def reason_of(self, fact: BookFact, is_gone: bool) -> str:
        """Return why a booked fact is changed, or struck since it is gone."""


# Gives the reason of a change, by what is said of it, or by the fact.
Why = Callable[[str], str] | Reasoned


class Unreasoned(Fault):
    """Changes for which no reason is given.

    Attributes
    ----------
    changes : tuple of str
        What would change, a line each: first the densities by which facts change.
    """

    def __init__(self, count: int, changes: Sequence[str]) -> None:
        one = "1 fact is booked with other values"
        what = counted(count, one, "{count:,} facts are booked with other values")
        super().__init__(what, remedy=BookRemedy.SAY_WHY().sentence)
        self.changes = tuple(changes)


@dataclass
class _ReadWorkbook:
    """A workbook as it was read for a book.

    Attributes
    ----------
    book : Store
        The book, which is open.
    workbook : str, Path or Tabled
        The workbook.
    years : Years
        The ledgers of the book.
    into : YearLedger
        The year of its plant.
    meters : dict of str to Meter
        The meters of the book.
    accounts : Accounts
        The accounts of the book.
    how : ReadingOptions
        How it was read, with what the book keeps of that.
    work : Converter
        What it holds.
    facts : list of BookFact
        Its facts.
    doubts : Doubts
        What looked wrong in the years before it.
    """

    book: Store
    workbook: Given
    years: Years
    into: YearLedger
    meters: dict[str, Meter]
    accounts: Accounts
    how: ReadingOptions
    work: Converter
    facts: list[BookFact]
    doubts: Doubts

    @property
    def source(self) -> PulledSource | None:
        """Where its sheets come from, if that is no workbook."""
        return self.workbook.source if isinstance(self.workbook, Tabled) else None

    @property
    def found(self) -> dict[str, Meter]:
        """The meters of the book and those of the workbook."""
        return self.meters | {meter.name: meter for meter in meters_of(self.work.plant)}


def add(
    book: Store,
    workbook: Given,
    *,
    why: str | Why = "",
    strike: bool = False,
    anyway: bool = False,
    year: str | None = None,
    reading: ReadingOptions = ReadingOptions(),
    dry_run: bool = False,
    who: str = "",
) -> Added:
    """Add a workbook; the parameters are those of `plantbal.Book.add`."""
    name = workbook_name(workbook)
    with book.opened(reading=dry_run):
        read = _read(book, workbook, year, reading)
        plant = put_plant(read.into, read.work)
        put_periods(read.years, read.work, read.facts)
        changes, strike = _changed(read, strike, anyway)
        causes = tuple(_causes(read, changes))
        check_reasons(changes, strike, why, causes)
        reasons = Reasons(why)
        touched = [*read.facts, *(fact for _, fact in changes.edited(strike))]
        read.doubts.look_at_facts(read.years.used, (fact.place for fact in touched))
        changes.put(reasons, strike)
        raise_all(put_assays(read.years, read.work))

        action = _action(read, who, reasons.said())
        action.anyway = strike and anyway
        if plant and read.into is read.years.last:
            action.written[PLANT] = rows_text(read.into.plant)
        told = _put(read, action, changes, reading)
        ledgers = read.years.used
        parts = tuple(_year_added(read.doubts, each, read.facts, read.found) for each in ledgers)
        is_booked = not dry_run and bool(action.appended or action.written)
        if is_booked:
            book.do(action)
    closed = tuple(closed_in(changes.edited(strike)))
    notes = tuple(read.work.notes)
    return Added(name, parts, tuple(told), changes, strike, notes, is_booked, closed, causes)


def _read(book: Store, workbook: Given, year: str | None, reading: ReadingOptions) -> _ReadWorkbook:
    """Read a workbook; what it doesn't have is the book's.

    Raises
    ------
    Fault
        If something is wrong with it, or a fact is of no year.
    """
    doubts = Doubts()
    years = Years(book, doubts.look_at_names)
    into = years.named(year)
    meters = read_meters(book)
    wide = any(meter.base for meter in meters.values())
    of_years = years.all() if wide else [into]  # periods are asked only for what they share
    periods = [each for ledger in of_years for each in ledger.periods.values()]
    accounts = accounts_of(book)
    # what comes from a database isn't written as the workbooks of the book are
    how = reading if isinstance(workbook, Tabled) else reading.kept(mapping_of(book))
    measures = book.text(MEASURES)
    work = converted(workbook, how, into.plant, meters, periods, accounts, measures)
    facts = [BookFact.of(row) for row in work.session if row[0] in (*FACT_KINDS, "late")]
    raise_all(years.outside(facts))
    return _ReadWorkbook(book, workbook, years, into, meters, accounts, how, work, facts, doubts)


def _changed(read: _ReadWorkbook, strike: bool, anyway: bool) -> tuple[Changes, bool]:
    """Return what a workbook changes, and whether what is gone is struck.

    Raises
    ------
    Fault
        If most of what is booked would be struck.
    """
    given = read.workbook
    if isinstance(given, Tabled) and given.cleared is not None:
        changes = changes_of(read.years, read.work, read.facts, False)
        return without(read.years, changes, given.cleared, read.meters), bool(given.cleared)
    changes = changes_of(read.years, read.work, read.facts, strike)
    if read.source is not None:
        lost = lost_of(read.book, read.years, read.source, read.facts)
        changes.gone, changes.asked = lost.struck, lost.asked
        strike = bool(changes.gone)
    if strike and not anyway:
        check_most(changes, workbook_name(given))
    return changes, strike


def _causes(read: _ReadWorkbook, changes: Changes) -> Iterator[str]:
    """Give the densities by which booked facts would change."""
    if changes.changed:
        trails = read.work.measuring.trails
        of = changes.changed, trails, read.meters, read.found
        yield from density_changes(trails_of(read.book), *of)


def _action(read: _ReadWorkbook, who: str, why: str) -> Action:
    """Return the action that books what was put to the years."""
    source = read.source
    if source is None:
        action = Action(Act.ADD, what=workbook_name(read.workbook), why=why, who=who)
    else:
        action = Action(Act.PULL, source.name, f"{source.first} to {source.last}", why, who)
    for ledger in read.years.used:
        action.add(ledger)
    return action


def _put(
    read: _ReadWorkbook, action: Action, changes: Changes, reading: ReadingOptions
) -> list[str]:
    """Have an action write what a book keeps beside its years, and return what is said of it."""
    book, work = read.book, read.work
    if meters_text(read.found.values()) != meters_text(read.meters.values()):
        action.written[METERS] = meters_text(read.found.values())
    told = changed_meters(read.meters, read.found)
    told += put_accounts(read.accounts, work.accounts, book, action)
    is_told = reading.mapping is not None and not isinstance(read.workbook, Tabled)
    if is_told and put_reading(book, read.how, action):
        told.append("mapping.toml: later workbooks are read by it")
    told += put_measures(book, action, work.measures.found)
    put_trails(book, action, changes, work.measuring.trails)
    put_summed(book, action, changes, work.readings.summed)
    return told


def _year_added(
    doubts: Doubts, ledger: YearLedger, facts: list[BookFact], meters: dict[str, Meter]
) -> YearAdded:
    """Return what was put to a year, what of it looks wrong, and what is missing beside it."""
    found = doubts.since(ledger)
    missing = lacks_said(ledger, facts, meters)
    return YearAdded(ledger.name, tuple(ledger.added), tuple(found), tuple(missing))


def changes_of(years: Years, work: Converter, facts: list[BookFact], strike: bool) -> Changes:
    """Return what a workbook changes.

    Raises
    ------
    Fault
        If a ticket has the id of another one.
    """
    changes = compare(years, facts)
    raise_all(list(strayed(years, changes, facts)))
    if work.sheets["readings"] or strike:
        changes.gone = not_in_workbook(years, work, facts)
    return changes


def without(
    years: Years,
    changes: Changes,
    cleared: Sequence[tuple[str, datetime.date]],
    meters: Mapping[str, Meter],
) -> Changes:
    """Return changes with the facts of some places and days gone, and no others.

    Raises
    ------
    Fault
        If one of them has no fact.
    """
    names = Names(years, dict(meters))
    found = [names.find(name, day) for name, day in cleared]
    changes.gone = [place for each in found if not each.struck for place in each.places]
    return changes


def check_most(changes: Changes, name: str) -> None:
    """Refuse to strike most of what is booked.

    Raises
    ------
    Fault
        If it is so.
    """
    there = changes.same + len(changes.changed) + len(changes.stale)
    if len(changes.gone) > there:
        form = "{count:,} of {all:,} facts that are booked aren't in {name}"
        count = len(changes.gone)
        what = Sentence(form, count=count, all=count + there, name=name)
        raise Fault(what, remedy=BookRemedy.STRIKE_SINGLE().sentence)


class Reasons:
    """The reasons of changes.

    Parameters
    ----------
    why : str or callable
        The reason of all changes, or what gives that of each.

    Attributes
    ----------
    given : dict of str to str
        The reasons by the ids of facts.
    """

    def __init__(self, why: str | Why) -> None:
        self.why = why
        self.given: dict[str, str] = {}

    def __call__(self, fact: BookFact, said: str, *, is_gone: bool = False) -> str:
        """Return the reason of a change."""
        if fact.id not in self.given:
            self.given[fact.id] = self._reason(fact, said, is_gone)
        return self.given[fact.id]

    def _reason(self, fact: BookFact, said: str, is_gone: bool) -> str:
        if isinstance(self.why, str):
            return self.why
        return self.why(said) if callable(self.why) else self.why.reason_of(fact, is_gone)

    def said(self) -> str:
        """Return the reasons, each once."""
        return "; ".join(dict.fromkeys(self.given.values()))


def check_reasons(
    changes: Changes, strike: bool, why: str | Why, causes: Sequence[str] = ()
) -> None:
    """Refuse changes without a reason; what causes them is said before them.

    Raises
    ------
    Unreasoned
        If it is so.
    """
    lines = [change.said() for change in [*changes.changed, *changes.left]]
    if strike:
        form = "{id}: {was} is struck"
        lines += [Sentence(form, id=fact.id, was=fact.said()) for _, fact in changes.gone]
    if lines and not why:
        raise Unreasoned(len(set(lines)), [*causes, *dict.fromkeys(lines)])


# ---- assays


def put_assays(years: Years, work: Converter) -> list[Fault]:
    """Put the assays of a workbook that aren't booked yet, and return what is wrong with others.

    That is one which is booked with another grade, whose period is closed or isn't there, or that
    would be refused otherwise.
    """
    faults: list[Fault] = []
    for row, cells in work.assays.found:
        try:
            _put_assay(years, row, cells)
        except Refusal as refusal:
            refusal.place = (cells.get(refusal.column) or cells["period"]).place()
            if refusal.code == Cause.CLOSED:
                refusal.remedy = BookRemedy.ASSAYS_BEFORE_CLOSE().sentence
            faults.append(refusal)
        except InputFault as fault:
            faults.append(fault)
    return faults


def _put_assay(years: Years, row: tuple[str, ...], cells: Mapping[str, Cell]) -> None:
    """Put an assay, if it isn't booked yet.

    Raises
    ------
    Fault
        If it can't be.
    """
    component, stream, period = row[1:4]
    # its period may be one that the workbook declares
    new = (each for each in years.used if period in each.periods)
    try:
        ledger = next(new, None) or years.of_period(period)
    except Fault as fault:
        place = cells["period"].place()
        raise InputFault(fault.what, place=place, remedy=fault.remedy) from fault
    there = ledger.assays.get((component, stream, period))
    if there is None:
        ledger.put(*row)
    elif there != (int(row[4]), int(row[5])):
        remedy = Sentence(
            (
                "a booked assay can't be amended or struck: correct the workbook; {period} is "
                "closed, so its assays stay as they are"
            )
            if ledger.periods[period].closed
            else (
                "a booked assay can't be amended or struck: correct the workbook, or if the book "
                "is wrong, put back its folder from before that assay"
            ),
            period=period,
        )
        what = Sentence(
            "{stream} has {there:,} ppm of {component} in {period} in the book, and {here:,} ppm in "
            "the workbook, or another error",
            stream=stream,
            there=there[0],
            component=component,
            period=period,
            here=int(row[4]),
        )
        raise InputFault(what, place=cells["ppm"].place(), remedy=remedy)
