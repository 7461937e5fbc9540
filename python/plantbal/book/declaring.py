"""What a workbook declares in a book: what is new of its plant, and its periods."""

from __future__ import annotations

import calendar
import datetime

from plantbal.book.ledger import PLANT_KINDS, BookFact, YearLedger
from plantbal.book.remedies import BookRemedy
from plantbal.book.years import Years
from plantbal.faults import Fault, Refusal
from plantbal.model.causes import Reason
from plantbal.records import text_of
from plantbal.sentence import Sentence, phrase
from plantbal.session import Period
from plantbal.workbook.converter import Converter


def put_plant(ledger: YearLedger, work: Converter) -> int:
    """Put what is new of the plant to a ledger, and return how many rows are.

    Raises
    ------
    Fault
        If something of it is otherwise in the book, or a period is closed already.
    """
    if not any(work.sheets[kind] for kind in ("streams", "rows", "critical", "settings")):
        return 0
    there = set(ledger.plant)
    others = ("version", "strap", "critical")
    names = {row[1]: row for row in ledger.plant if row[0] not in others}
    count = 0
    for row in work.session:
        if row[0] not in PLANT_KINDS or row in there:
            continue
        if row[1] in names and row[0] != "strap":
            was = text_of(names[row[1]])
            form = "{name} is {here} in the workbook and {was} in {year}.csv"
            here = text_of(row)
            what = Sentence(form, name=row[1], here=here, was=was, year=ledger.name)
            raise Fault(what, text=here, remedy=BookRemedy.DECLARED_STAYS().sentence)
        try:
            ledger.put(*row)
        except Refusal as refusal:
            refusal.remedy = _instead(row, refusal)
            raise
        count += 1
    return count


def _instead(row: tuple[str, ...], refusal: Refusal) -> str:
    """Return what to do if a year doesn't take a row of the plant any more."""
    if row[0] == "version":
        return BookRemedy.SERVICE_COMES_NEXT().sentence
    if row[0] == "critical":
        return BookRemedy.DECLARED_STAYS_HERE().sentence
    if refusal.refused.reason is Reason.DAYS_SEALED:
        return "write a day after the closed periods into its column since"
    return BookRemedy.PLANT_COMES_NEXT().sentence


def put_periods(years: Years, work: Converter, facts: list[BookFact]) -> None:
    """Declare the periods that a workbook names, or else the months of its facts.

    Raises
    ------
    Fault
        If one is otherwise in the book, or goes over the end of a year.
    """
    if work.sheets["periods"] or work.sheets["rows"]:
        for row in work.session:
            if row[0] == "period":
                _put_period(years, row[1], *map(datetime.date.fromisoformat, row[2:]))
        return
    days = {fact.first for fact in facts if fact.kind == "reading"}
    days = days or {fact.first for fact in facts if fact.kind == "transfer"}
    for day in sorted(days):
        ledger = years.of_day(day)
        if ledger is None or any(_within(period, day) for period in ledger.session.periods):
            continue
        first = day.replace(day=1)
        last = day.replace(day=calendar.monthrange(day.year, day.month)[1])
        _put_period(years, f"{day:%Y-%m}", first, last)


def _within(period: Period, day: datetime.date) -> bool:
    return period.first <= day.toordinal() <= period.last


def _put_period(years: Years, name: str, first: datetime.date, last: datetime.date) -> None:
    ledger = years.of_day(last)
    if ledger is None or years.of_day(first) is not ledger:
        form = "the period {name} goes from {first} to {last}, and isn't within a year of this book"
        what = Sentence(form, name=name, first=first, last=last)
        raise Fault(what, text=name, remedy=BookRemedy.BEGIN_YEAR().sentence)
    others = [span.name for span in years.spans if name in span.periods]
    if others and ledger.name not in others:
        what = Sentence("{year} has a period {name} already", year=others[0], name=name)
        remedy = Sentence("give it another name, such as {such}", such=f"{ledger.name}-{name}")
        raise Fault(what, text=name, remedy=remedy)
    there = ledger.periods.get(name)
    if there is None:
        try:
            ledger.put("period", name, str(first), str(last))
        except Refusal as refusal:
            form = "{remedy}, or write the periods into a sheet periods"
            refusal.remedy = Sentence(form, remedy=phrase(refusal.remedy))
            raise
    elif (there.first, there.last) != (first.toordinal(), last.toordinal()):
        day = datetime.date.fromordinal
        what = Sentence(
            "the period {name} goes from {first} to {last} in the workbook, and from {was} to {end} "
            "in the book",
            name=name,
            first=first,
            last=last,
            was=day(there.first),
            end=day(there.last),
        )
        raise Fault(what, text=name, remedy="correct the sheet periods")
