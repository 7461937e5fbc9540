"""What is booked of a stream or tank: each figure, its error, and what it was before."""

from __future__ import annotations

import datetime

from plantbal.book.ledger import BookFact, YearLedger
from plantbal.book.meters import Meter, read_meters
from plantbal.book.naming import Names
from plantbal.book.results import ShownFact
from plantbal.book.said import waiting_said
from plantbal.book.store import Store
from plantbal.book.years import Years
from plantbal.faults import Fault
from plantbal.sentence import Sentence


def show(
    book: Store, name: str, first: datetime.date | None, last: datetime.date | None
) -> tuple[list[ShownFact], Meter | None, list[str]]:
    """Return what is booked of a stream or tank, its meter, and what waits in the book.

    Raises
    ------
    Fault
        If nothing is.
    """
    first, last = first or datetime.date.min, last or datetime.date.max
    with book.opened(reading=True):
        years = Years(book)
        meters = read_meters(book)
        place = Names(years, meters).place(name)
        ledgers = [years[span.name] for span in years.spans if span.last >= first]
        waiting = waiting_said(book)
    found = {
        (fact.first, fact.last, fact.id): _shown(ledger, fact)
        for ledger in ledgers
        for fact in [*ledger.facts.values(), *ledger.struck.values()]
        if fact.place == place and fact.first <= last and fact.last >= first
    }
    if not found:
        raise Fault(Sentence("nothing of {name} is booked on these days", name=name), text=name)
    return [found[key] for key in sorted(found)], meters.get(place), waiting


def _shown(ledger: YearLedger, fact: BookFact) -> ShownFact:
    before = tuple(was for _, was in ledger.edits.get(fact.id, []))
    return ShownFact(fact, fact.id in ledger.struck, before)
