"""Facts that were pulled from a source and aren't there any more.

A pull is booked under the name of its source, so what it booked is known by the journal: a fact that
came from a workbook or was typed is never taken for one that vanished. What vanished is a fact of
the source that begins within the days that are read now, and that isn't among those that it has now.
"""

from __future__ import annotations

import datetime
from collections.abc import Iterable, Iterator, Mapping
from dataclasses import dataclass, field
from enum import Enum

from plantbal.book.forms import year_file
from plantbal.book.journal import Act
from plantbal.book.ledger import FACT_KINDS, BookFact, YearLedger
from plantbal.book.store import Store
from plantbal.book.years import Years


class Vanished(Enum):
    """What becomes of a fact that vanished."""

    ASK = "ask"
    STRIKE = "strike"
    KEEP = "keep"


@dataclass(frozen=True)
class PulledSource:
    """Where facts come from that are read again and again.

    Attributes
    ----------
    name : str
        What the journal calls it.
    first, last : date
        The days that are read.
    kinds : mapping of str to Vanished
        The kinds of facts that it gives, and what becomes of those that vanish.
    """

    name: str
    first: datetime.date
    last: datetime.date
    kinds: Mapping[str, Vanished] = field(default_factory=dict)


@dataclass
class VanishedFacts:
    """Facts that vanished: those that are to be struck, and those that are asked about."""

    struck: list[tuple[YearLedger, BookFact]] = field(default_factory=list)
    asked: list[tuple[YearLedger, BookFact]] = field(default_factory=list)


def lost_of(
    book: Store, years: Years, source: PulledSource, facts: Iterable[BookFact]
) -> VanishedFacts:
    """Return the facts of a source that vanished.

    Parameters
    ----------
    book : Store
        The book.
    years : Years
        Its ledgers.
    source : PulledSource
        The source.
    facts : iterable of BookFact
        What it has now.
    """
    there = {
        ("", each.id) if each.kind == "transfer" else (each.place, each.first) for each in facts
    }
    found = VanishedFacts()
    for ledger, fact in _pulled(book, years, source.name):
        becomes = source.kinds.get(fact.kind, Vanished.KEEP)
        is_read = source.first <= fact.first and fact.last <= source.last
        key = ("", ledger.origin(fact)) if fact.kind == "transfer" else (fact.place, fact.first)
        if becomes is Vanished.KEEP or not is_read or key in there:
            continue
        (found.struck if becomes is Vanished.STRIKE else found.asked).append((ledger, fact))
    return found


def _pulled(book: Store, years: Years, name: str) -> Iterator[tuple[YearLedger, BookFact]]:
    """Give the facts that are booked of a source, once each."""
    rows: dict[str, set[int]] = {}
    for line in book.journal():
        if line.act is Act.PULL and line.of == name:
            for year, added in line.added.items():
                rows.setdefault(year, set()).update(added)
    for year, numbers in rows.items():
        ledger = years[year]
        ids = dict.fromkeys(_ids(book.text(year_file(year)), numbers))
        yield from ((ledger, ledger.facts[each]) for each in ids if each in ledger.facts)


def _ids(text: str, numbers: set[int]) -> Iterator[str]:
    """Give the ids of the facts in some rows of a year."""
    for number, line in enumerate(text.split("\n"), 1):
        if number in numbers:
            kind, _, rest = line.removeprefix("late,").partition(",")
            if kind in FACT_KINDS:
                yield rest.partition(",")[0]
