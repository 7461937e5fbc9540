"""Which fact the words of a command mean: a tag and a day, or an id."""

from __future__ import annotations

import datetime
from collections.abc import Iterator
from dataclasses import dataclass

from plantbal.book.ledger import BookFact, YearLedger
from plantbal.book.meters import Meter
from plantbal.book.years import Years
from plantbal.faults import Fault, Place
from plantbal.sentence import Joined, Sentence
from plantbal.workbook.cells import Reader
from plantbal.workbook.locales import check_locale
from plantbal.workbook.sheets import Cell, Sheet

_DAY = datetime.timedelta(1)


class _Words(Sheet):
    """The words of a command as a sheet: what is said of them needs no place."""

    def place(self, line: int | None = None, column: int | None = None, head: str = "") -> Place:
        """Return no place."""
        return Place()


def cell_of(text: str) -> Cell:
    """Return a word of a command as a cell."""
    return Cell(_Words("", "", []), 0, 0, text.strip() or None)


def day_named(text: str | None, locale: str) -> datetime.date | None:
    """Return the day that a command names, or None if it names none."""
    return None if text is None else Reader(check_locale(locale)).day(cell_of(text))


@dataclass(frozen=True)
class NamedFact:
    """A fact that a command names.

    Attributes
    ----------
    fact : BookFact
        The fact.
    places : list of (YearLedger, BookFact)
        The years that it stands in, each with the fact there.
    struck : bool
        Whether it was struck.
    """

    fact: BookFact
    places: list[tuple[YearLedger, BookFact]]
    struck: bool


class Names:
    """Finds the facts of a book by the words of a command.

    Parameters
    ----------
    years : Years
        The years.
    meters : dict of str to Meter
        The meters, for their tags.
    """

    def __init__(self, years: Years, meters: dict[str, Meter]) -> None:
        self.years = years
        self.tags = {meter.tag: meter.name for meter in meters.values() if meter.tag}

    def place(self, name: str) -> str:
        """Return the stream of a tag; another name stays."""
        return self.tags.get(name, name)

    def find(self, name: str, day: datetime.date | None) -> NamedFact:
        """Return the fact of a tag, stream or tank and its day, or of an id.

        Raises
        ------
        Fault
            If there is none.
        """
        ledgers = self._ledgers(day)
        live = [(each, fact) for each in ledgers for fact in self._live(each, name, day)]
        if live:
            # An id may be that of another fact in another year.
            ledger, fact = live[-1]
            return NamedFact(fact, self.years.twins(ledger, fact), struck=False)
        struck = [(each, fact) for each in ledgers for fact in self._struck(each, name, day)]
        if struck:
            return NamedFact(struck[-1][1], struck, struck=True)
        raise self._none(name, day)

    def _ledgers(self, day: datetime.date | None) -> list[YearLedger]:
        """Return the years in which a day may stand: two, if it is an eve."""
        if day is None:
            return self.years.all()
        found = {each.name: each for each in map(self.years.of_day, (day, day + _DAY)) if each}
        return list(found.values())

    def _live(self, ledger: YearLedger, name: str, day: datetime.date | None) -> Iterator[BookFact]:
        fact = ledger.on(self.place(name), day) if day is not None else None
        fact = fact or ledger.facts.get(name) or ledger.ticket(name)
        if fact is not None and (day is None or fact.first <= day <= fact.last):
            yield fact

    def _struck(
        self, ledger: YearLedger, name: str, day: datetime.date | None
    ) -> Iterator[BookFact]:
        for fact in ledger.struck.values():
            if day is None and fact.id == name:
                yield fact
            elif day is not None and fact.first <= day <= fact.last:
                if self.place(name) == fact.place or name == fact.id:
                    yield fact

    def _none(self, name: str, day: datetime.date | None) -> Fault:
        """Return what is to be said of a fact that isn't there."""
        if day is None:
            what = Sentence("there is no fact {name} in this book", name=name)
            remedy = "a reading and a dip are named by tag and day: FI-302 2024-04-18"
            return Fault(what, text=name, remedy=remedy)
        last = self.years.last.session
        if name in self.tags or name in last.streams or name in last.nodes:
            what = Sentence("{name} has no figure of {day} in this book", name=name, day=day)
            return Fault(what, text=str(day), remedy="add it by a workbook: plantbal-desk book add")
        return Fault(
            Sentence("there is no tag, stream or tank {name}", name=name),
            text=name,
            remedy=Sentence("the tags are {tags}", tags=Joined(", ", self.tags))
            if self.tags
            else "see plant.csv",
        )
