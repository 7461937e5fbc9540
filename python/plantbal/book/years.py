"""The years of a book: from which day to which each goes, and their ledgers."""

from __future__ import annotations

import datetime
from collections import defaultdict
from collections.abc import Callable, Iterable
from dataclasses import dataclass

from plantbal.book.ledger import BookFact, YearLedger
from plantbal.book.remedies import BookRemedy
from plantbal.book.store import Act, Store
from plantbal.faults import Fault, InputFault, Place
from plantbal.model.forms import FIRST_DAY, LAST_DAY, day_number, day_of_number
from plantbal.sentence import Sentence

_DAY = datetime.timedelta(1)
# Before the first period of a year may stand days of the year before it, such as the 26th of
# December, but no others: so a year that is typed wrong is noticed.
_BEFORE = datetime.timedelta(31)
_TYPED = (Act.AMEND, Act.STRIKE, Act.ESTIMATE)


@dataclass(frozen=True)
class YearSpan:
    """The days of a year.

    Attributes
    ----------
    name : str
        The year's name.
    first, last : date
        Its first and its last day.
    periods : dict of str to bool
        Its periods, and whether each is closed.
    """

    name: str
    first: datetime.date
    last: datetime.date
    periods: dict[str, bool]


def calendar_year(name: str) -> int | None:
    """Return the calendar year that a name is, or None if it is another name."""
    is_one = len(name) == 4 and FIRST_DAY.year <= int(name) <= LAST_DAY.year
    return int(name) if is_one else None


def periods_of(file: str, text: str) -> dict[str, tuple[bool, datetime.date]]:
    """Return the periods that a session declares: whether each is closed, and its last day.

    Only rows of these two kinds are read, so that a book of many years is looked through quickly.

    Parameters
    ----------
    file : str
        The file, for what is said of it.
    text : str
        Its text.

    Raises
    ------
    InputFault
        If such a row is none: no command writes it.
    """
    found: dict[str, tuple[bool, datetime.date]] = {}
    for number, line in enumerate(text.split("\n"), start=1):
        if line.startswith(("period,", "close,")):
            kind, name, *days = line.rstrip("\r,").split(",")
            last = day_number(days[1]) if kind == "period" and len(days) > 1 else None
            if kind == "close" and name in found:
                found[name] = True, found[name][1]
            elif last is not None:
                found[name] = False, day_of_number(last)
            else:
                raise InputFault(
                    Sentence("this {kind} row isn't one that a command writes", kind=kind),
                    place=Place(file=file, line=number),
                    text=line,
                    remedy="put the file back as it was, from a backup",
                )
    return found


def spans_of(book: Store) -> list[YearSpan]:
    """Return the days of each year, in order.

    A year begins on the day after the last period of the year before it, and goes up to the next.
    The last year ends with the calendar year if its name is one.
    """
    names = book.years
    found: list[YearSpan] = []
    for at, name in enumerate(names):
        year = calendar_year(name)
        file = f"{name}.csv"
        periods = periods_of(str(book.path(file)), book.text(file))
        if found:
            first = found[-1].last + _DAY
        else:
            first = datetime.date.min if year is None else datetime.date(year, 1, 1) - _BEFORE
        if at + 1 < len(names):
            last = max((last for _, last in periods.values()), default=first)
        else:
            last = datetime.date.max if year is None else datetime.date(year, 12, 31)
        closed = {period: closed for period, (closed, _) in periods.items()}
        found.append(YearSpan(name, first, last, closed))
    return found


class Years:
    """The ledgers of a book, each read when it is first wanted.

    Parameters
    ----------
    book : Store
        The book, which has been opened.
    on_read : callable
        Gets the ledger of a year when it is read, before anything is put to it.

    Attributes
    ----------
    spans : list of YearSpan
        The years and their days.
    typed : dict of str to set of int
        Of each year the rows that the commands `amend`, `strike` and `estimate` have written.
    """

    def __init__(
        self, book: Store, on_read: Callable[[YearLedger], None] = lambda ledger: None
    ) -> None:
        self.book = book
        self._on_read = on_read
        self.spans = spans_of(book)
        self.typed: defaultdict[str, set[int]] = defaultdict(set)
        self._ledgers: dict[str, YearLedger] = {}
        for line in book.journal():
            if line.act in _TYPED:
                for name, numbers in line.added.items():
                    self.typed[name].update(numbers)

    def __getitem__(self, name: str) -> YearLedger:
        """Return the ledger of a year."""
        if name not in self._ledgers:
            span = next(span for span in self.spans if span.name == name)
            file = f"{name}.csv"
            self._ledgers[name] = YearLedger.read(
                name, str(self.book.path(file)), self.book.text(file), span.first, span.last
            )
            self._on_read(self._ledgers[name])
        return self._ledgers[name]

    @property
    def used(self) -> list[YearLedger]:
        """The ledgers that were read, in order."""
        return [self._ledgers[span.name] for span in self.spans if span.name in self._ledgers]

    @property
    def last(self) -> YearLedger:
        """The last year's ledger."""
        return self[self.spans[-1].name]

    def named(self, name: str | None) -> YearLedger:
        """Return the ledger of a year by its name, or the last one without a name.

        Raises
        ------
        Fault
            If there is no such year.
        """
        names = [span.name for span in self.spans]
        if name is None:
            return self.last
        if name not in names:
            remedy = Sentence("use one of {words}", words=", ".join(names))
            raise Fault(Sentence("there is no year {name}", name=name), text=name, remedy=remedy)
        return self[name]

    def all(self) -> list[YearLedger]:
        """Return all ledgers."""
        return [self[span.name] for span in self.spans]

    def of_day(self, day: datetime.date) -> YearLedger | None:
        """Return the ledger of the year that has a day, or None."""
        for span in self.spans:
            if span.first <= day <= span.last:
                return self[span.name]
        return None

    def of_fact(self, fact: BookFact) -> list[YearLedger]:
        """Return the ledgers that a fact belongs to: two, if it touches two years."""
        found = []
        for span in self.spans:
            eve = fact.kind == "dip" and fact.last + _DAY == span.first
            if eve or (fact.first <= span.last and fact.last >= span.first):
                found.append(self[span.name])
        return found

    def twins(self, ledger: YearLedger, fact: BookFact) -> list[tuple[YearLedger, BookFact]]:
        """Return a fact of a ledger in each year that it stands in, under its id there."""
        found = []
        for other in self.of_fact(fact):
            if fact.kind == "transfer":
                twin = other.ticket(ledger.origin(fact))
            else:
                twin = other.on(fact.place, fact.first)
            if twin is not None and twin.slot == fact.slot:
                found.append((other, twin))
        return found or [(ledger, fact)]

    def of_period(self, name: str) -> YearLedger:
        """Return the ledger that has a period.

        Raises
        ------
        Fault
            If there is no such period.
        """
        for span in self.spans:
            if name in span.periods:
                return self[span.name]
        names = [period for span in self.spans for period in span.periods]
        form = "the periods are {names}" if names else "add a workbook first"
        remedy = Sentence(form, names=", ".join(names))
        what = Sentence("there is no period {name} in this book", name=name)
        raise Fault(what, text=name, remedy=remedy)

    def open_periods(self) -> list[str]:
        """Return the periods that aren't closed, in the order in which they were declared."""
        return [name for span in self.spans for name, closed in span.periods.items() if not closed]

    def outside(self, facts: Iterable[BookFact]) -> list[Fault]:
        """Return what is to be said of facts that belong to no year."""
        faults = []
        for fact in facts:
            if self.of_fact(fact):
                continue
            last = self.spans[-1]
            if fact.first > last.last:
                form = "{id}: {day} comes after {year}"
                what = Sentence(form, id=fact.id, day=fact.first, year=last.name)
                remedy = BookRemedy.CORRECT_OR_NEXT(year=fact.first.year).sentence
            else:
                form = "{id}: {day} is before {year}, the book's first year"
                what = Sentence(form, id=fact.id, day=fact.first, year=self.spans[0].name)
                remedy = Sentence("correct the day")
            faults.append(Fault(what, text=str(fact.first), remedy=remedy))
        return faults
