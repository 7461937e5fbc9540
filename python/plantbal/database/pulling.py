"""Facts of a database, read into a book as those of a workbook are.

Each pull reads all figures of its days, and the book says what of them is new, changed or late: so
nothing depends on what an earlier pull remembers, a pull that is stopped is pulled again, and a
source that changes a row without saying so is noticed too. What is changed is amended, with the
time at which the source changed it as the reason, if a query has such a column.
"""

from __future__ import annotations

import datetime
from collections.abc import Callable, Iterable, Iterator, Mapping
from dataclasses import dataclass, field
from pathlib import Path
from typing import TYPE_CHECKING, Any

from plantbal.book.ledger import BookFact
from plantbal.book.reading import Tabled
from plantbal.book.results import Added
from plantbal.book.said import FIRST
from plantbal.book.vanished import PulledSource
from plantbal.book.years import calendar_year
from plantbal.database.connect import connected
from plantbal.database.queries import Queries
from plantbal.database.querying import SourceChange, QueryResult, queried
from plantbal.faults import Fault, InputFault, Place
from plantbal.workbook.cells import Reader
from plantbal.workbook.hours import Clock, stamp_of
from plantbal.workbook.options import ReadingOptions
from plantbal.workbook.settings import read_settings, Settings
from plantbal.workbook.sheets import Cell, Sheet

if TYPE_CHECKING:
    from plantbal.book.library import Book

_DAY = datetime.timedelta(1)
_UTC = datetime.timezone.utc
# The sheets whose rows change a fact of another one.
_BESIDE = ("densities", "temperatures", "moistures")
# The heads that name what a row is of, and those of its days.
_NAMES = ("tag", "stream", "tank", "name", "id")
_FIRST, _LAST = ("day", "first"), ("last", "day", "first")


@dataclass(frozen=True)
class Pulled:
    """What a pull did.

    Attributes
    ----------
    first, last : date
        The days that were read.
    added : Added
        What the book says of them.
    notes : tuple of str
        What has to be said of the source: floats, figures of bad quality.
    times : SourceTimes
        When the source changed each fact.
    """

    first: datetime.date
    last: datetime.date
    added: Added
    notes: tuple[str, ...]
    times: SourceTimes


@dataclass
class SourceTimes:
    """When the source changed each fact: the reasons of amendments.

    Attributes
    ----------
    source : str
        What the source is called.
    settings : Settings
        Where its days begin.
    names : mapping of str to str
        The streams by their tags.
    """

    source: str
    settings: Settings
    names: Mapping[str, str]
    _own: dict[tuple[str, datetime.date | str], str] = field(default_factory=dict)
    _beside: list[tuple[set[str], datetime.date | None, datetime.date | None, str]] = field(
        default_factory=list
    )

    def take(self, changed: Iterable[SourceChange]) -> None:
        """Take the times of rows."""
        for each in changed:
            row = {head.casefold(): value for head, value in each.row.items()}
            of = {str(row[head]) for head in _NAMES if row.get(head) is not None}
            of |= {self.names[name] for name in of if name in self.names}
            first, last = (self._day(row, heads) for heads in (_FIRST, _LAST))
            if each.sheet in _BESIDE:
                self._beside.append((of, first, last, each.at))
                continue
            for name in of:
                for of_row in (first, str(row.get("id") or "")):
                    if of_row:
                        key = name, of_row
                        self._own[key] = max(self._own.get(key, ""), each.at)

    def _day(self, row: Mapping[str, Any], heads: Iterable[str]) -> datetime.date | None:
        """Return the plant's day of a row; None if it has none."""
        text = next((row[head] for head in heads if row.get(head) is not None), None)
        if text is None:
            return None
        nowhere = Sheet("", "", [])
        at = stamp_of(Reader(), Cell(nowhere, 1, 1, text))
        if at is None:
            return None
        if at.tzinfo is None and at.time() == datetime.time(0):
            return at.date()
        before = datetime.timedelta(seconds=self.settings.stamps == "end")
        clock = Clock(self.settings)
        if at.tzinfo is None:
            return (at - before - self.settings.begins).date()
        return clock.day(at.astimezone(_UTC) - before)

    def reason_of(self, fact: BookFact, is_gone: bool) -> str:
        """Return why a fact is changed: when the source changed its row, or one beside it.

        When a row was deleted no source says.
        """
        if is_gone:
            return f"no longer at the source ({self.source})"
        found = self.time_of(fact)
        when = f"changed at the source at {found}" if found else "changed at the source"
        return f"{when} ({self.source})"

    def time_of(self, fact: BookFact) -> str:
        """Return when the source changed a fact's row, or one beside it; empty if it doesn't say."""
        times = [self._own.get((fact.place, fact.first), "")]
        times.append(self._own.get((fact.id, fact.id), ""))
        for names, first, last, at in self._beside:
            days = first is None or (last is not None and first <= fact.first <= last)
            if days and (fact.place in names or fact.id in names):
                times.append(at)
        return max(times)


def pull(
    book: Book,
    queries: Queries,
    *,
    first: datetime.date | None = None,
    last: datetime.date | None = None,
    dry_run: bool = False,
    reading: ReadingOptions = ReadingOptions(),
    agree: Callable[[Pulled], bool] | None = None,
) -> Pulled:
    """Read the facts of some days into a book.

    Parameters
    ----------
    book : Book
        The book.
    queries : Queries
        Where the facts are.
    first, last : date, optional
        The days; without them from the first day of the book's last year up to yesterday. A query
        may also name ``:eve``, the day before them, on which the first dips are.
    dry_run : bool
        Whether nothing is booked, to see what would be.
    reading : ReadingOptions
        How texts are read.
    agree : callable, optional
        Says whether what would be booked is to be booked; without it all is.

    Raises
    ------
    Fault
        If the database can't be read, or what it has is wrong.
    """
    if not queries.all:
        remedy = "write [[query]] with a sheet and an sql"
        raise InputFault("there is no query", place=Place(file=queries.file), remedy=remedy)
    settings = _settings(queries, reading.reader)
    begin, end = _days(book, first, last)
    with connected(queries) as connection:
        found = queried(connection, queries, _parameters(settings, begin, end))
    contents = book.contents()
    flows = [flow for own in contents.flows.values() for flow in own]
    names = {flow.meter.tag: flow.name for flow in flows if flow.meter and flow.meter.tag}
    times = SourceTimes(Path(queries.file).name, settings, names)
    times.take(found.changed)
    kinds = {each.kind: each.vanished for each in queries.all if each.kind}
    source = PulledSource(Path(queries.file).name, begin, end, kinds)
    given = Tabled(source.name, _joined(found), source=source)

    def added(dry_run: bool) -> Pulled:
        """Add what was read once, perhaps to see what would be booked."""
        own = book.add(given, why=times, dry_run=dry_run, reading=reading)
        return Pulled(begin, end, own, tuple(found.notes), times)

    if agree is not None:
        would = added(dry_run=True)
        if dry_run or not agree(would):
            return would
    return added(dry_run)


def _joined(found: QueryResult) -> list[Sheet]:
    return [sheet for sheet in found.sheets if len(sheet.lines) > 1]


def _settings(queries: Queries, reader: Reader) -> Settings:
    """Return the settings of a file of queries.

    Raises
    ------
    InputFault
        If one is wrong.
    """
    sheet = Sheet(queries.file, "settings", [])
    rows = [
        (Cell(sheet, at, 1, name), Cell(sheet, at, 2, value), Cell(sheet, at, 3, None))
        for at, (name, value) in enumerate(queries.settings.items(), 1)
    ]
    found, faults = read_settings(rows, reader)
    if faults:
        raise faults[0]
    return found


def _days(
    book: Book, first: datetime.date | None, last: datetime.date | None
) -> tuple[datetime.date, datetime.date]:
    """Return the days that are read.

    Raises
    ------
    Fault
        If nothing says where they begin, or there is none.
    """
    own = book.contents()
    year = max(own.flows)
    days = [month.first for month in own.months if month.year == year]
    calendar = calendar_year(year)
    if calendar is not None:
        days.append(datetime.date(calendar, 1, 1))
    if first is None and not days:
        raise Fault(f"nothing says on which day {year} begins", remedy="use --from DAY")
    begin = first or min(days)
    end = last or datetime.date.today() - _DAY
    if end < begin:
        raise Fault(f"{end} is before {begin}", text=str(end), remedy="choose other days")
    return begin, end


def _parameters(
    settings: Settings, first: datetime.date, last: datetime.date
) -> dict[str, datetime.date | datetime.datetime]:
    """Return what a query may name: days, and the stamps at which they begin and end."""
    clock = Clock(settings)
    ends = clock.begin(first), clock.begin(last + _DAY)
    begin, end = (at if settings.zone is not None else at.replace(tzinfo=None) for at in ends)
    eve = first - _DAY
    return {"eve": eve, "first": first, "last": last, "begin": begin, "end": end}


def pull_lines(found: Pulled) -> Iterator[str]:
    """Give what is to be said of a pull before what the book says: of the source, what is new."""
    yield f"{found.first} to {found.last} were read"
    yield from found.notes
    new = [fact for _, fact in found.added.changes.new]
    for fact in new[:FIRST]:
        at = found.times.time_of(fact)
        yield f"new: {fact.id}: {fact.said()}" + (f", of {at} at the source" if at else "")
    if len(new) > FIRST:
        yield f"{len(new) - FIRST:,} more are new"
