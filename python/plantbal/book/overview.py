"""The state of a book: what is open or missing, and which report is out of date."""

from __future__ import annotations

import datetime
from collections.abc import Iterator

from plantbal.book.forms import old_window_file, report_file, window_file, year_file
from plantbal.book.ledger import YearLedger
from plantbal.book.meters import Meter, read_meters
from plantbal.book.results import BookStatus, PeriodStatus, ReportState, TankApart, YearStatus
from plantbal.book.said import lacks, unassayed, waiting_said
from plantbal.book.store import Act, JournalLine, Store
from plantbal.book.years import Years
from plantbal.session import Period

_DAY = datetime.timedelta(1)


def status(book: Store) -> BookStatus:
    """Return how the book stands."""
    with book.opened(reading=True):
        years = Years(book)
        meters = read_meters(book)
        waiting = waiting_said(book)
        found = [_year(book, ledger, book.journal(), meters) for ledger in years.all()]
        ends = zip(years.all(), years.all()[1:])
        between = [each for old, new in ends for each in tanks_apart(old, new)]
    return BookStatus(tuple(waiting), tuple(found), tuple(between))


def _year(
    book: Store, ledger: YearLedger, journal: list[JournalLine], meters: dict[str, Meter]
) -> YearStatus:
    """Return how a year stands."""
    periods = tuple(
        PeriodStatus(
            name,
            period.closed,
            report_state(book, ledger, journal, name),
            () if period.closed else tuple(_missing(ledger, period, meters)),
        )
        for name, period in ledger.periods.items()
    )
    windows = tuple(
        (first, last)
        for first, last in dict.fromkeys(windows_of(journal))
        if first in ledger.periods
        and last in ledger.periods
        and is_window_older(book, ledger, journal, first, last)
    )
    facts = len(ledger.facts) + len(ledger.struck)
    return YearStatus(ledger.name, facts, periods, windows)


def _missing(ledger: YearLedger, period: Period, meters: dict[str, Meter]) -> list[str]:
    """Return what is missing in an open period, in sentences."""
    lines = lacks(ledger, period, meters)
    return lines + [line for line in unassayed(ledger, period, none=True) if line not in lines]


def windows_of(journal: list[JournalLine]) -> list[tuple[str, str]]:
    """Return the first and the last period of each window that was asked for."""
    of = [line.of.partition(" ") for line in journal if line.act == Act.WINDOW]
    return [(first, last) for first, _, last in of]


def is_window_older(
    book: Store, ledger: YearLedger, journal: list[JournalLine], first: str, last: str
) -> bool:
    """Say whether something was booked since the report of a window, if it has one."""
    if not any(book.has(name(first, last)) for name in (window_file, old_window_file)):
        return False
    before = seen_by(journal, ledger, f"{first} {last}", Act.WINDOW)
    ends = ledger.periods[first].first, ledger.periods[last].last
    inside = [each for each in ledger.periods.values() if ends[0] <= each.first <= ends[1]]
    return max(ledger.touched(period, assays=False) for period in inside) > before


def seen_by(journal: list[JournalLine], ledger: YearLedger, of: str, *acts: Act) -> int:
    """Return how many rows of a year the last report of something has seen."""
    found = 0
    for line in journal:
        if line.act in acts and line.of == of and year_file(ledger.name) in line.files:
            found = line.files[year_file(ledger.name)].lines or 0
    return found


def report_state(
    book: Store, ledger: YearLedger, journal: list[JournalLine], name: str
) -> ReportState:
    """Return how old a period's report is."""
    if not book.has(report_file(name)):
        return ReportState.MISSING
    before = seen_by(journal, ledger, name, Act.REPORT, Act.CLOSE)
    is_older = ledger.touched(ledger.periods[name]) > before
    return ReportState.OLDER if is_older else ReportState.CURRENT


def tanks_apart(old: YearLedger, new: YearLedger) -> Iterator[TankApart]:
    """Give the dips of the eve of a year that aren't the same in both years."""
    eve = new.first - _DAY
    for name, kind in new.session.nodes.items():
        before = old.on(name, eve) if kind == "tank" else None
        after = new.on(name, eve) if kind == "tank" else None
        if before is not None and after is not None and before.values != after.values:
            yield TankApart(name, old.name, new.name, before, after)
