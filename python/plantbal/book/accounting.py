"""The accounts' file of a book, and the months of its reports, from the first to the last.

A report saw the rows that were booked by then, and so do its tanks' dips. The journal says how many
these were. So the rows of a year are read once, with a row that asks for the report after those
that each report saw.
"""

from __future__ import annotations

import hashlib
from collections.abc import Iterator, Mapping
from dataclasses import dataclass
from types import MappingProxyType

from plantbal.accounts.account import MonthAccount, Rolled
from plantbal.accounts.month import Month
from plantbal.accounts.reading import accounts_text, parse_accounts
from plantbal.accounts.sheet import Accounts
from plantbal.accounts.trend import Unusual, unusual
from plantbal.book.forms import ACCOUNTS, report_file, year_file
from plantbal.book.journal import JournalLine
from plantbal.book.overview import report_state
from plantbal.book.remedies import BookRemedy
from plantbal.book.results import ReportState
from plantbal.book.said import listed, waiting_said
from plantbal.book.store import Action, Store
from plantbal.book.years import Years, periods_of
from plantbal.faults import Fault, InputFault, Place
from plantbal.model.ledger import Ledger
from plantbal.report.blocks import Block, blocks_of, last_blocks
from plantbal.report.parsing import parse_rows
from plantbal.sentence import Sentence, counted, phrase

_MONTHS = 13  # beside which a month is looked at, so that the same month of a year ago is one


# ---- the sheet


def accounts_of(book: Store) -> Accounts:
    """Return the accounts of a book; none if it has no file of them."""
    return parse_accounts(str(book.path(ACCOUNTS)), book.text(ACCOUNTS))


def put_accounts(before: Accounts, new: Accounts, book: Store, action: Action) -> list[str]:
    """Have an action write the accounts with those of a workbook, and return what is said of it.

    Raises
    ------
    InputFault
        If a row contradicts one that the book has already.
    """
    rows = {**before, **new}
    text = accounts_text(Accounts(rows.values()))
    if not new or text == book.text(ACCOUNTS):
        return []
    try:
        parse_accounts(str(book.path(ACCOUNTS)), text)
    except InputFault as fault:
        form = "with these accounts {file} would contradict itself: {what}"
        raise Fault(
            Sentence(form, file=ACCOUNTS, what=phrase(fault.what)),
            remedy="write all rows of that product, or of that owner, into the sheet accounts",
        ) from fault
    action.written[ACCOUNTS] = text
    changed = [name for name, row in rows.items() if before.get(name) != row]
    one, many = "{file}: 1 row, new or changed", "{file}: {count:,} rows, new or changed"
    said = counted(len(changed), one, many, file=ACCOUNTS)
    old = [name for name in changed if name in before]
    return [Sentence("{said}; changed: {names}", said=said, names=listed(old)) if old else said]


# ---- the months


@dataclass(frozen=True)
class ReportVersion:
    """A report of a period, as it is or was.

    Attributes
    ----------
    period, year : str
        The period, and the year's name.
    text : str
        The report.
    seen : int
        How many rows of the year it saw.
    line : JournalLine
        The line of the journal that says so.
    """

    period: str
    year: str
    text: str
    seen: int
    line: JournalLine


def versions_of(book: Store) -> dict[str, ReportVersion]:
    """Return the report of each period that has one, in the order of the periods' last days."""
    found = {}
    for year in book.years:
        periods = periods_of(str(book.path(year_file(year))), book.text(year_file(year)))
        for period in sorted(periods, key=lambda name: periods[name][1]):
            text = book.text(report_file(period))
            if text:
                found[period] = version_of(book, period, year, text)
    return found


def version_of(book: Store, period: str, year: str, text: str) -> ReportVersion:
    """Return a text as a report of a period, with the rows that it saw.

    Raises
    ------
    InputFault
        If the journal doesn't say how many these were.
    """
    digest = hashlib.sha256(text.encode("utf-8")).hexdigest()
    for line in reversed(book.journal()):
        kept = line.files.get(report_file(period))
        rows = line.files.get(year_file(year))
        if kept is not None and kept.digest == digest and rows is not None and rows.lines:
            return ReportVersion(period, year, text, rows.lines, line)
    raise InputFault(
        Sentence("the journal doesn't say which rows the report of {period} saw", period=period),
        place=Place(file=str(book.path(report_file(period)))),
        remedy=BookRemedy.MAKE_IT_AGAIN(period=period).sentence,
    )


# The last rounds of reports that were read, by the periods, and these by the digests of the reports.
ReadBlocks = Mapping[str, Mapping[str, Block]]


def report_months(
    book: Store,
    versions: Mapping[str, ReportVersion],
    read: ReadBlocks = MappingProxyType({}),
) -> list[Month]:
    """Return the months of reports, in the order of their days.

    Parameters
    ----------
    book : Store
        The book.
    versions : mapping of str to ReportVersion
        The reports by their periods.
    read : mapping
        What was read of them already.
    """
    found: list[Month] = []
    for year in book.years:
        some = [each for each in versions.values() if each.year == year]
        if some:
            found += _months_of_year(book, year, some, read)
    return sorted(found, key=lambda month: month.last)


def _months_of_year(
    book: Store, year: str, some: list[ReportVersion], read: ReadBlocks
) -> Iterator[Month]:
    """Give the months of a year's reports."""
    rows = book.text(year_file(year)).splitlines(keepends=True)
    parts, at = [], 0
    ordered = sorted(some, key=lambda each: each.seen)
    for each in ordered:
        parts += [*rows[at : each.seen], f"report,{each.period}\n"]
        at = each.seen
    text = "".join([*parts, *rows[at:]])
    ledger = Ledger(str(book.path(year_file(year))), text.encode("utf-8"))
    for each in ordered:
        block = _block_of(book, each, read)
        yield Month.of(block, ledger, ledger.reported[each.period])


def _block_of(book: Store, version: ReportVersion, read: ReadBlocks) -> Block:
    """Return the round of a report that counts.

    Raises
    ------
    InputFault
        If it has none, such as one of a period that is beyond the limits.
    """
    name = str(book.path(report_file(version.period)))
    of_text = read.get(version.line.files[report_file(version.period)].digest)
    if of_text is None:
        of_text = last_blocks(blocks_of(parse_rows(name, version.text)))
    block = of_text.get(version.period)
    if block is None or not block.ended:
        remedy = BookRemedy.LOOK_AT_REPORT(period=version.period).sentence
        what = Sentence("there are no flows of {period} to add up", period=version.period)
        raise InputFault(what, place=Place(file=name), remedy=remedy)
    return block


def rolled_of(book: Store) -> Rolled:
    """Return the months of a book, rolled forward.

    Raises
    ------
    Fault
        If it has no report.
    """
    months = report_months(book, versions_of(book))
    if not months:
        raise Fault("no period has a report yet", remedy=BookRemedy.MAKE_A_REPORT().sentence)
    return Rolled(months, accounts_of(book))


@dataclass(frozen=True)
class PeriodAccount:
    """The account of a period, as a book shows it.

    Attributes
    ----------
    account : MonthAccount
        The account.
    report : ReportState
        How old its report is.
    waiting : tuple of str
        What a command that was stopped has left to do, in sentences.
    unusual : tuple of Unusual
        What is unusual beside the months before.
    """

    account: MonthAccount
    report: ReportState
    waiting: tuple[str, ...] = ()
    unusual: tuple[Unusual, ...] = ()


def account(book: Store, period: str) -> PeriodAccount:
    """Return the account of a period.

    Raises
    ------
    Fault
        If there is no such period, or it has no report.
    """
    with book.opened(reading=True):
        ledger = Years(book).of_period(period)
        state = report_state(book, ledger, book.journal(), period)
        if state is ReportState.MISSING:
            what = Sentence("{period} has no report yet", period=period)
            raise Fault(what, remedy=BookRemedy.MAKE_REPORT(period=period).sentence)
        rolled = rolled_of(book)
        found = rolled.account(period)
        odd = tuple(unusual_of(rolled, found))
        return PeriodAccount(found, state, tuple(waiting_said(book)), odd)


def unusual_of(rolled: Rolled, account: MonthAccount) -> list[Unusual]:
    """Return what is unusual in a month beside those before it."""
    at = rolled.at(account.month.name)
    before = [rolled.account(each.name) for each in rolled.months[max(0, at - _MONTHS) : at]]
    return list(unusual(account, before))
