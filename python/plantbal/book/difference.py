"""How two reports of a period, or a report and what was posted, differ, and why.

A state is the number of an earlier report, `posted` for what was handed over last, or `now` for the
report that the book has. Without states it is what was posted against now, or, if nothing was, the
last earlier report against now.
"""

from __future__ import annotations

from collections.abc import Sequence
from dataclasses import dataclass, replace

from plantbal.accounts.account import MonthAccount, Rolled
from plantbal.accounts.month import Month
from plantbal.accounts.posting import (
    Posted,
    PostingChange,
    handed_over,
    id_of,
    parse_posted,
    posting_changes,
)
from plantbal.book.accounting import (
    ReportVersion,
    accounts_of,
    report_months,
    version_of,
    versions_of,
)
from plantbal.book.causes import DifferingFact, causes_of, with_causes
from plantbal.book.forms import earlier_file, posted_file, report_file, year_file
from plantbal.book.journal import JournalLine, Kept
from plantbal.book.overview import report_state
from plantbal.book.remedies import BookRemedy
from plantbal.book.results import ReportState
from plantbal.book.store import Act, Store
from plantbal.book.years import Years
from plantbal.faults import Fault, InputFault, Place, WordsFault
from plantbal.sentence import Sentence

NOW, POSTED = "now", "posted"


@dataclass(frozen=True)
class Side:
    """One of the two states that are compared.

    Attributes
    ----------
    word : str
        What it is called.
    version : ReportVersion or None
        The report; None of nothing, if nothing was posted.
    state : dict
        What it hands over.
    month : Month or None
        The month by that report.
    """

    word: str
    version: ReportVersion | None
    posted: Posted
    month: Month | None = None


@dataclass(frozen=True)
class Difference:
    """How two states of a period differ.

    Attributes
    ----------
    period : str
        The period.
    sides : tuple of str
        What the states are called.
    changes : list of PostingChange
        What is otherwise, each with its cause.
    causes : list of DifferingFact
        The facts that are otherwise.
    id : str
        The id of the postings, if they are against what was posted.
    is_first : bool
        Whether nothing was posted or reported before, so that all of it is new.
    report : ReportState
        How old the period's report is.
    """

    period: str
    sides: tuple[str, str]
    changes: list[PostingChange]
    causes: list[DifferingFact]
    id: str = ""
    is_first: bool = False
    report: ReportState = ReportState.CURRENT


def posted_numbers(book: Store, period: str) -> int:
    """Return how many times a period was posted."""
    number = 0
    while book.has(posted_file(period, number + 1)):
        number += 1
    return number


def last_posted(book: Store, period: str) -> Posted:
    """Return what was posted of a period last; nothing if nothing was."""
    number = posted_numbers(book, period)
    if not number:
        return Posted()
    name = posted_file(period, number)
    return parse_posted(str(book.path(name)), book.text(name))


def difference_of(book: Store, period: str, words: Sequence[str]) -> Difference:
    """Return how two states of a period differ.

    Raises
    ------
    Fault
        If there is no such state.
    """
    versions = versions_of(book)
    if period not in versions:
        Years(book).of_period(period)
        what = Sentence("{period} has no report yet", period=period)
        raise Fault(what, remedy=BookRemedy.MAKE_REPORT(period=period).sentence)
    if len(words) == 1:
        raise WordsFault("FROM is there, and TO is missing", remedy="give both, or neither")
    one, other = words or (_default(book, period), NOW)
    sides = [_side(book, versions, period, word) for word in (one, other)]
    before, after = sides
    changes = posting_changes(before.posted.state, after.posted.state)
    causes: list[DifferingFact] = []
    is_first = before.word == POSTED and before.version is None
    if after.version is not None and after.month is not None:
        if not is_first:
            causes = causes_of(book, before.version, after.version)
        changes = with_causes(changes, causes, before.month, after.month)
    number = posted_numbers(book, period) + 1
    identity = id_of(period, number, changes) if (one, other) == (POSTED, NOW) else ""
    return Difference(period, (one, other), changes, causes, identity, is_first)


def has_before(book: Store, period: str) -> bool:
    """Say whether a period has a state before its report: one that was posted, or another report."""
    return bool(posted_numbers(book, period) or _earlier(book, period))


def _default(book: Store, period: str) -> str:
    """Return against what the report is compared if nothing is said."""
    if posted_numbers(book, period):
        return POSTED
    number = _earlier(book, period)
    return str(number) if number else POSTED


def _earlier(book: Store, period: str) -> int:
    """Return how many earlier reports a period has."""
    number = 0
    while book.has(earlier_file(period, number + 1)):
        number += 1
    return number


def _side(book: Store, versions: dict[str, ReportVersion], period: str, word: str) -> Side:
    """Return a state of a period.

    Raises
    ------
    Fault
        If there is none.
    """
    if word == POSTED:
        return _posted_side(book, versions, period)
    if word == NOW:
        return _of_version(book, versions, versions[period], word)
    name = earlier_file(period, int(word)) if word.isdecimal() else ""
    if not name or not book.has(name):
        count = _earlier(book, period)
        form = (
            "use 1 to {count}, posted or now"
            if count > 1
            else "use 1, posted or now"
            if count
            else "use posted or now"
        )
        what = Sentence("there is no report {word} of {period}", word=word, period=period)
        raise Fault(what, remedy=Sentence(form, count=count))
    year = versions[period].year
    return _of_version(book, versions, version_of(book, period, year, book.text(name)), word)


def _of_version(
    book: Store, versions: dict[str, ReportVersion], version: ReportVersion, word: str
) -> Side:
    account = account_by(book, versions | {version.period: version}, version.period)
    return Side(word, version, Posted("", handed_over(account)), account.month)


def account_by(book: Store, versions: dict[str, ReportVersion], period: str) -> MonthAccount:
    """Return the account of a period by some reports."""
    return Rolled(report_months(book, versions), accounts_of(book)).account(period)


def line_of_posting(journal: Sequence[JournalLine], period: str, number: int) -> JournalLine:
    """Return the line of the journal by which a file of what was posted was made.

    Raises
    ------
    InputFault
        If there is none.
    """
    name = posted_file(period, number)
    for line in reversed(journal):
        if line.act is Act.POSTED and line.of == period and name in line.files:
            return line
    remedy = "put the book's folder back from a backup, or take this file out of it"
    what = "no line of the journal says that this was posted"
    raise InputFault(what, place=Place(file=name), remedy=remedy)


def _posted_side(book: Store, versions: dict[str, ReportVersion], period: str) -> Side:
    """Return what was posted last, with the report that it was made of."""
    number = posted_numbers(book, period)
    if not number:
        return Side(POSTED, None, Posted())
    posted, year = last_posted(book, period), versions[period].year
    line = line_of_posting(book.journal(), period, number)
    kept, rows = line.files.get(report_file(period)), line.files.get(year_file(year))
    texts = [book.text(report_file(period))]
    texts += [book.text(earlier_file(period, at + 1)) for at in range(_earlier(book, period))]
    for text in texts:
        version = version_of(book, period, year, text)
        if kept is not None and rows is not None and Kept.of(text.encode()).digest == kept.digest:
            side = _of_version(book, versions, version, POSTED)
            return Side(POSTED, version, posted, side.month)
    # Its report wasn't kept: which facts are otherwise is known by the rows that were there.
    seen = rows.lines if rows is not None else None
    version = ReportVersion(period, year, "", seen or versions[period].seen, line)
    return Side(POSTED, version, posted)


def difference(book: Store, period: str, states: Sequence[str] = ()) -> Difference:
    """Say how two states differ; the parameters are those of `plantbal.Book.difference`."""
    with book.opened(reading=True):
        ledger = Years(book).of_period(period)
        state = report_state(book, ledger, book.journal(), period)
        return replace(difference_of(book, period, states), report=state)
