"""Records what is handed over of a period, unless its report has to be looked at first.

A close was asked what stops it, and its reasons stand in the journal. A report that was made since
is another one: what stops it is asked again, but for what is as it was at the close.
"""

from __future__ import annotations

from collections.abc import Iterator, Mapping, Sequence

from plantbal.accounts.posting import handed_over, posted_text
from plantbal.book.accounting import ReportVersion, version_of, versions_of
from plantbal.book.answers import (
    BETWEEN,
    answered,
    checked_reason,
    quieted,
    reason_cells,
    stopped_said,
)
from plantbal.book.difference import (
    NOW,
    POSTED,
    Difference,
    account_by,
    difference_of,
    last_posted,
    posted_numbers,
)
from plantbal.book.forms import earlier_file, posted_file, report_file, year_file
from plantbal.book.journal import Act, Kept
from plantbal.book.ledger import YearLedger
from plantbal.book.overview import report_state
from plantbal.book.remedies import BookRemedy
from plantbal.book.reporting import stops_in
from plantbal.book.said import behind_said, unassayed
from plantbal.book.store import Action, Store
from plantbal.book.years import Years
from plantbal.faults import Fault
from plantbal.gates import Gate, Stop
from plantbal.report.output import parse_report
from plantbal.sentence import Sentence, phrase


class NotPosted(Fault):
    """A period that isn't posted, since something about its report has to be looked at.

    Attributes
    ----------
    stops : tuple of Stop
        What has to be looked at.
    unanswered : tuple of Gate
        The gates for which there is no reason.
    """

    def __init__(self, period: str, stops: Sequence[Stop], unanswered: Sequence[Gate]) -> None:
        why, words = stopped_said(stops, unanswered)
        what = Sentence("{period} isn't posted: {why}", period=period, why=why)
        remedy = BookRemedy.POST_ANYWAY(period=period, words=words).sentence
        super().__init__(what, remedy=remedy)
        self.stops = tuple(stops)
        self.unanswered = tuple(unanswered)


def post(
    book: Store,
    period: str,
    *,
    anyway: bool,
    reasons: Mapping[Gate, str],
    why: str,
    who: str,
) -> Difference:
    """Record what is handed over; the parameters are those of `plantbal.Book.post`."""
    with book.opened():
        ledger = Years(book).of_period(period)
        behind = behind_said(report_state(book, ledger, book.journal(), period), period)
        if behind:
            late = Sentence("{period} isn't posted: {why}", period=period, why=phrase(behind))
            raise Fault(late, remedy="make the report first")
        is_open = not ledger.periods[period].closed
        if is_open and not anyway:
            still_open = Sentence("{period} is open, and isn't posted", period=period)
            raise Fault(still_open, remedy=BookRemedy.CLOSE_OR_POST_ANYWAY(period=period).sentence)
        before = last_posted(book, period)
        found = difference_of(book, period, (POSTED, NOW))
        if not found.changes:
            remedy = "nothing is posted twice: there is nothing new to post"
            already = Sentence("{period} is already posted, as {id}", period=period, id=before.id)
            raise Fault(already, remedy=remedy)
        needed = _reasons(book, ledger, period, reasons)
        number = posted_numbers(book, period) + 1
        account = account_by(book, versions_of(book), period)
        what, given = reason_cells(needed)
        action = Action(Act.POSTED, period, f"{found.id} {what}".strip(), why, who)
        action.why = BETWEEN.join(filter(None, (why, given)))
        action.early = is_open
        action.anyway = any(gate is not Gate.ESTIMATED for gate in needed)
        text = posted_text(found.id, period, handed_over(account))
        action.written[posted_file(period, number)] = text
        action.seen = [year_file(ledger.name), report_file(period)]
        book.do(action)
    return found


def unanswered(book: Store, period: str) -> list[Stop]:
    """Return what stops it; the parameters are those of `plantbal.Book.unanswered`."""
    with book.opened(reading=True):
        return unanswered_of(book, Years(book).of_period(period), period)


def check_answered(book: Store, ledger: YearLedger, period: str) -> None:
    """Refuse to hand over a closed period whose report has to be looked at first.

    A posting of this report that has reasons answers for what stops it.

    Raises
    ------
    NotPosted
        If it is so.
    """
    if not ledger.periods[period].closed:
        return
    report = book.kept(report_file(period))
    lines = (line for line in book.journal() if line.act is Act.POSTED and line.of == period)
    if any(line.files.get(report_file(period)) == report for line in lines):
        return
    stops = unanswered_of(book, ledger, period)
    if stops:
        raise NotPosted(period, stops, list(dict.fromkeys(stop.gate for stop in stops)))


def _reasons(
    book: Store, ledger: YearLedger, period: str, given: Mapping[Gate, str]
) -> dict[Gate, str]:
    """Return the reasons for the gates that stop what is handed over.

    Raises
    ------
    NotPosted
        If there is no reason for one.
    """
    stops = unanswered_of(book, ledger, period)
    gates = sorted({stop.gate for stop in stops}, key=list(Gate).index)
    missing = [gate for gate in gates if gate not in given]
    if missing:
        raise NotPosted(period, stops, missing)
    return {gate: checked_reason(given[gate]) for gate in gates}


def unanswered_of(book: Store, ledger: YearLedger, period: str) -> list[Stop]:
    """Return what stops the report of a period, but for what its close has a reason for."""
    now = version_of(book, period, ledger.name, book.text(report_file(period)))
    reasons = answered(book.journal(), period).reasons
    closed = _closed_by(book, ledger, period)
    before = _stops(book, ledger, closed) if closed is not None and reasons else []
    known = {_key(stop) for stop in before if stop.gate in reasons}
    is_same = closed is not None and closed.text == now.text
    stops = _stops(book, ledger, now)
    stops += [
        Stop(Gate.UNASSAYED, period, subject=each)
        for each in unassayed(ledger, ledger.periods[period])
    ]
    return [stop for stop in stops if _key(stop) not in known or not (is_same or stop.names)]


def _key(stop: Stop) -> tuple[Gate, tuple[str, ...], tuple[int, ...], str]:
    """Return by what a stop is known again."""
    return stop.gate, stop.names, stop.days, stop.subject


def _stops(book: Store, ledger: YearLedger, version: ReportVersion) -> list[Stop]:
    """Return what stops a report, by its rows and those of the year that it saw."""
    rows = book.text(year_file(ledger.name)).splitlines(keepends=True)[: version.seen]
    output = parse_report(version.text, f"the report of {version.period}")
    return stops_in("".join(rows), version.period, output, quieted(book.journal()))


def _closed_by(book: Store, ledger: YearLedger, period: str) -> ReportVersion | None:
    """Return the report with which a period was closed; None if it is open, or that isn't kept."""
    for line in book.journal():
        if line.act is not Act.CLOSE or line.of != period:
            continue
        report, rows = (line.files.get(n) for n in (report_file(period), year_file(ledger.name)))
        for text in kept_reports(book, period) if report is not None and rows is not None else ():
            if rows is not None and Kept.of(text.encode("utf-8")) == report:
                return ReportVersion(period, ledger.name, text, rows.lines or 0, line)
    return None


def kept_reports(book: Store, period: str) -> Iterator[str]:
    """Give the reports of a period that are kept."""
    yield book.text(report_file(period))
    number = 1
    while book.has(earlier_file(period, number)):
        yield book.text(earlier_file(period, number))
        number += 1
