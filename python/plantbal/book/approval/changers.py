"""Who changed the figures of a period: the actions whose rows its report depends on."""

from __future__ import annotations

from collections.abc import Iterator
from typing import TYPE_CHECKING

from plantbal.book.approval.identity import Marks, marks_of_line
from plantbal.book.approval.rules import Changers, Rules
from plantbal.book.approval.state import keys_of, record_of, signed_of
from plantbal.book.forms import year_file
from plantbal.book.journal import Act, JournalLine
from plantbal.book.ledger import BookFact, YearLedger
from plantbal.book.said import touched_by

if TYPE_CHECKING:
    from plantbal.book.store import Store


def changers(
    book: Store,
    ledger: YearLedger,
    period: str,
    rules: Rules,
    changed: Changers,
    upto: int | None = None,
) -> Iterator[tuple[JournalLine, Marks]]:
    """Give the actions that changed a period's figures, with the marks of whoever did it.

    Parameters
    ----------
    book : Store
        The book, which has been opened.
    ledger : YearLedger
        The year that has the period.
    period : str
        The period.
    rules : Rules
        The rules of the book.
    changed : Changers
        Whether all are given, or the last one alone.
    upto : int, optional
        The last row of the year that counts.
    """
    rows = {row for row in changing_rows(ledger, period) if upto is None or row <= upto}
    last = max(rows, default=0)
    wanted = {last} if changed is Changers.LAST else rows
    found = [line for line in book.journal() if _is_of(line, ledger.name, wanted)]
    for line in found[-1:] if changed is Changers.LAST else found:
        yield line, marks_of_doer(book, line, rules)


def _is_of(line: JournalLine, year: str, rows: set[int]) -> bool:
    """Say whether a line added one of some rows of a year, or took the year as it was."""
    if line.act is Act.ACCEPT and line.of == year_file(year):
        return True
    added = line.added.get(year)
    return added is not None and any(row in added for row in rows)


def changing_rows(ledger: YearLedger, period: str) -> set[int]:
    """Return the rows of a year on which the figures of a period depend, but for the plant's."""
    span = ledger.periods[period]
    found = {ledger.touched(span)}
    eve = span.first - 1
    for fact in ledger.session.state.facts.live():
        if fact.first <= span.last and fact.last >= (eve if fact.kind == "dip" else span.first):
            found |= {fact.booked, fact.line, fact.changed}
    for edits in ledger.edits.values():
        found |= {number for number, fact in edits if period in touched_by(ledger, fact)}
    return found - {0}


def marks_of_doer(book: Store, line: JournalLine, rules: Rules) -> Marks:
    """Return the marks of whoever did an action; of an approved one, of whoever submitted it."""
    record = record_of(book, line)
    if record is not None and record.submission is not None:
        line = book.journal()[record.submission[0] - 1]
        record = record_of(book, line)
    signed = signed_of(book, record, keys_of(book)) if record is not None else None
    return marks_of_line(line, rules, signed.name if signed is not None else "")


def reopened(ledger: YearLedger) -> list[str]:
    """Return the closed periods whose figures the rows change that were added to a year."""
    found: dict[str, None] = {}
    first = ledger.count - len(ledger.added) + 1
    for number, row in enumerate(ledger.added, first):
        for fact in _facts_of(ledger, number, row):
            touched = touched_by(ledger, fact)
            found |= {name: None for name, period in touched.items() if period.closed}
    return list(found)


def _facts_of(ledger: YearLedger, number: int, row: tuple[str, ...]) -> Iterator[BookFact]:
    """Give the facts that a row books late, or edits."""
    if row[0] == "late":
        yield BookFact.of(row)
    elif row[0] in ("amend", "strike"):
        edits = ledger.edits.get(row[1], ())
        yield from (fact for at, fact in edits if at == number)
