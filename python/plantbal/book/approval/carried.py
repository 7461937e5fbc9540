"""What a bundle carries of a month's approvals: lines of the journal, records, rules, and who might sign."""

from __future__ import annotations

from collections.abc import Iterator
from pathlib import Path

from plantbal.book.approval.changers import changers
from plantbal.book.approval.rules import Rules, read_rules
from plantbal.book.approval.state import record_of, submitted_month
from plantbal.book.forms import APPROVALS, REVOKED, RULES, SIGNERS, year_file
from plantbal.book.journal import Act, Kept, JournalLine
from plantbal.book.opening import read_book
from plantbal.book.store import Store
from plantbal.book.years import Years


def carried_approvals(folder: str | Path, period: str) -> dict[str, dict[str, str]]:
    """Return what a bundle of a period carries; nothing if it isn't closed.

    Parameters
    ----------
    folder : str or Path
        The book.
    period : str
        The period.

    Raises
    ------
    Fault
        If there is no book, or a file of it was changed.
    """
    with read_book(folder) as book:
        closes = [each for each in book.journal() if each.act is Act.CLOSE and each.of == period]
        if not closes:
            return {}
        files = _ruled(book, closes[-1])
        rules = read_rules(RULES, files[RULES]) if RULES in files else None
        some = {line.number: line for line in _lines(book, closes[-1], rules)}
        lines = [some[number] for number in sorted(some)]
        for name in (
            name for line in lines for name in line.files if name.startswith(f"{APPROVALS}/")
        ):
            if not name.endswith(".json"):
                files[name] = book.text(name)
        return {
            "journal": {str(line.number): line.text for line in lines},
            "files": dict(sorted(files.items())),
        }


def _lines(book: Store, close: JournalLine, rules: Rules | None) -> Iterator[JournalLine]:
    """Give the close, its submission and approvals, and what changed figures before it."""
    yield close
    record = record_of(book, close)
    if record is None or record.submission is None:
        return
    yield book.journal()[record.submission[0] - 1]
    for line in book.journal():
        other = record_of(book, line) if line.act is Act.APPROVE else None
        if other is not None and other.submission == record.submission:
            yield line
    if rules is None:
        return
    ledger = Years(book).of_period(close.of)
    kept = record.files.get(year_file(ledger.name))
    upto = kept.lines if kept is not None else None
    for line, _ in changers(book, ledger, close.of, rules, rules.changed, upto=upto):
        if line.number < close.number:
            yield line
            other = record_of(book, line)
            if other is not None and other.submission is not None:
                yield book.journal()[other.submission[0] - 1]


def _ruled(book: Store, close: JournalLine) -> dict[str, str]:
    """Return the rules and who might sign as they were when a close was submitted."""
    record = record_of(book, close)
    found = {}
    for name in (RULES, SIGNERS, REVOKED) if record is not None else ():
        assert record is not None, "else there are none"
        kept = record.files.get(name)
        for text in _texts(book, name) if kept is not None and not kept.is_gone else ():
            if Kept.of(text.encode("utf-8")) == kept:
                found[name] = text
                break
    return found


def _texts(book: Store, name: str) -> Iterator[str]:
    """Give a file of rules as it is, and as it was submitted each time."""
    yield book.text(name)
    for line in book.journal():
        record = record_of(book, line) if line.act is Act.RULES else None
        if record is not None:
            number = record.submission[0] if record.submission is not None else line.number
            text = submitted_month(book, number).written.get(name)
            if text is not None:
                yield text
