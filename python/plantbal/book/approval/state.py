"""What a book has of approvals: its rules, who may sign, its records, and what waits."""

from __future__ import annotations

from collections.abc import Sequence
from dataclasses import dataclass
from typing import TYPE_CHECKING

from plantbal.book.approval.proposal import SubmittedMonth
from plantbal.book.approval.record import ApprovalDeed, ApprovalRecord
from plantbal.book.approval.rules import Rules, read_rules
from plantbal.book.chain import state_of
from plantbal.book.forms import REVOKED, RULES, SIGNERS, approval_file
from plantbal.book.journal import Act, JournalLine, Kept
from plantbal.faults import InputFault, Place
from plantbal.signing.signatures import BOOK, Keys, Signed, verified
from plantbal.signing.signers import read_signers

if TYPE_CHECKING:
    from plantbal.book.store import Store


def rules_of(book: Store) -> Rules | None:
    """Return the rules of a book, or None if it has none.

    Raises
    ------
    InputFault
        If they were changed by other means than an approval.
    """
    text = text_by_journal(book, RULES)
    return None if text is None else read_rules(str(book.path(RULES)), text)


def keys_of(book: Store) -> Keys:
    """Return who may sign in a book, and which keys are revoked.

    Raises
    ------
    InputFault
        If that was changed by other means than an approval.
    """
    signers = read_signers(str(book.path(SIGNERS)), text_by_journal(book, SIGNERS) or "")
    return Keys(signers, text_by_journal(book, REVOKED) or "")


def text_by_journal(book: Store, name: str) -> str | None:
    """Return the text of a file that the journal knows, or None if it knows none.

    Raises
    ------
    InputFault
        If it isn't as the journal says: that is tested here even if the book is open untested.
    """
    kept = state_of(book.journal()).get(name)
    if kept is None:
        return None
    text = book.text(name)
    if not book.has(name) or Kept.of(text.encode("utf-8")) != kept:
        what = "it isn't as the journal says, and approvals rest on it"
        place = Place(file=str(book.path(name)))
        raise InputFault(what, place=place, remedy="put it back as it was, from a backup")
    return text


def record_of(book: Store, line: JournalLine) -> ApprovalRecord | None:
    """Return the record of a line of the journal, or None if it has none.

    Raises
    ------
    InputFault
        If what stands there is none.
    """
    name = approval_file(line.number, "txt")
    if name not in line.files:
        return None
    return ApprovalRecord.read(str(book.path(name)), book.text(name))


def submitted_month(book: Store, number: int) -> SubmittedMonth:
    """Return the action that a line of the journal has submitted.

    Raises
    ------
    InputFault
        If what stands there is none.
    """
    name = approval_file(number, "json")
    return SubmittedMonth.read(str(book.path(name)), book.text(name))


def signed_of(book: Store, record: ApprovalRecord, keys: Keys) -> Signed | None:
    """Return whose the signature of a record is, or None if it has none."""
    name = approval_file(record.number, "sig")
    if not book.has(name):
        return None
    return verified(record.text.encode("utf-8"), book.text(name), keys, BOOK, record.time)


@dataclass(frozen=True)
class Waiting:
    """An action that was submitted, and is neither done nor rejected.

    Attributes
    ----------
    line : JournalLine
        The line of the journal that has submitted it; its head is to be named by an approval.
    record : ApprovalRecord
        Its record.
    proposal : SubmittedMonth
        The action.
    approvals : tuple of JournalLine
        The approvals that it has, if it wants more than one.
    """

    line: JournalLine
    record: ApprovalRecord
    proposal: SubmittedMonth
    approvals: tuple[JournalLine, ...] = ()

    @property
    def head(self) -> str:
        """The head that an approval names."""
        return f"{self.line.number} {self.line.digest}"


def waiting_in(book: Store, lines: Sequence[JournalLine] | None = None) -> list[Waiting]:
    """Return what waits for an approval in a book that is open."""
    submitted: dict[int, JournalLine] = {}
    approvals: dict[int, list[JournalLine]] = {}
    for line in book.journal() if lines is None else lines:
        if line.act is Act.SUBMIT:
            submitted[line.number] = line
            continue
        record = record_of(book, line)
        if record is None or record.submission is None:
            continue
        if line.act is Act.APPROVE:
            approvals.setdefault(record.submission[0], []).append(line)
        elif record.deed in (ApprovalDeed.APPROVE, ApprovalDeed.REJECT):
            submitted.pop(record.submission[0], None)
    found = []
    for number, line in submitted.items():
        record = record_of(book, line)
        if record is not None:
            some = tuple(approvals.get(number, ()))
            found.append(Waiting(line, record, submitted_month(book, number), some))
    return found
