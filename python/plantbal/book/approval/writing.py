"""Writes a record: who acts, with which signature, and at which time by a server's stamp."""

from __future__ import annotations

from collections.abc import Mapping
from typing import TYPE_CHECKING

from plantbal.book.approval.identity import Marks, marks_of, person_named
from plantbal.book.approval.record import ApprovalDeed, ApprovalRecord
from plantbal.book.approval.rules import May, Rules
from plantbal.book.approval.state import keys_of
from plantbal.book.forms import approval_file
from plantbal.book.journal import Kept, now
from plantbal.book.owners import user_said
from plantbal.faults import Fault
from plantbal.sentence import Joined, Sentence
from plantbal.signing.signatures import BOOK, sign, verified
from plantbal.signing.stamps import stamp

if TYPE_CHECKING:
    from plantbal.book.store import Store

_KEY = "name your key with --key, or in PLANTBAL_KEY"


def record_for(
    book: Store,
    deed: ApprovalDeed,
    act: str,
    of: str,
    rules: Rules,
    *,
    who: str,
    submission: tuple[int, str] | None = None,
    files: Mapping[str, Kept] | None = None,
) -> ApprovalRecord:
    """Return the record that the next line of the journal of an open book has."""
    head = book.head
    user = user_said()
    return ApprovalRecord(
        book.journal()[0].digest,
        head.number + 1,
        deed,
        act,
        of,
        (head.number, head.digest),
        submission,
        person_named(user, who, rules),
        user,
        now(),
        files or {},
    )


def written_for(
    book: Store, record: ApprovalRecord, rules: Rules, what: May, who: str
) -> tuple[ApprovalRecord, dict[str, str], Marks]:
    """Return a record as it is signed, the files of it, and the marks of whoever acts.

    Raises
    ------
    Fault
        If a signature is wanted and there is none that is believed, or the person may not do this.
    """
    signature, signed = "", ""
    if book.given is not None:
        record, signature = _given(book.given, record)
    elif book.key is not None:
        signature = sign(record.text.encode("utf-8"), book.key, BOOK)
    elif rules.keys:
        raise Fault("this book requires a signature", remedy=_KEY)
    if signature:
        found = verified(record.text.encode(), signature, keys_of(book), BOOK, record.time)
        if not found.name:
            raise Fault(Sentence("nothing is signed: {found}", found=found.said()), remedy=_KEY)
        signed = found.name
    _check_person(record, rules, what, signed)
    files = {approval_file(record.number, "txt"): record.text}
    if signature:
        files[approval_file(record.number, "sig")] = signature
    if signature and rules.stamps:
        token = stamp(signature.encode("ascii"), rules.stamps)
        files[approval_file(record.number, "tsr")] = token
    return record, files, marks_of(record.user, who, rules, signed)


def _given(given: tuple[str, str], record: ApprovalRecord) -> tuple[ApprovalRecord, str]:
    """Return a record that was signed elsewhere, and its signature.

    Raises
    ------
    Fault
        If it says anything else than this record would, but for its time of the last hour.
    """
    text, signature = given
    stated = ApprovalRecord.read("the signed text", text)
    late = (record.time - stated.time).total_seconds()
    if record.text.replace(record.when, stated.when) != stated.text or not 0 <= late <= 3600:
        remedy = "something was done in the book since, or an hour ago: sign what is shown now"
        raise Fault("what was signed isn't the text to be signed now", remedy=remedy)
    return stated, signature


def _check_person(record: ApprovalRecord, rules: Rules, what: May, signed: str) -> None:
    """Refuse a person that the rules don't let do something, or another's key.

    Raises
    ------
    Fault
        If it is so.
    """
    if signed and record.who and signed != record.who:
        raise Fault(
            Sentence(
                "{who} is at work here, and the key is {signed}'s", who=record.who, signed=signed
            ),
            remedy="sign with your own key, at your own login",
        )
    name = signed or record.who
    if rules.people and not name:
        raise Fault(
            Sentence("the user {user} belongs to nobody in rules.toml", user=record.user),
            remedy="let somebody submit rules that have a person with this user",
        )
    if not rules.may(name, what):
        able = [each.name for each in rules.people.values() if what in each.may]
        raise Fault(
            Sentence("by the rules of this book {name} may not {what}", name=name, what=what),
            remedy=Sentence("these may: {able}", able=Joined(", ", able)),
        )
