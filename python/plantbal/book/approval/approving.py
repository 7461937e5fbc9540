"""Approves what was submitted, or rejects it.

An approval names the head that was shown: the submission's. It is void if what was submitted isn't
what would be done now: if a figure of its periods was changed since, the program writes another
report, other gates stop a close, or a file on which it rests is another one.
"""

from __future__ import annotations

import csv
from collections.abc import Iterator
from contextlib import contextmanager
from dataclasses import dataclass
from enum import StrEnum

from plantbal.book.approval.changers import changers, marks_of_doer
from plantbal.book.approval.identity import Marks, marks_of_line
from plantbal.book.approval.record import ApprovalDeed, ApprovalRecord
from plantbal.book.approval.rules import May, Rules
from plantbal.book.approval.state import (
    Waiting,
    keys_of,
    record_of,
    rules_of,
    signed_of,
    waiting_in,
)
from plantbal.book.approval.submitting import base_of
from plantbal.book.approval.writing import record_for, written_for
from plantbal.book.closing import NotClosed, prepared
from plantbal.book.forms import is_year_file, report_file
from plantbal.book.journal import Act, JournalLine, Kept
from plantbal.book.ledger import YearLedger
from plantbal.book.remedies import BookRemedy
from plantbal.book.store import Action, Head, Store
from plantbal.book.years import Years
from plantbal.faults import Fault
from plantbal.program import RunSettings
from plantbal.sentence import Sentence


class Void(StrEnum):
    """Why what was submitted can't be approved any more."""

    FIGURES = "figures"
    REPORT = "report"
    GATES = "gates"
    FILES = "files"


_SAID = {
    Void.FIGURES: "a figure of {name} was changed since it was submitted",
    Void.REPORT: "the program writes another report of {name} than was submitted",
    Void.GATES: "what stops the close of {name} isn't what it was",
    Void.FILES: "{name} isn't as it was when this was submitted",
}


class Voided(Fault):
    """A submission that nobody can approve any more.

    Attributes
    ----------
    void : Void
        Why.
    """

    def __init__(self, waiting: Waiting, void: Void, name: str) -> None:
        why = Sentence(_SAID[void], name=name)
        form = "action {number} can't be approved: {why}"
        super().__init__(
            Sentence(form, number=waiting.line.number, why=why),
            remedy=BookRemedy.REJECT_AND_SUBMIT(head=waiting.head).sentence,
        )
        self.void = void


class SamePerson(Fault):
    """An approval by somebody who may not give it: who has submitted it, or changed a figure."""


@dataclass(frozen=True)
class Approved:
    """An approval that was given.

    Attributes
    ----------
    act, of : str
        The action.
    head : Head
        The head of the book after it.
    by : str
        Who has approved it.
    lacking : int
        How many approvals are lacking still; 0 if the action is done.
    """

    act: str
    of: str
    head: Head
    by: str
    lacking: int


def waiting_of(book: Store, head: str) -> Waiting:
    """Return what waits by the head that an approval names.

    Raises
    ------
    Fault
        If nothing of that head waits.
    """
    some = waiting_in(book)
    wanted = head.strip().split(" ")[-1]
    for each in some:
        if wanted == each.line.digest:
            return each
    heads = "; ".join(f"{each.proposal.act} {each.proposal.of}: {each.head}" for each in some)
    raise Fault(
        "nothing with this head waits for an approval",
        text=head,
        remedy=Sentence("these wait: {heads}" if heads else "nothing waits", heads=heads),
    )


def approve(book: Store, head: str, *, program: str | None = None, who: str = "") -> Approved:
    """Approve what waits; the parameters are those of `plantbal.Book.approve`."""
    with _opened(book, head) as (waiting, rules):
        years = Years(book)
        action = _action(book, years, waiting, program)
        record = _record(book, waiting, rules, ApprovalDeed.APPROVE, who)
        record, texts, marks = written_for(book, record, rules, May.APPROVE, who)
        _check_other(book, years, waiting, rules, marks)
        lacking = rules.approvers - len(waiting.approvals) - 1
        if lacking > 0:
            action = Action(Act.APPROVE, waiting.proposal.of, waiting.proposal.act, who=who)
        else:
            action.cleared = True
        action.written |= texts
        book.do(action)
        by = record.who or record.user
        return Approved(waiting.proposal.act, waiting.proposal.of, book.head, by, max(0, lacking))


def reject(book: Store, head: str, *, why: str, who: str = "") -> Head:
    """Reject what waits; the parameters are those of `plantbal.Book.reject`."""
    if not why.strip():
        raise Fault("there is no reason", remedy="say why, in a few words")
    with _opened(book, head) as (waiting, rules):
        record = _record(book, waiting, rules, ApprovalDeed.REJECT, who)
        own = waiting.record.user == record.user
        may = May.SUBMIT if own else May.APPROVE
        record, texts, _ = written_for(book, record, rules, may, who)
        action = Action(Act.REJECT, waiting.proposal.of, waiting.proposal.act, why, who)
        action.written = texts
        book.do(action)
        return book.head


def to_sign(
    book: Store, head: str, deed: ApprovalDeed = ApprovalDeed.APPROVE, *, who: str = ""
) -> str:
    """Return what an approval or a rejection signs; the parameters are those of `Book.to_sign`."""
    with _opened(book, head) as (waiting, rules):
        return _record(book, waiting, rules, deed, who).text


def _record(
    book: Store, waiting: Waiting, rules: Rules, deed: ApprovalDeed, who: str
) -> ApprovalRecord:
    """Return the record of an approval or of a rejection of what waits."""
    return record_for(
        book,
        deed,
        waiting.proposal.act,
        waiting.proposal.of,
        rules,
        who=who,
        submission=(waiting.line.number, waiting.line.digest),
        files=waiting.record.files if deed is ApprovalDeed.APPROVE else None,
    )


@contextmanager
def _opened(book: Store, head: str) -> Iterator[tuple[Waiting, Rules]]:
    """Open a book with what waits in it by its head, and the rules.

    A file that is to be taken as it is may differ from the journal, and no other.
    """
    with book.opened(tested=False):
        rules = rules_of(book)
        waiting = waiting_of(book, head)
        taken = waiting.proposal.of if waiting.proposal.act == Act.ACCEPT else ""
        for difference in [*book.chain().differences(), *book.unknown()]:
            if difference.file != taken:
                raise difference.fault(book.folder)
        assert rules is not None, "what waits was submitted by rules"
        yield waiting, rules


def _check_other(book: Store, years: Years, waiting: Waiting, rules: Rules, marks: Marks) -> None:
    """Refuse an approval by whoever submitted it, approved it or changed a figure of it.

    Raises
    ------
    SamePerson
        If it is one.
    """
    number = waiting.line.number
    if marks & marks_of_doer(book, waiting.line, rules):
        raise SamePerson(
            Sentence("you have submitted action {number} yourself", number=number),
            remedy="somebody else has to look at it and approve it",
        )
    for line in waiting.approvals:
        if marks & marks_of_signer(book, line, rules):
            remedy = "one more person has to approve it"
            what = Sentence("you have approved action {number} already", number=number)
            raise SamePerson(what, remedy=remedy)
    if waiting.proposal.act != Act.CLOSE:
        return
    ledger = years.of_period(waiting.proposal.of)
    for line, doer in changers(book, ledger, waiting.proposal.of, rules, rules.changed):
        if marks & doer:
            form = "you have changed a figure of {period} yourself: {action}"
            raise SamePerson(
                Sentence(form, period=waiting.proposal.of, action=line.said()),
                remedy="somebody who hasn't has to approve it",
            )


def marks_of_signer(book: Store, line: JournalLine, rules: Rules) -> Marks:
    """Return the marks of whoever has approved something by a line."""
    record = record_of(book, line)
    signed = signed_of(book, record, keys_of(book)) if record is not None else None
    return marks_of_line(line, rules, signed.name if signed is not None else "")


# ---- what is done


def _action(book: Store, years: Years, waiting: Waiting, program: str | None) -> Action:
    """Return what was submitted as it is done now.

    Raises
    ------
    Voided
        If that is something else.
    """
    proposal = waiting.proposal
    for name, kept in proposal.bases.items():
        if not is_year_file(name) or proposal.act == Act.ACCEPT:
            is_report = proposal.act == Act.CLOSE and name in proposal.written
            if not is_report and str(base_of(book, name)) != kept:
                raise Voided(waiting, Void.FILES, name)
    _check_figures(years, waiting)
    if proposal.act == Act.CLOSE:
        return _close(book, waiting, program)
    line = waiting.line
    who = line.who or line.user
    action = Action(Act(proposal.act), proposal.of, proposal.what, proposal.why, who, line.program)
    for name, text in proposal.rows.items():
        ledger = years[name.removesuffix(".csv")]
        for row in csv.reader(text.splitlines()):
            ledger.put(*row)
        action.add(ledger)
    action.written = dict(proposal.written)
    action.seen, action.gone = list(proposal.seen), list(proposal.gone)
    return action


def _check_figures(years: Years, waiting: Waiting) -> None:
    """Raise if a row was added since that touches the periods of a submission."""
    for period in waiting.proposal.periods:
        ledger: YearLedger = years.of_period(period)
        base = Kept.read(waiting.proposal.bases.get(f"{ledger.name}.csv", ""))
        if base is None or ledger.touched(ledger.periods[period]) > (base.lines or 0):
            raise Voided(waiting, Void.FIGURES, period)


def _close(book: Store, waiting: Waiting, program: str | None) -> Action:
    """Return the close that was submitted, made anew.

    Raises
    ------
    Voided
        If another report or other gates come of it.
    """
    proposal, numbers = waiting.proposal, waiting.proposal.settings
    settings = RunSettings(
        bool(numbers["tests"]), numbers["eliminate"], numbers["gap"], numbers["sweeps"], program
    )
    who = waiting.line.who or waiting.line.user
    try:
        found = prepared(book, proposal.of, anyway=proposal.gates, settings=settings, who=who)
    except NotClosed as fault:
        raise Voided(waiting, Void.GATES, proposal.of) from fault
    if found is None or found.reasons != proposal.gates:
        raise Voided(waiting, Void.GATES, proposal.of)
    if _figures(found.text) != _figures(proposal.written[report_file(proposal.of)]):
        raise Voided(waiting, Void.REPORT, proposal.of)
    return found.action


def _figures(report: str) -> list[str]:
    """Return the rows of a report; of the close itself without its number.

    That is the next row of the year, so it is another one if other periods had rows since.
    """
    rows = []
    for row in report.split("\n"):
        fields = row.split(",")
        is_close = fields[0] == "edit" and fields[2:3] == ["close"]
        rows.append(",".join(["edit", *fields[2:]]) if is_close else row)
    return rows
