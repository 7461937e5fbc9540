"""Submits an action: it is written down with all that it does, and waits for an approval."""

from __future__ import annotations

from collections.abc import Mapping, Sequence
from typing import TYPE_CHECKING

from plantbal.book.approval.proposal import SubmittedMonth
from plantbal.book.approval.record import ApprovalDeed, ApprovalRecord
from plantbal.book.approval.rules import May, Rules, Want
from plantbal.book.approval.state import rules_of, text_by_journal, waiting_in
from plantbal.book.approval.writing import record_for, written_for
from plantbal.book.forms import (
    ACCOUNTS,
    REVOKED,
    RULES,
    SIGNERS,
    approval_file,
    is_year_file,
)
from plantbal.book.journal import Act, Kept
from plantbal.faults import Fault
from plantbal.gates import Gate
from plantbal.program import RunSettings
from plantbal.sentence import Joined, Sentence

if TYPE_CHECKING:
    from plantbal.book.store import Action, Head, Store

# On how these are each submission rests.
_BASES = (RULES, SIGNERS, REVOKED, ACCOUNTS)


class Submitted(Fault):
    """An action that isn't done yet: it was submitted, and waits for an approval.

    Attributes
    ----------
    head : Head
        The head of the book with the submission, which an approval names.
    wants : tuple of Want
        Why it needs an approval.
    said : str
        The action, and what it is done to.
    """

    def __init__(self, found: Submission) -> None:
        said = f"{found.act} {found.of}".strip()
        super().__init__(
            Sentence(
                "{said} waits for an approval by somebody else ({wants})",
                said=said,
                wants=Joined(", ", found.wants),
            ),
            remedy=Sentence(
                "they look at it by plantbal-desk book submitted {number}, and approve it by plantbal-desk book approve --head '{head}'",
                number=found.head.number,
                head=found.head,
            ),
        )
        self.head = found.head
        self.wants = found.wants
        self.said = said


class Unsigned(Fault):
    """An action that isn't submitted: the text that its submission signs was asked for.

    Attributes
    ----------
    signs : str
        The text.
    """

    def __init__(self, signs: str) -> None:
        super().__init__("nothing is submitted yet", remedy="sign the text, and send both")
        self.signs = signs


class Submission:
    """What was submitted.

    Attributes
    ----------
    head : Head
        The head of the book with it.
    act, of : str
        The action.
    wants : tuple of Want
        Why it needs an approval.
    """

    def __init__(self, head: Head, act: str, of: str, wants: Sequence[Want]) -> None:
        self.head = head
        self.act = act
        self.of = of
        self.wants = tuple(wants)


def submit_action(
    book: Store,
    action: Action,
    wants: Sequence[Want],
    *,
    periods: Sequence[str] = (),
    reasons: Mapping[Gate, str] | None = None,
    settings: RunSettings | None = None,
) -> Submission:
    """Submit an action of a book that is open.

    Parameters
    ----------
    book : Store
        The book.
    action : Action
        The action, which isn't done.
    wants : sequence of Want
        Why it needs an approval.
    periods : sequence of str
        The periods whose figures it is about.
    reasons : mapping of Gate to str, optional
        Of a close its reason for each gate.
    settings : RunSettings, optional
        Of a close how its session is run.

    Raises
    ------
    Fault
        If the same waits already, or whoever does this may not.
    """
    from plantbal.book.store import Action

    proposal, record, rules = _asked(
        book, action, wants, periods=periods, reasons=reasons, settings=settings
    )
    _, texts, _ = written_for(book, record, rules, May.SUBMIT, action.who)
    done = Action(Act.SUBMIT, action.of, action.act, action.why, action.who, action.program)
    json_file = approval_file(record.number, "json")
    done.written = {json_file: proposal.text, **texts}
    book.do(done)
    return Submission(book.head, action.act, action.of, wants)


def submission_to_sign(
    book: Store,
    action: Action,
    wants: Sequence[Want],
    *,
    periods: Sequence[str] = (),
    reasons: Mapping[Gate, str] | None = None,
    settings: RunSettings | None = None,
) -> str:
    """Return the text that a submission signs; the parameters are those of `submit`."""
    return _asked(book, action, wants, periods=periods, reasons=reasons, settings=settings)[1].text


def _asked(
    book: Store,
    action: Action,
    wants: Sequence[Want],
    *,
    periods: Sequence[str],
    reasons: Mapping[Gate, str] | None,
    settings: RunSettings | None,
) -> tuple[SubmittedMonth, ApprovalRecord, Rules]:
    """Return what is submitted of an action, its record, and the rules that hold.

    Raises
    ------
    Fault
        If the book has no rules, or the same waits already.
    """
    rules = rules_of(book)
    if rules is None:
        remedy = "plantbal-desk book rules FILE gives it some"
        raise Fault("this book has no rules, so nothing waits for an approval", remedy=remedy)
    for each in waiting_in(book):
        if (each.proposal.act, each.proposal.of) == (action.act, action.of):
            remedy = Sentence(
                "plantbal-desk book reject --head '{head}' --why TEXT takes it back", head=each.head
            )
            what = Sentence(
                "{act} {of} waits already, as action {number}",
                act=action.act,
                of=action.of,
                number=each.line.number,
            )
            raise Fault(what, remedy=remedy)
    proposal = _proposal(book, action, wants, periods, reasons or {}, settings)
    json_file = approval_file(book.head.number + 1, "json")
    # What it rests on, and over that what it writes: a signature is of the new report, not of the old.
    files = {name: kept for name in proposal.bases if (kept := Kept.read(proposal.bases[name]))}
    files |= {name: Kept.of(text.encode("utf-8")) for name, text in proposal.written.items()}
    files[json_file] = Kept.of(proposal.text.encode("utf-8"))
    record = record_for(
        book, ApprovalDeed.SUBMIT, action.act, action.of, rules, who=action.who, files=files
    )
    return proposal, record, rules


def _proposal(
    book: Store,
    action: Action,
    wants: Sequence[Want],
    periods: Sequence[str],
    reasons: Mapping[Gate, str],
    settings: RunSettings | None,
) -> SubmittedMonth:
    """Return an action as it is submitted, with the state of the book on which it rests."""
    named = [*_BASES, *action.appended, *action.written, *action.seen, *action.gone]
    bases = {name: str(base_of(book, name)) for name in dict.fromkeys(named)}
    how = settings or RunSettings()
    numbers = how.numbers
    return SubmittedMonth(
        action.act,
        action.of,
        action.what,
        action.why,
        tuple(map(str, wants)),
        tuple(dict.fromkeys(periods)),
        {name: text for name, text in action.appended.items() if is_year_file(name)},
        dict(action.written),
        tuple(action.seen),
        tuple(action.gone),
        bases,
        {gate.value: reason for gate, reason in reasons.items()},
        numbers if action.act is Act.CLOSE else {},
    )


def base_of(book: Store, name: str) -> Kept:
    """Return how a file is on which a submission rests."""
    if name in (RULES, SIGNERS, REVOKED):
        text_by_journal(book, name)
    return book.kept(name)
