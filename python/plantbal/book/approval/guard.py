"""Holds an action back that needs an approval by the rules of its book.

`Store.do` asks here before it does anything, so that no command can forget it. What changes closed
periods, quiets a rule, strikes most of a workbook's facts or takes a file as it is becomes a
submission by itself; a close is submitted by `plantbal-desk book submit`.
"""

from __future__ import annotations

from collections.abc import Iterator
from typing import TYPE_CHECKING

from plantbal.book.approval.changers import reopened
from plantbal.book.approval.rules import Rules, Want
from plantbal.book.approval.state import rules_of
from plantbal.book.approval.submitting import Submitted, Unsigned, submission_to_sign, submit_action
from plantbal.book.actions import Withheld
from plantbal.book.chain import state_of
from plantbal.book.forms import ACCOUNTS, APPROVALS, JOURNAL, RULES, SIGNERS, REVOKED
from plantbal.book.journal import Act
from plantbal.faults import Fault
from plantbal.sentence import Sentence

if TYPE_CHECKING:
    from plantbal.book.store import Action, Store

_OWN = (Act.SUBMIT, Act.APPROVE, Act.REJECT)


def pass_or_submit(book: Store, action: Action) -> None:
    """Let an action pass, or submit it and say so.

    Raises
    ------
    Submitted
        If it needs an approval, and was submitted.
    Unsigned
        If it needs one, and the text that its submission signs was asked for.
    Fault
        If it needs one and can't be submitted so; or needs none, and that text was asked for.
    """
    if action.act is Act.ACCEPT and RULES in state_of(book.journal()):
        _check_acceptable(action.of)
    rules = rules_of(book)
    is_free = rules is None or action.cleared or action.act in _OWN
    wants = [] if rules is None or is_free else list(wants_of(book, action, rules))
    if book.withheld is Withheld.DONE:
        return
    if not wants:
        if book.withheld is Withheld.TO_SIGN:
            what = "this needs no approval, so there is nothing to sign"
            raise Fault(what, remedy="do it without a signature")
        return
    if action.act is Act.CLOSE:
        said = ", ".join(wants)
        raise Fault(
            Sentence(
                "by the rules of this book, closing {of} needs an approval ({said})",
                of=action.of,
                said=said,
            ),
            remedy=Sentence("plantbal-desk book submit {of}", of=action.of),
        )
    if action.early:
        remedy = "close it first: what is open isn't handed over"
        raise Fault(
            Sentence("by the rules of this book {of} isn't posted yet", of=action.of), remedy=remedy
        )
    periods = [name for ledger in action.ledgers for name in reopened(ledger)]
    periods += [action.of] if action.act is Act.POSTED else []
    if book.withheld is Withheld.TO_SIGN:
        raise Unsigned(submission_to_sign(book, action, wants, periods=periods))
    raise Submitted(submit_action(book, action, wants, periods=periods))


def wants_of(book: Store, action: Action, rules: Rules) -> Iterator[Want]:
    """Give why an action needs an approval by the rules of its book."""
    if action.act is Act.RULES:
        yield Want.RULES
    if action.act is Act.ACCEPT:
        yield Want.ACCEPT
    if Want.CLOSE in rules.wants and (action.act is Act.CLOSE or action.early):
        yield Want.CLOSE
    if Want.AMEND in rules.wants and _changes_closed(book, action):
        yield Want.AMEND
    if Want.ANYWAY in rules.wants and (action.anyway or action.act is Act.QUIET):
        yield Want.ANYWAY
    if rules.estimates is not None and action.estimated > rules.estimates:
        yield Want.ESTIMATES


def _changes_closed(book: Store, action: Action) -> bool:
    """Say whether an action changes the figures of a closed period, or the accounts of one."""
    if any(reopened(ledger) for ledger in action.ledgers):
        return True
    return ACCOUNTS in action.written and any(line.act is Act.CLOSE for line in book.journal())


def _check_acceptable(name: str) -> None:
    """Refuse to take a file as it is on which the approvals themselves rest.

    Raises
    ------
    Fault
        If it is one.
    """
    if name in (JOURNAL, RULES, SIGNERS, REVOKED) or name.startswith(f"{APPROVALS}/"):
        raise Fault(
            Sentence(
                "{name} isn't taken as it is in a book with rules: approvals rest on it", name=name
            ),
            remedy="put it back as it was, from a backup",
        )
