"""Gives a book rules, and says who may sign in it."""

from __future__ import annotations

import datetime
from pathlib import Path

from plantbal.book.approval.proposal import SubmittedMonth
from plantbal.book.approval.record import ApprovalDeed
from plantbal.book.approval.rules import Rules, Want, read_rules
from plantbal.book.approval.state import keys_of, rules_of
from plantbal.book.approval.writing import record_for
from plantbal.book.forms import REVOKED, RULES, SIGNERS, approval_file
from plantbal.book.journal import Act
from plantbal.book.store import Action, Head, Store
from plantbal.faults import Fault, InputFault, Place, decoded, read_bytes
from plantbal.limits import RULES_BYTES
from plantbal.sentence import Sentence
from plantbal.signing.signers import Signer, lost_keys, read_signers


def set_rules(
    book: Store,
    *,
    rules: str | Path | None = None,
    signers: str | Path | None = None,
    revoked: str | Path | None = None,
    why: str = "",
    who: str = "",
) -> Head:
    """Give a book rules; the parameters are those of `plantbal.Book.set_rules`."""
    named = {RULES: rules, SIGNERS: signers, REVOKED: revoked}
    texts = {name: _read(path) for name, path in named.items() if path is not None}
    with book.opened():
        before = rules_of(book)
        changed = {name: text for name, text in texts.items() if text != book.text(name)}
        if not changed:
            raise Fault("nothing in it is new", remedy="change a file, and type this again")
        _check(book, before, texts)
        action = Action(Act.RULES, what=" ".join(sorted(changed)), why=why, who=who)
        action.written = dict(changed)
        if before is None:
            action.written |= _first(book, action, who)
        book.do(action)
        return book.head


def _read(path: str | Path) -> str:
    source, data = read_bytes(path, RULES_BYTES)
    return decoded(source, data)


def _first(book: Store, action: Action, who: str) -> dict[str, str]:
    """Return the files of the first rules: their record, and the texts as they were then."""
    number = book.head.number + 1
    rules = read_rules(RULES, action.written[RULES])
    proposal = SubmittedMonth(
        Act.RULES,
        "",
        action.what,
        action.why,
        (Want.RULES.value,),
        written=dict(action.written),
    )
    record = record_for(book, ApprovalDeed.RULES, Act.RULES, "", rules, who=who)
    return {
        approval_file(number, "json"): proposal.text,
        approval_file(number, "txt"): record.text,
    }


def _check(book: Store, before: Rules | None, texts: dict[str, str]) -> None:
    """Refuse rules by which a key would be lost, or somebody couldn't sign who has to.

    Raises
    ------
    Fault
        If it is so.
    """
    if before is None and RULES not in texts:
        raise Fault("this book has no rules yet", remedy="name a file of rules too")
    rules = read_rules(RULES, texts[RULES]) if RULES in texts else before
    assert rules is not None, "one of the two is there"
    there = list(keys_of(book).signers)
    signers = read_signers(SIGNERS, texts[SIGNERS]) if SIGNERS in texts else there
    for lost in lost_keys(there, signers):
        raise InputFault(
            Sentence(
                "the key {key} of {name} no longer exists", key=lost.fingerprint, name=lost.name
            ),
            place=Place(file=SIGNERS),
            remedy='leave its line there, with valid-before="20250101": without it nobody could '
            "verify what it has signed",
        )
    if rules.keys:
        _check_keys(rules, signers)


def _check_keys(rules: Rules, signers: list[Signer]) -> None:
    """Raise if somebody of the rules has no key, or there are too few with one.

    Raises
    ------
    Fault
        If it is so.
    """
    now = datetime.datetime.now(datetime.timezone.utc)
    able = {each.name for each in signers if each.is_valid(now)}
    for person in rules.people.values():
        if person.may and person.name not in able:
            form = "give {name} a line in {file}, or leave out what it may"
            remedy = Sentence(form, name=person.name, file=SIGNERS)
            what = Sentence("{name} has no key that is valid today", name=person.name)
            raise Fault(what, remedy=remedy)
    if len(able) <= rules.approvers:
        form = "{able} people have a key, and {needed} have to sign"
        what = Sentence(form, able=len(able), needed=rules.approvers + 1)
        raise Fault(what, remedy=Sentence("name a file of more signers ({file})", file=SIGNERS))
