"""Quiets a rule of lint for good, for names for which it is right, and lets it speak again."""

from __future__ import annotations

from collections.abc import Sequence

from plantbal.book.answers import Quiet, checked_reason, checked_rule, quieted
from plantbal.book.remedies import BookRemedy
from plantbal.book.store import Act, Action, Store
from plantbal.faults import Fault
from plantbal.sentence import Sentence


def quiet(book: Store, code: str, names: Sequence[str], *, why: str, who: str) -> None:
    """Quiet a rule; the parameters are those of `plantbal.Book.quiet`."""
    checked_rule(code, names)
    with book.opened():
        book.do(Action(Act.QUIET, code, " ".join(names), checked_reason(why), who))


def heed(book: Store, code: str, names: Sequence[str], *, why: str, who: str) -> None:
    """Have a rule speak again; the parameters are those of `plantbal.Book.heed`."""
    with book.opened():
        there = [set(each.names) for each in quieted(book.journal()) if each.code == code]
        if set(names) not in there:
            what = Sentence("{code} isn't quieted for {names}", code=code, names=" ".join(names))
            raise Fault(what, text=code, remedy=BookRemedy.LIST_QUIETED().sentence)
        book.do(Action(Act.HEED, code, " ".join(names), checked_reason(why), who))


def quieted_rules(book: Store) -> list[Quiet]:
    """Return which rules are quieted."""
    with book.opened(reading=True):
        return quieted(book.journal())
