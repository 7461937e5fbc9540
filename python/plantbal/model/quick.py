"""Rows that are stored by many: facts, amendments and strikes that the rules let pass.

`taken` reads such a row at once, asks its rules, and stores it; whoever wants to know what a row
does, or why it is refused, has it judged (`plantbal.model.state`). No rule stands here: those of a
fact are `FACT_RULES`, and a rule that looks at nothing but the stream, or the days, of a reading or a
transfer is asked once for each of them, until something else than a fact is stored.

The form of each row and what reads it are found once, by its kind and how many fields it has.
"""

from __future__ import annotations

from collections.abc import Callable
from typing import TYPE_CHECKING

from plantbal.model.booking import FACT_RULES, Amends, BooksFact, FactRule, LooksAt, Strikes
from plantbal.model.causes import Refused
from plantbal.model.facts import At, Fact
from plantbal.model.forms import ROWS, day_of, fixed_form

if TYPE_CHECKING:
    from plantbal.model.state import State

_Read = Callable[[tuple[str, ...], int], Fact | Amends | Strikes]
_BY_STREAM = [rule for rule in FACT_RULES if rule.looks is LooksAt.STREAM]
_BY_DAYS = [rule for rule in FACT_RULES if rule.looks is LooksAt.DAY]
_OTHERS = [rule for rule in FACT_RULES if rule.looks not in (LooksAt.STREAM, LooksAt.DAY)]


def taken(state: State, record: tuple[str, ...], at: At) -> Refused | bool:
    """Take a reading, a transfer, a dip, an amendment or a strike.

    Parameters
    ----------
    state : State
        The session before the row.
    record : tuple of str
        Its fields.
    at : At
        Where it stands.

    Returns
    -------
    bool or Refused
        Whether it is taken, or why a rule refuses it; false if it has another form, or is of
        another kind, and has to be judged.
    """
    form = _FORMS.get((record[0], len(record))) if record else None
    if form is None or not form[0](record):
        return False
    said = form[1](record, at.line)
    if not isinstance(said, Fact):
        refused = said.refused(state)
        if refused is None:
            said.store(state, at)
    else:
        refused = _fact_refused(state, BooksFact(said, False))
        if refused is None:
            state.facts.book(said)
    if refused is not None:
        return refused
    state.stored = True
    return True


# ---- what a row says, by the order of its columns


def _reading(record: tuple[str, ...], line: int) -> Fact:
    _kind, identity, of, day, grams, variance = record
    on = day_of(day)
    return Fact("reading", identity, of, on, on, int(grams), 0, 0, int(variance), line, line, line)


def _transfer(record: tuple[str, ...], line: int) -> Fact:
    _kind, identity, of, first, last, grams, variance = record
    days, amount = (day_of(first), day_of(last)), int(grams)
    return Fact("transfer", identity, of, *days, amount, 0, 0, int(variance), line, line, line)


def _dip(record: tuple[str, ...], line: int) -> Fact:
    _kind, identity, of, day, mm, density, variance = record
    on, level = day_of(day), (int(mm), int(density))
    return Fact("dip", identity, of, on, on, 0, *level, int(variance), line, line, line)


def _amend(record: tuple[str, ...], line: int) -> Amends:
    _kind, identity, *values, variance, reason = record
    of_dip = len(values) == 2
    amount = (0, int(values[0]), int(values[1])) if of_dip else (int(values[0]), 0, 0)
    return Amends(identity, amount, of_dip, int(variance), reason)


def _strike(record: tuple[str, ...], line: int) -> Strikes:
    return Strikes(record[1], record[2])


_READ: dict[str, _Read] = {
    "reading": _reading,
    "transfer": _transfer,
    "dip": _dip,
    "amend": _amend,
    "strike": _strike,
}
# Of a kind and so many fields: whether a row is of the form, and what it says.
_FORMS: dict[tuple[str, int], tuple[Callable[[tuple[str, ...]], bool], _Read]] = {
    (kind, len(row.columns) + 1): (fixed_form(row).fits, read)
    for kind, read in _READ.items()
    for row in ROWS[kind]
}


# ---- which rule refuses a fact


def _fact_refused(state: State, books: BooksFact) -> Refused | None:
    """Return why a fact is refused, or None."""
    rules = None if books.fact.kind == "dip" else _left(state, books)
    if rules is None:
        return books.refused(state)
    for rule in rules:
        if rule.refused(books, state) is not None:
            return books.refused(state)  # with the first of all rules
    return None


def _left(state: State, books: BooksFact) -> list[FactRule] | None:
    """Return the rules that are left to ask of a reading or a transfer; None if one refuses it.

    Those of its stream are asked first, which others need.
    """
    fact = books.fact
    of_stream, days = (fact.kind, fact.of), (fact.first, fact.last)
    left = state.left.get(of_stream)
    if left is None:
        if any(rule.refused(books, state) is not None for rule in _BY_STREAM):
            return None
        left = [rule for rule in _OTHERS if rule.only is None or rule.only(state, fact.of)]
        state.left[of_stream] = left
    if days not in state.passed_days:
        if any(rule.refused(books, state) is not None for rule in _BY_DAYS):
            return None
        state.passed_days.add(days)
    return left
