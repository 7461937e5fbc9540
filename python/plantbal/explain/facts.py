"""Says of a fact of a session what is booked, and with its book of which cells and hours it was made."""

from __future__ import annotations

import difflib
from collections.abc import Iterator
from math import sqrt

from plantbal.amounts import tonnes_text
from plantbal.faults import InputFault, Place
from plantbal.model.facts import Fact
from plantbal.model.forms import day_text
from plantbal.model.ledger import Ledger
from plantbal.page.summed import summed_of_book


def fact_lines(source: str, data: bytes, name: str, book: str | None) -> list[str]:
    """Return what there is to say of a fact.

    Parameters
    ----------
    source : str
        What the session is called.
    data : bytes
        The session.
    name : str
        The id of the fact.
    book : str or None
        The folder of the session's book.

    Raises
    ------
    InputFault
        If the session has no such fact, or a file of the book can't be read.
    """
    facts = {fact.id: fact for fact in Ledger(source, data).state.facts}
    if name not in facts:
        near = difflib.get_close_matches(name, facts, n=1)
        remedy = f"did you mean {near[0]}?" if near else "give the id of a reading, transfer or dip"
        what = f"the session has no fact {name}"
        raise InputFault(what, place=Place(file=source), text=name, remedy=remedy)
    return [_booked(source, facts[name]), *_made(facts[name], book)]


def _booked(source: str, fact: Fact) -> str:
    """Return what is booked, and in which line."""
    days = day_text(fact.first)
    if fact.last != fact.first:
        days += f" to {day_text(fact.last)}"
    struck = ", struck" if fact.struck else ""
    amount = f"{fact.mm:,} mm" if fact.kind == "dip" else f"{tonnes_text(fact.grams)} t"
    error = f", error {tonnes_text(round(sqrt(fact.variance)))} t" if fact.kind != "dip" else ""
    said = f"{fact.kind} {fact.id} of {fact.of}, {days}: {amount}{error}{struck}"
    return f"{source}: line {fact.line}: {said}"


def _made(fact: Fact, book: str | None) -> Iterator[str]:
    """Give of which cells and hours it was made; nothing without a book."""
    if book is None:
        return
    found = summed_of_book(book, [fact])
    if not found:
        yield f"{book}: nothing is kept of hours or of a counter for it"
    for each in found:
        yield f"{book}: {each.figure}, from {each.cells} ({each.hours})"
        if each.wrong:
            yield f"{book}: {each.wrong}"
