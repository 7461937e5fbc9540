"""What rows after those that were approved do to the figures of the approved period.

Rows may be added to a session after a close: those of other months, and late facts, amendments and
strikes of the closed one. They can't change the report that was approved, but what a report of the
period says from then on follows from them.
"""

from __future__ import annotations

from plantbal.audit.held import grams
from plantbal.model.ledger import Ledger, view_of
from plantbal.model.studies import StreamMeasurement, measured_in


def period_figures(source: str, rows: bytes, period: str) -> dict[str, StreamMeasurement]:
    """Return what the rows of a session give each stream and tank in a period; nothing without it."""
    ledger = Ledger(source, rows, kept=1, most=0)
    if period not in ledger.periods:
        return {}
    return measured_in(ledger.state, view_of(ledger.state, ledger.periods[period]))


def changed_since(source: str, session: bytes, size: int, period: str) -> str:
    """Return the first figure of a period that rows of a session after some bytes change.

    Parameters
    ----------
    source : str
        What the session is called.
    session : bytes
        The session.
    size : int
        How many bytes were approved.
    period : str
        The period.

    Returns
    -------
    str
        What it is by all rows, and what was approved; empty if there is no such figure.
    """
    approved = period_figures(source, session[:size], period)
    found = period_figures(source, session, period)
    for name in [*approved, *(name for name in found if name not in approved)]:
        before, after = approved.get(name), found.get(name)
        if before is None or after is None:
            there = "isn't in the period" if after is None else "is in the period"
            return f"{name} {there}, and by what was approved it {'is' if before else 'is not'}"
        if before.value != after.value:
            return f"{name} is {grams(after.value)} g, and {grams(before.value)} g was approved"
        if before.variance != after.variance:
            what = f"the variance of {name} is {grams(after.variance)} g2"
            return f"{what}, and {grams(before.variance)} g2 was approved"
    return ""
