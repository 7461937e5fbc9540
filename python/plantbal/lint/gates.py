"""What stops the close of a period, as findings; what the session's own rules say is left to them."""

from __future__ import annotations

from collections.abc import Iterator

from plantbal.gates import Gate, by_session, remedy_of_stop, said_of_stop
from plantbal.lint.findings import Finding, place_in
from plantbal.model.ledger import Ledger

# Rules of lint say these, each with more of what is missing.
_OWN = (Gate.MISSING,)


def gates(ledger: Ledger) -> Iterator[Finding]:
    """Give what stops the close of each period that a report is asked of."""
    for stop in by_session(ledger):
        if stop.gate not in _OWN:
            place = place_in(ledger, stop.line or ledger.reported[stop.period].line)
            name = stop.names[0] if stop.names else ""
            yield Finding(
                stop.gate.value,
                said_of_stop(stop),
                remedy_of_stop(stop),
                place,
                name,
                stop.period,
                stop.of,
            )
