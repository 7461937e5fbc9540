"""What stops the close of each period, or stopped it, as the statement shows it.

With the book there are the reasons with which a period was closed all the same, and what is
quieted. What a report or the list of missing days says already is in the verdict too.
"""

from __future__ import annotations

from collections.abc import Iterable, Mapping, Sequence
from dataclasses import dataclass, field, replace
from typing import TYPE_CHECKING

from plantbal.gates import Gate, Stop, about, remedy_of_stop, said_of_stop, stops_of
from plantbal.model.ledger import Ledger
from plantbal.report.blocks import Block
from plantbal.sentence import Day, Moment, Sentence, phrase

if TYPE_CHECKING:
    from plantbal.accounts.sheet import SalesUnit
    from plantbal.book.answers import Answered, Quiet
    from plantbal.lint import Finding
    from plantbal.page.statement import Statement

# What the verdict doesn't say of itself.
_SAYS_MORE = [gate for gate in Gate if gate.is_of_names]
# How many sentences a verdict has of it.
_MOST = 3


@dataclass(frozen=True)
class ClosingNotes:
    """What a book tells of its periods: how each was closed, which rules are quieted, and in what
    streams and tanks are sold."""

    closes: Mapping[str, Answered] = field(default_factory=dict)
    quiets: Sequence[Quiet] = ()
    units: Mapping[str, SalesUnit] = field(default_factory=dict)


@dataclass(frozen=True, slots=True)
class ShownGate:
    """A reason to look, as it is shown: its gate, what is there, what to do, why all the same."""

    gate: str
    text: str
    remedy: str
    reason: str = ""


@dataclass(frozen=True)
class PeriodGates:
    """What stops a period's close, or stopped it.

    Attributes
    ----------
    shown : list of ShownGate
        The reasons to look.
    stops : list of Stop
        The same as data.
    quiet : list of str
        What is quieted, in sentences.
    who, when : str
        Who closed it all the same, and when; empty if nobody did, or no book was named.
    """

    shown: list[ShownGate]
    stops: list[Stop]
    quiet: list[str]
    who: str = ""
    when: str = ""

    @property
    def is_closed(self) -> bool:
        """Whether it was closed all the same."""
        return bool(self.when)


def closing_notes(folder: str | None) -> ClosingNotes:
    """Return what the book in a folder tells; nothing without a folder.

    Raises
    ------
    Fault
        If there is no book, or one of its files was changed.
    """
    if folder is None:
        return ClosingNotes()
    from plantbal.accounts.sheet import sales_units
    from plantbal.book.accounting import accounts_of
    from plantbal.book.answers import answered, quieted
    from plantbal.book.opening import read_book
    from plantbal.book.store import Act

    with read_book(folder) as book:
        journal = book.journal()
        units = sales_units(accounts_of(book))
    closed = [line.of for line in journal if line.act is Act.CLOSE]
    closes = {period: answered(journal, period) for period in closed}
    return ClosingNotes(closes, quieted(journal), units)


def period_gates(
    ledger: Ledger, blocks: Sequence[Block], told: ClosingNotes = ClosingNotes()
) -> dict[str, PeriodGates]:
    """Return the gates of each period that a report is asked of.

    Parameters
    ----------
    ledger : Ledger
        The session.
    blocks : sequence of Block
        The blocks of its output.
    told : ClosingNotes
        What the book tells.
    """
    return {
        period: _of_period(stops_of(ledger, blocks, period), period, told)
        for period in ledger.reported
    }


def _of_period(stops: Iterable[Stop], period: str, told: ClosingNotes) -> PeriodGates:
    """Return the gates of a period."""
    close = told.closes.get(period)
    reasons = close.reasons if close is not None else {}
    kept: list[Stop] = []
    quiet: list[str] = []
    for stop in stops:
        by = next((each for each in told.quiets if each.takes(stop.gate, stop.of)), None)
        if by is None:
            kept.append(stop)
        else:
            words = {"why": by.why, "who": by.who, "day": Day(by.when[:10])}
            quiet.append(Sentence("{said}: {why} ({who}, {day})", said=said_of_stop(stop), **words))
    shown = [
        ShownGate(stop.gate, said_of_stop(stop), remedy_of_stop(stop), reasons.get(stop.gate, ""))
        for stop in kept
    ]
    now = {stop.gate for stop in kept}
    # What was so at the close, and isn't any more: its reason stays.
    shown += [
        ShownGate(gate, Sentence("at the close: {said}", said=phrase(about(gate))), "", reason)
        for gate, reason in reasons.items()
        if gate not in now
    ]
    is_answered = close is not None and bool(reasons)
    who, when = (close.who, Moment(close.when)) if close is not None and is_answered else ("", "")
    return PeriodGates(shown, kept, quiet, who, when)


def estimates_said(found: PeriodGates | None) -> dict[str, str]:
    """Return what is said of the estimates of a period, by their streams."""
    stops = found.stops if found is not None else []
    return {stop.names[0]: said_of_stop(stop) for stop in stops if stop.gate is Gate.ESTIMATED}


def with_gates(statement: Statement, gates: Mapping[str, PeriodGates]) -> Statement:
    """Return a statement whose verdict says, too, what can't be or was hardly measured."""
    found = gates.get(statement.period)
    stops = [] if found is None else [stop for stop in found.stops if stop.gate in _SAYS_MORE]
    if not stops or not statement.is_of_period:
        return statement
    sentences: list[str] = [Sentence("{said}.", said=said_of_stop(stop)) for stop in stops[:_MOST]]
    if len(stops) > _MOST:
        sentences.append(Sentence("{count} more are below.", count=len(stops) - _MOST))
    name = next((stop.of[0] for stop in stops if stop.of), "")
    at = Sentence("look at {name}", name=name) if name else Sentence("look at the readings")
    return replace(statement, verdict=statement.verdict.but(at, sentences))


def without_gates(findings: Iterable[Finding]) -> list[Finding]:
    """Return the findings of lint that aren't shown as gates."""
    words = {gate.value for gate in (*_SAYS_MORE, Gate.ESTIMATED)}
    return [each for each in findings if each.code not in words]
