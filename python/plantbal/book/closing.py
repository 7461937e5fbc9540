"""Closes a period with its report, unless something about it has to be looked at first."""

from __future__ import annotations

from collections.abc import Mapping, Sequence
from dataclasses import dataclass
from fractions import Fraction
from typing import TypedDict

from plantbal.audit.believed import program_digest
from plantbal.book.approval import submitting as submission
from plantbal.book.approval.guard import wants_of
from plantbal.book.approval.rules import Rules, Want
from plantbal.book.approval.state import rules_of
from plantbal.book.answers import checked_reason, quieted, reason_cells, stopped_said
from plantbal.book.forms import report_file
from plantbal.book.meters import read_meters
from plantbal.book.remedies import BookRemedy
from plantbal.book.reporting import report_of, stops_in, write_and_keep
from plantbal.book.results import Closed, Reported
from plantbal.book.rounds import settled
from plantbal.book.said import lacks, unassayed
from plantbal.book.store import Act, Action, Store
from plantbal.book.years import Years
from plantbal.faults import Fault
from plantbal.gates import Gate, Stop, about
from plantbal.program import RunSettings
from plantbal.sentence import Phrase, Sentence


class NotClosed(Fault):
    """A period that isn't closed, since something has to be looked at before it is booked.

    Attributes
    ----------
    report : Reported
        The report, which isn't kept.
    unanswered : tuple of Gate
        The gates for which there is no reason.
    """

    def __init__(self, report: Reported, unanswered: Sequence[Gate]) -> None:
        why, words = stopped_said(report.stops, unanswered)
        what = Sentence("{period} isn't closed: {why}", period=report.period, why=why)
        super().__init__(what, remedy=BookRemedy.CLOSE_ANYWAY(words=words).sentence)
        self.report = report
        self.unanswered = tuple(unanswered)


def close(
    book: Store,
    name: str,
    *,
    anyway: Mapping[Gate, str],
    settings: RunSettings = RunSettings(),
    who: str = "",
) -> Closed:
    """Close a period; the parameters are those of `plantbal.Book.close`."""
    with book.opened():
        found = prepared(book, name, anyway=anyway, settings=settings, who=who)
        if found is None:
            return Closed(name, None)
        book.do(found.action)
        return Closed(name, found.report, book.head, found.reasons)


def submit(
    book: Store,
    name: str,
    *,
    anyway: Mapping[Gate, str],
    settings: RunSettings = RunSettings(),
    who: str = "",
) -> Closed:
    """Submit the close of a period; the parameters are those of `plantbal.Book.submit`."""
    with book.opened():
        found = prepared(book, name, anyway=anyway, settings=settings, who=who)
        if found is None:
            return Closed(name, None)
        done = submission.submit_action(book, *_submitted(book, found), **_about(found))
        return Closed(name, found.report, done.head, found.reasons)


def close_to_sign(
    book: Store,
    name: str,
    *,
    anyway: Mapping[Gate, str],
    settings: RunSettings = RunSettings(),
    who: str = "",
) -> str:
    """Return what the submission of a close signs; the parameters are those of `Book.submit`."""
    with book.opened(reading=True):
        found = prepared(book, name, anyway=anyway, settings=settings, who=who)
        if found is None:
            what = Sentence("{name} is closed already", name=name)
            raise Fault(what, remedy="there is nothing to sign")
        return submission.submission_to_sign(book, *_submitted(book, found), **_about(found))


def _submitted(book: Store, found: PreparedClose) -> tuple[Action, list[Want]]:
    """Return the action of a close as it is submitted, with its report, and why it has to wait."""
    found.action.written[report_file(found.report.period)] = found.text
    wants = list(wants_of(book, found.action, rules_of(book) or Rules()))
    return found.action, wants or [Want.CLOSE]


def _about(found: PreparedClose) -> _About:
    return {"periods": [found.report.period], "reasons": found.reasons, "settings": found.settings}


class _About(TypedDict):
    """What a submission says of a close beside its action."""

    periods: Sequence[str]
    reasons: Mapping[Gate, str]
    settings: RunSettings


def closing(book: Store, name: str, settings: RunSettings = RunSettings()) -> Reported | None:
    """Return what a close would say; the parameters are those of `plantbal.Book.closing`."""
    with book.opened(reading=True):
        every = {gate: about(gate) for gate in Gate}
        found = prepared(book, name, anyway=every, settings=settings, who="")
    return found.report if found is not None else None


@dataclass(frozen=True)
class PreparedClose:
    """A close that has yet to be done.

    Attributes
    ----------
    action : Action
        The action.
    report : Reported
        The report with which the period is closed.
    reasons : mapping of Gate to str
        The reason for each gate.
    text : str
        The report as the program writes it.
    settings : RunSettings
        How its session was run, with a number of rounds.
    """

    action: Action
    report: Reported
    reasons: Mapping[Gate, str]
    text: str
    settings: RunSettings


def prepared(
    book: Store, name: str, *, anyway: Mapping[Gate, str], settings: RunSettings, who: str
) -> PreparedClose | None:
    """Return the close of a period, which isn't done; None if it is closed.

    Raises
    ------
    NotClosed
        If there is no reason for a gate.
    """
    ledger = Years(book).of_period(name)
    if ledger.periods[name].closed:
        return None
    missing = lacks(ledger, ledger.periods[name], read_meters(book))
    owed = unassayed(ledger, ledger.periods[name])
    ledger.put("close", name)
    text = book.text(f"{ledger.name}.csv") + ledger.added_text()
    components = ledger.session.components_in(name)
    how = settled(book, report_file(name), settings)
    written, output = report_of(how, text, name, components)
    stops = stops_in(text, name, output, quieted(book.journal()))
    stops += [Stop(Gate.UNASSAYED, name, subject=line) for line in owed]
    path = book.path(report_file(name))
    report = Reported(name, output, path, True, tuple(missing), tuple(stops))
    gates = sorted({stop.gate for stop in stops}, key=list(Gate).index)
    unanswered = [gate for gate in gates if gate not in anyway]
    if unanswered:
        raise NotClosed(report, unanswered)
    reasons = {gate: checked_reason(anyway[gate]) for gate in gates}
    what, why = reason_cells(reasons)
    action = Action(Act.CLOSE, name, what, why, who, program_digest(how.program))
    action.anyway = any(gate is not Gate.ESTIMATED for gate in gates)
    action.estimated = estimated_part(report)
    action.add(ledger)
    write_and_keep(book, action, ledger, name, written, closed=False)
    return PreparedClose(action, report, reasons, written, how)


def estimated_part(report: Reported) -> Fraction:
    """Return the greatest part of a stream's flow that is estimated; a flow of 0 is all of it."""
    blocks = report.output.reports
    rows = blocks[-1].streams if blocks else []
    flows = {row["name"]: abs(int(row["flow"])) for row in rows}
    parts = [Fraction(0)]
    for stop in report.stops:
        if stop.gate is Gate.ESTIMATED:
            grams, flow = abs(stop.values["grams"]), flows.get(stop.names[0], 0)
            parts.append(Fraction(grams, flow) if flow else Fraction(1))
    return max(parts)


def unneeded(given: Mapping[Gate, str], found: Closed) -> list[str]:
    """Return which reasons a close didn't need, in sentences."""
    form = "{period}: the reason for {gate} isn't kept: it isn't so that {about}"
    return [
        Sentence(form, period=found.period, gate=gate.value, about=Phrase(about(gate)))
        for gate in given
        if gate not in found.reasons
    ]
