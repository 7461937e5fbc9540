"""Tables of what is diagnosed: balances that don't close, holes with their days, what isn't seen."""

from __future__ import annotations

from collections.abc import Iterator, Sequence

from plantbal.amounts import tonnes_of
from plantbal.diagnosis import words
from plantbal.diagnosis.days import Days
from plantbal.diagnosis.diagnose import Diagnosis, diagnosis_of
from plantbal.diagnosis.kept import session_of_days
from plantbal.faults import Fault
from plantbal.model.forms import day_text
from plantbal.model.ledger import Ledger, Seen
from plantbal.report.blocks import Block

Row = tuple[str, ...]
HEADS: dict[str, Row] = {
    "balances": ("period", "nodes", "in less out", "deviations", "percents"),
    "holes": ("period", "hole", "one of", "t", "±", "deviations", "days", "finding"),
    "unseen": ("period", "measurement", "too much", "too little", "rests on it"),
}
# How few standard deviations of a balance still count as closed.
_CLOSED = 2.0


def diagnoses(
    blocks: Sequence[Block], ledger: Ledger | None = None
) -> Iterator[tuple[Block, Diagnosis]]:
    """Give the first round of the last report of each period, window or balance, and what there is
    to say of it.

    Parameters
    ----------
    blocks : sequence of Block
        The rounds of an output.
    ledger : Ledger, optional
        The session, for tickets, dips and days.
    """
    last = {block.subject: block for block in blocks if block.round == 0}
    asked: dict[str, Seen] = {seen.subject: seen for seen in ledger.seen} if ledger else {}
    for subject, block in last.items():
        yield block, diagnosis_of(block, ledger, asked.get(subject))


def diagnosis_rows(what: str, blocks: Sequence[Block], ledger: Ledger | None) -> Iterator[Row]:
    """Give the rows of a table, its head the first."""
    yield HEADS[what]
    make = {"balances": _balances, "holes": _holes, "unseen": _unseen}[what]
    for block, diagnosis in diagnoses(blocks, ledger):
        yield from make(block, diagnosis)


def _amount(grams: float | None) -> str:
    return "" if grams is None else f"{tonnes_of(round(grams)):f}"


def _balances(block: Block, diagnosis: Diagnosis) -> Iterator[Row]:
    for each in diagnosis.balances:
        if abs(each.deviations) >= _CLOSED:
            nodes = " ".join(map(block.shown, each.nodes))
            parts = sorted(each.percents().items(), key=lambda part: part[1])
            percents = " ".join(f"{block.shown(name)}:{part:.2f}" for name, part in parts)
            sure = f"{each.deviations:.2f}"
            yield block.subject, nodes, _amount(each.grams), sure, percents


def _holes(block: Block, diagnosis: Diagnosis) -> Iterator[Row]:
    for number, told in enumerate(diagnosis.holes, 1):
        names = " ".join(map(block.shown, told.names))
        best = told.best
        size, deviation = (
            (abs(told.hole.size), told.hole.deviation)
            if best is None
            else (abs(best.error), best.deviation)
        )
        amounts = _amount(size), _amount(deviation), f"{told.hole.deviations:.2f}"
        days = words.finding_days(best) if best else ""
        said = words.candidate_said(best.candidate, block.shown, dated=False) if best else ""
        yield block.subject, str(number), names, *amounts, days, said


def _unseen(block: Block, diagnosis: Diagnosis) -> Iterator[Row]:
    for each in diagnosis.unchecked:
        rests = " ".join(map(block.shown, each.carries))
        most, least = _amount(each.most), _amount(each.least)
        yield block.subject, block.shown(each.name), most, least, rests


def days_kept(ledger: Ledger) -> str:
    """Return the session of the days of the last report that a session asks for.

    Raises
    ------
    Fault
        If it asks for none.
    """
    reports = [seen for seen in ledger.seen if seen.is_report]
    if not reports:
        raise Fault("the session asks for no report", remedy="add a row report,PERIOD")
    seen = reports[-1]
    tanks = [each.arc.name for each in seen.view.streams if each.kind == "tank"]
    spans = Days(ledger.state, seen.view).spans(tanks)
    if len(spans) < 2:
        first, last = day_text(seen.period.first), day_text(seen.period.last)
        what = f"the tanks have no dips between {first} and {last} on a day that all are dipped"
        raise Fault(what, remedy="dip all tanks on a day within the period")
    return session_of_days(ledger, seen, spans)
