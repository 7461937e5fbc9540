"""What is diagnosed of a report, as the templates show it."""

from __future__ import annotations

from collections.abc import Iterable, Iterator
from decimal import Decimal
from math import isqrt

from plantbal.amounts import tonnes_of, tonnes_text
from plantbal.diagnosis import words
from plantbal.diagnosis.balances import Balance
from plantbal.diagnosis.diagnose import DiagnosedHole
from plantbal.diagnosis.unseen import Unchecked
from plantbal.page.statement import ShownReport, Statement
from plantbal.sentence import Figure, Joined, Sentence

# How many balances that don't close are shown.
MOST_BALANCES = 8
# A balance that is off by fewer standard deviations closes, as far as anybody can say.
LEAST = 2.0


def open_balances(report: ShownReport) -> list[Balance]:
    """Return the balances of a report that don't close, the worst first."""
    some = report.diagnosis.balances if report.diagnosis else ()
    return [each for each in some if abs(each.deviations) >= LEAST][:MOST_BALANCES]


def holes(report: ShownReport) -> tuple[DiagnosedHole, ...]:
    """Return the holes of a report."""
    return report.diagnosis.holes if report.diagnosis else ()


def unchecked(report: ShownReport) -> tuple[Unchecked, ...]:
    """Return what nothing checks, if there is a report with tests."""
    last = report.last
    if report.diagnosis is None or last is None or last.block.whole is None:
        return ()
    return report.diagnosis.unchecked


def shown_by(report: ShownReport) -> words.Shown:
    """Return what shows a name: of a window a code as it is declared."""
    return report.last.block.shown if report.last else words.same


def told(each: DiagnosedHole, report: ShownReport) -> list[str]:
    """Return the sentences on a hole after its set."""
    return list(words.told_said(each, shown_by(report)))[1:]


def percents(balance: Balance, report: ShownReport) -> str:
    """Return what a balance is off by in percent of each stream through it."""
    shown = shown_by(report)
    some = sorted(balance.percents().items(), key=lambda each: each[1])
    parts = [
        Sentence("{name} {percent}", name=shown(name), percent=words.percent_text(part))
        for name, part in some
    ]
    first, more = Joined(", ", parts[: words.MOST_THROUGH]), len(parts) - words.MOST_THROUGH
    return Sentence("{names} and {count} more", names=first, count=more) if more > 0 else first


SHEET = ("period", "what", "where", "amount, t", "±, t", "in sd", "days", "in words")


def sheet(statements: Iterable[Statement]) -> list[tuple[str | float | Decimal | None, ...]]:
    """Return the rows of what is diagnosed of periods, for a workbook."""
    return [row for each in statements for row in _rows(each.period, each.report)]


def _rows(period: str, report: ShownReport) -> Iterator[tuple[str | float | Decimal | None, ...]]:
    shown = shown_by(report)
    for balance in open_balances(report):
        sure = tonnes_of(isqrt(balance.variance))
        where = words.nodes_said(balance.nodes, shown)
        amounts = tonnes_of(balance.grams), sure, balance.deviations
        yield period, "doesn't close", where, *amounts, None, percents(balance, report)
    for hole in holes(report):
        where, best = words.choice_said([shown(name) for name in hole.names]), hole.best
        amounts = _whole(hole.hole.size), _whole(hole.hole.deviation), hole.hole.deviations
        days = words.finding_days(best) if best else None
        yield period, "one of", where, *amounts, days, words.hole_said(hole.hole, shown, hole.units)
        for line in told(hole, report):
            yield period, "what it may be", where, None, None, None, None, line
    for each in unchecked(report):
        said = words.unchecked_said(each, shown)
        yield period, "nothing checks", shown(each.name), None, None, None, None, said


def _whole(grams: float) -> Decimal:
    return tonnes_of(round(abs(grams)))


FILTERS = {
    "open_balances": open_balances,
    "holes": holes,
    "unchecked": unchecked,
    "told": told,
    "percents": percents,
    "set_said": lambda each, report: words.set_said(each.names, shown_by(report)),
    "hole_said": lambda each, report: words.hole_said(each.hole, shown_by(report), each.units),
    "nodes_said": lambda each, report: words.nodes_said(each.nodes, shown_by(report)),
    "unchecked_said": lambda each, report: words.unchecked_said(each, shown_by(report)),
    "net": lambda balance: Figure(("+" if balance.grams > 0 else "") + tonnes_text(balance.grams)),
}
