"""A round of a report diagnosed: what doesn't close, where, how much, since when, and what isn't
seen."""

from __future__ import annotations

from collections.abc import Iterable, Mapping
from dataclasses import dataclass, field, replace
from typing import TYPE_CHECKING

from plantbal.diagnosis.balances import Balance, Balances
from plantbal.diagnosis.candidates import Candidate, ErrorKind, candidates_of
from plantbal.diagnosis.days import Days, Series, Span
from plantbal.diagnosis.evidence import Evidence
from plantbal.diagnosis.findings import AS_GOOD, HoleFinding, findings_of
from plantbal.diagnosis.gross import LEVEL, Hole, Limits, holes_of
from plantbal.diagnosis.running import Overrun, overruns
from plantbal.diagnosis.unseen import Unchecked, unchecked_of
from plantbal.model.ledger import Ledger, Seen
from plantbal.report.blocks import Block
from plantbal.model.studies import study_of

if TYPE_CHECKING:
    from plantbal.accounts.sheet import SalesUnit

# The level that is taken of critical values beyond all sense.
_LEVELS = 1e-9, 0.5


@dataclass(frozen=True, slots=True)
class DiagnosedHole:
    """A hole with what it may be.

    Attributes
    ----------
    hole : Hole
        The hole.
    names : tuple of str
        The measurements that may have the error, the least unlikely first.
    candidates : tuple of Candidate
        What it may be by the month alone, the least unlikely first.
    findings : tuple of HoleFinding
        What fits the days, the best first; none if the days aren't known.
    since : Span or None
        The first days whose own test of the set rejects.
    overruns : tuple of Overrun
        The days by which a tank's running content can't be, if it isn't dipped within the month.
    units : mapping of str to SalesUnit
        In what streams and tanks are sold, of those that aren't sold by the tonne.
    """

    hole: Hole
    names: tuple[str, ...]
    candidates: tuple[Candidate, ...] = ()
    findings: tuple[HoleFinding, ...] = ()
    since: Span | None = None
    overruns: tuple[Overrun, ...] = ()
    units: Mapping[str, SalesUnit] = field(default_factory=dict)

    @property
    def best(self) -> HoleFinding | None:
        """What fits the days best, if the days are known."""
        return self.findings[0] if self.findings else None


@dataclass(frozen=True, slots=True)
class Diagnosis:
    """What there is to say of a round beside its flows.

    Attributes
    ----------
    subject : str
        The period, window or balance.
    balances : tuple of Balance
        What doesn't close, the worst first.
    holes : tuple of DiagnosedHole
        The errors that the tests tell, in the order in which they are found; none unless the
        global test rejects.
    unchecked : tuple of Unchecked
        The measurements that nothing checks.
    """

    subject: str
    balances: tuple[Balance, ...]
    holes: tuple[DiagnosedHole, ...]
    unchecked: tuple[Unchecked, ...]

    def sold_in(self, units: Mapping[str, SalesUnit]) -> Diagnosis:
        """Return the same with the units in which streams and tanks are sold."""
        return replace(self, holes=tuple(replace(told, units=units) for told in self.holes))


def limits_of(block: Block) -> Limits:
    """Return the critical values of a round: the level of its global test serves all others."""
    from scipy.special import chdtrc

    level, measure = LEVEL, 0.0
    if block.whole is not None and block.whole["critical"] and block.solved is not None:
        critical, freedom = int(block.whole["critical"]) / 1000, int(block.solved["dof"])
        level = min(max(float(chdtrc(max(1, freedom), critical)), _LEVELS[0]), _LEVELS[1])
    values = [row["critical"] for row in block.measure if row["critical"]]
    if values:
        measure = int(values[0]) / 1000
    return Limits(level, measure)


def diagnosis_of(block: Block, ledger: Ledger | None = None, seen: Seen | None = None) -> Diagnosis:
    """Return what there is to say of a round.

    Parameters
    ----------
    block : Block
        The first round of a report, of a window or of a balance.
    ledger : Ledger, optional
        The session. With it tickets, dips and days are looked at.
    seen : Seen, optional
        The row of the session that asks for the report.
    """
    if not block.ended or block.solved is None:
        return Diagnosis(block.subject, (), (), ())
    balances = Balances.of_block(block)
    rejected = block.whole is not None and block.whole["verdict"] == "reject"
    limits = limits_of(block)
    told: Iterable[DiagnosedHole] = ()
    if rejected:
        holes = holes_of(balances, limits)
        told = told_holes(holes, limits, *_facts_of(block, ledger, seen))
    ranked = balances.ranked() if rejected else []
    return Diagnosis(block.subject, tuple(ranked), tuple(told), tuple(unchecked_of(block)))


def _facts_of(
    block: Block, ledger: Ledger | None, seen: Seen | None
) -> tuple[Evidence | None, Days | None]:
    """Return the facts of a report, and its days if no row has changed them since it was asked."""
    if ledger is None or seen is None or not seen.is_report or not block.is_report:
        return None, None
    found = study_of(ledger.state, seen).streams
    if any(str(found[row["name"]].value or 0) != (row["value"] or "0") for row in block.streams):
        return None, None
    days = Days(ledger.state, seen.view)
    period = seen.period
    _, now = days.measured(Span(period.first, period.last))
    same = all(now[name].value == each.value for name, each in found.items() if name in now)
    return Evidence(ledger.state, seen.view), days if same else None


def told_holes(
    holes: list[Hole], limits: Limits, evidence: Evidence | None, days: Days | None
) -> Iterable[DiagnosedHole]:
    """Give what is told of the holes of a period, in their order.

    Parameters
    ----------
    holes : list of Hole
        The holes.
    limits : Limits
        The critical values.
    evidence : Evidence or None
        The facts of the period.
    days : Days or None
        Its days.
    """
    every = {name for hole in holes for name in hole.names}
    for hole in holes:
        others = every - set(hole.names)
        found = diagnosed_hole(hole, others, limits, evidence, days)
        rivals = [diagnosed_hole(each, others, limits, evidence, days) for each in hole.rivals]
        yield _by_days(found, rivals)


def _by_days(found: DiagnosedHole, rivals: list[DiagnosedHole]) -> DiagnosedHole:
    """Return that of a hole and its rivals which fits the days best; the others are its rivals.

    The month alone can hardly tell them apart, and the days often can.
    """
    best = max([found, *rivals], key=_score)
    if best is found or _score(best) < _score(found) + AS_GOOD:
        return found
    others = (found.hole, *(each.hole for each in rivals if each is not best))
    return replace(best, hole=replace(best.hole, rivals=others))


def _score(told: DiagnosedHole) -> float:
    return told.best.score if told.best is not None else float("-inf")


def diagnosed_hole(
    hole: Hole,
    others: set[str],
    limits: Limits,
    evidence: Evidence | None,
    days: Days | None,
) -> DiagnosedHole:
    """Return a hole with what it may be.

    Parameters
    ----------
    hole : Hole
        The hole.
    others : set of str
        The measurements of the other holes.
    limits : Limits
        The critical values.
    evidence : Evidence or None
        The facts of the period.
    days : Days or None
        Its days.
    """
    if evidence is None:
        return DiagnosedHole(hole, _by_error(hole))
    some = [
        candidate
        for member in hole.equals.members
        for candidate in candidates_of(member, hole.error_of(member.name), hole.deviation, evidence)
    ]
    some.sort(key=lambda each: each.cost)
    order = [each.name for each in some]
    forgotten = Candidate(ErrorKind.FORGOTTEN, "", hole.size, 0.0)
    findings: list[HoleFinding] = []
    since, beyond = None, list[Overrun]()
    if days is not None:
        series = days.series(hole, others)
        findings = _findings(series, hole, evidence)
        since = series.first_rejected(limits) if findings else None
        if not findings:
            beyond = overruns(days, [each.name for each in hole.equals.members if each.is_tank])
    order = [each.name for each in findings if each.name] + order + list(_by_error(hole))
    names = tuple(name for name in dict.fromkeys(order) if name)
    return DiagnosedHole(hole, names, (*some, forgotten), tuple(findings), since, tuple(beyond))


def _findings(series: Series, hole: Hole, evidence: Evidence) -> list[HoleFinding]:
    return findings_of(series, hole.equals.members, hole.signs, evidence)


def _by_error(hole: Hole) -> tuple[str, ...]:
    """Return the members of a hole, that first whose own error it is the least part of."""
    members = sorted(hole.equals.members, key=lambda each: (-each.variance, each.name))
    return tuple(each.name for each in members)
