"""Which measurement of a set of equals, which day and which mistake fit the days best."""

from __future__ import annotations

from collections.abc import Iterator
from dataclasses import dataclass, replace
from enum import Enum

from plantbal.diagnosis.balances import Measurement
from plantbal.diagnosis.candidates import (
    NEAR,
    Candidate,
    ErrorKind,
    UnitMistake,
    amount_cost,
    level_candidates,
    units_of,
)
from plantbal.diagnosis.days import (
    Course,
    Fit,
    Series,
    Span,
    at_the_ends,
    fits_of,
    for_some_days,
    free_on,
    from_a_day_on,
    one_day,
)
from plantbal.diagnosis.evidence import Evidence
from plantbal.model.facts import Fact

# What a mistake costs: another unit, a run of days, a table, a stream that was left out.
_UNIT, _RUN, _TABLE, _FORGOTTEN = 3.0, 6.0, 12.0, 14.0
# What each repeated reading speaks for a frozen meter, and all of them together at the most.
_REPEATED, _FROZEN = 4.0, -20.0
# A meter drifts by some percent; more is unlikely, and this is the most that it costs.
_PERCENT, _MOST = 4.0, 30.0
# Findings whose score falls short of the best one's by less than this are possible too.
AS_GOOD = 3.0


class Pattern(Enum):
    """How an error goes over the days."""

    ONE_DAY = "one day"
    SOME_DAYS = "some days"
    FROM_A_DAY_ON = "from a day on"
    ALL_DAYS = "all days"


@dataclass(frozen=True, slots=True)
class HoleFinding:
    """What fits the days of a hole.

    Attributes
    ----------
    name : str
        The stream or tank; nothing if it is a stream that the plant doesn't have.
    pattern : Pattern
        How the error goes over the days.
    first, last : int
        The numbers of its first and its last day.
    error, deviation : float
        By how many grams the value of the month is too high, and the standard deviation of it.
    percent : float or None
        By how much a meter is too high from the first day on, in percent of what is true.
    candidate : Candidate
        What it may be.
    score : float
        A logarithm of how well it fits: they compare with each other.
    drop : float
        What the weighted squares of the days fall by.
    """

    name: str
    pattern: Pattern
    first: int
    last: int
    error: float
    deviation: float
    percent: float | None
    candidate: Candidate
    score: float
    drop: float


def findings_of(
    series: Series, members: tuple[Measurement, ...], signs: dict[str, int], evidence: Evidence
) -> list[HoleFinding]:
    """Return what fits the days of a hole, for each measurement its best, the best one first.

    Parameters
    ----------
    series : Series
        The sizes of the hole by days.
    members : tuple of Measurement
        The set of equals.
    signs : dict of str to int
        For each of them 1 if it leads from the first side of the hole to the second, and else -1.
    evidence : Evidence
        The facts of the period.
    """
    if len(series.spans) < 2:
        return []
    best = []
    for member in members:
        some = list(_of_member(series, member, signs[member.name], evidence))
        if some:
            best.append(max(some, key=lambda each: each.score))
    forgotten = list(_forgotten(series))
    if forgotten:
        best.append(max(forgotten, key=lambda each: each.score))
    return sorted(best, key=lambda each: -each.score)


def _of_member(
    series: Series, member: Measurement, sign: int, evidence: Evidence
) -> Iterator[HoleFinding]:
    kind = evidence.kind(member.name)
    if kind == "tank":
        yield from _of_tank(series, member.name, sign, evidence)
        return
    count = len(series.spans)
    for fit in fits_of(series, one_day(count), sign):
        span = series.spans[fit.course.first]
        make = _ticket if kind == "batch" else _reading
        candidate = make(member.name, span, fit, evidence)
        yield _finding(series, member.name, Pattern.ONE_DAY, fit, candidate)
    yield from _of_ratio(series, member, sign, evidence)
    repeats = evidence.repeats(member.name)
    for fit in free_on(series, repeats, sign):
        # readings to the gram don't repeat themselves by chance, unless they do so all the time
        days = fit.course.last - fit.course.first
        cost = max(_FROZEN, -_REPEATED * days) if len(repeats) == 1 else 0.0
        candidate = Candidate(ErrorKind.FROZEN, member.name, fit.total, cost)
        yield _finding(series, member.name, Pattern.SOME_DAYS, fit, candidate)
    for fit in _few(fits_of(series, for_some_days(count), sign)):
        candidate = Candidate(ErrorKind.READING, member.name, fit.total, _RUN)
        yield _finding(series, member.name, Pattern.SOME_DAYS, fit, candidate)


def _few(fits: list[Fit]) -> list[Fit]:
    """Return the best of many fits."""
    return sorted(fits, key=lambda fit: -fit.gain)[:1]


def _finding(
    series: Series,
    name: str,
    pattern: Pattern,
    fit: Fit,
    candidate: Candidate,
    percent: float | None = None,
) -> HoleFinding:
    spans = series.spans
    return HoleFinding(
        name,
        pattern,
        spans[fit.course.first].first,
        spans[fit.course.last].last,
        fit.total,
        fit.total_deviation,
        percent,
        candidate,
        fit.gain - candidate.cost,
        fit.drop,
    )


# ---- one day


def _on(evidence: Evidence, name: str, span: Span) -> list[Fact]:
    return [f for f in evidence.facts(name) if f.first <= span.last and span.first <= f.last]


def _reading(name: str, span: Span, fit: Fit, evidence: Evidence) -> Candidate:
    """Return what an error of a meter on one day may be."""
    error, deviation = fit.total, fit.total_deviation
    facts = _on(evidence, name, span)
    others = [fact.grams for fact in evidence.facts(name) if fact not in facts]
    if len(facts) != 1:
        return Candidate(ErrorKind.READING, name, error, _RUN)
    fact = facts[0]
    cost = 1 + amount_cost(fact.grams - error, deviation, others)
    unit = unit_mistake(name, fact.grams, error, deviation, evidence)
    cost = min(cost, _UNIT) if unit else cost
    return Candidate(ErrorKind.READING, name, error, cost, fact=fact, unit=unit)


def _ticket(name: str, span: Span, fit: Fit, evidence: Evidence) -> Candidate:
    """Return what an error of tickets on one day may be."""
    error, deviation = fit.total, fit.total_deviation
    facts = _on(evidence, name, span)
    amounts = [fact.grams for fact in evidence.facts(name) if fact not in facts]
    found = []
    if error < 0:
        cost = amount_cost(-error, deviation, amounts or [fact.grams for fact in facts])
        alike = _alike(-error, deviation, evidence)
        found.append(Candidate(ErrorKind.MISSING, name, error, cost, alike=alike))
    same = [fact for fact in facts if abs(evidence.amount(fact) - error) <= NEAR * deviation]
    if error > 0 and same:
        twins = [fact for fact in facts if fact.grams == same[0].grams]
        cost = 0.0 if len(twins) > 1 else 2.0
        found.append(Candidate(ErrorKind.TWICE, name, error, cost, alike=tuple(twins)))
    for fact in facts:
        grams = evidence.amount(fact)
        unit = unit_mistake(name, grams, error, deviation, evidence)
        cost = 1 + amount_cost(grams - error, deviation, amounts)
        cost = min(cost, _UNIT) if unit else cost
        found.append(Candidate(ErrorKind.TICKET, name, error, cost, fact=fact, unit=unit))
    if not found:
        return Candidate(ErrorKind.TICKET, name, error, _MOST)
    return min(found, key=lambda each: each.cost)


def _alike(grams: float, deviation: float, evidence: Evidence) -> tuple[Fact, ...]:
    """Return the booked tickets of nearly an amount, the nearest first."""
    near = [f for f in evidence.tickets() if abs(f.grams - grams) <= NEAR * deviation]
    return tuple(sorted(near, key=lambda fact: abs(fact.grams - grams))[:3])


def unit_mistake(
    name: str, grams: float, error: float, deviation: float, evidence: Evidence
) -> UnitMistake | None:
    """Return the unit that explains an error of an amount best, or None."""
    if abs(error) <= 2 * NEAR * deviation:
        return None
    some = [(abs(grams * (1 - unit.factor) - error), unit) for unit in units_of(name, evidence)]
    off, unit = min(some, key=lambda each: each[0])
    return unit if off <= NEAR * deviation else None


# ---- from a day on


def _of_ratio(
    series: Series, member: Measurement, sign: int, evidence: Evidence
) -> Iterator[HoleFinding]:
    """Give what an error in proportion to the values may be, from each day on."""
    name, values = member.name, series.values[member.name]
    for fit in fits_of(series, from_a_day_on(values), sign):
        left = 1 - fit.factor  # true by measured
        percent = 100 * fit.factor / left if left > 0 else None
        cost = _MOST if percent is None else min(_MOST, (percent / _PERCENT) ** 2 / 2)
        amount = float(fit.course.shape.sum())
        unit = unit_mistake(name, amount, fit.total, fit.total_deviation, evidence)
        kind = ErrorKind.METER if evidence.kind(name) == "metered" else ErrorKind.TICKET
        if abs(left + 1) * amount <= NEAR * fit.total_deviation:
            kind, unit, cost = ErrorKind.REVERSED, None, _UNIT
        elif unit is not None and cost > _UNIT:
            kind, cost = ErrorKind.UNIT, _UNIT
        else:
            unit = None
            cost += 0.0 if kind is ErrorKind.METER else _RUN
        candidate = Candidate(kind, name, fit.total, cost, percent=percent, unit=unit)
        pattern = Pattern.FROM_A_DAY_ON if fit.course.first else Pattern.ALL_DAYS
        yield _finding(series, name, pattern, fit, candidate, percent)


# ---- tanks


def _of_tank(series: Series, tank: str, sign: int, evidence: Evidence) -> Iterator[HoleFinding]:
    """Give what an error of the dips at the ends of a period, or of the table, may be."""
    levels = {level.is_closing: level for level in evidence.levels(tank)}
    ends = at_the_ends(len(series.spans))
    for fit in fits_of(series, ends, sign):
        is_closing = fit.course is ends[1]
        level = levels.get(is_closing)
        if level is None:
            continue
        some = list(level_candidates(level, fit.factor, fit.deviation, evidence))
        if some:
            candidate = replace(min(some, key=lambda each: each.cost), error=fit.total)
            found = _finding(series, tank, Pattern.ONE_DAY, fit, candidate)
            yield replace(found, first=level.fact.first, last=level.fact.first)
    values = series.values[tank]
    for fit in fits_of(series, [Course(0, len(values) - 1, values, 1)] if values.any() else []):
        candidate = Candidate(ErrorKind.LEVEL, tank, sign * fit.total, _TABLE)
        found = _finding(series, tank, Pattern.ALL_DAYS, fit, candidate)
        yield replace(found, error=sign * found.error)


# ---- a stream that the plant doesn't have


def _forgotten(series: Series) -> Iterator[HoleFinding]:
    """Give how much a stream would carry that the plant doesn't have, from the first side on.

    Too much leads there by the measurements, so it leads the other way.
    """
    import numpy

    courses = list(from_a_day_on(numpy.ones(len(series.spans))))
    for fit in fits_of(series, courses):
        candidate = Candidate(ErrorKind.FORGOTTEN, "", fit.total, _FORGOTTEN)
        pattern = Pattern.FROM_A_DAY_ON if fit.course.first else Pattern.ALL_DAYS
        yield _finding(series, "", pattern, fit, candidate)
