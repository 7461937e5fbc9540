"""Dips that a tank hardly had: outside its usual range, or away from where its other dips lead.

Only the dips at the ends of a period count in its report; those between say what is usual. The flow
that no meter and no ticket of a tank measures is, on each step from dip to dip, the change of its
content less what was measured. If the steps at the ends ask for another such flow than all steps
between, the dip at that end is doubtful. This needs no test, so it sees a tank that nothing checks.
"""

from __future__ import annotations

from collections.abc import Iterator
from dataclasses import dataclass
from math import isqrt
from statistics import median_low

from plantbal.gates.gate import Gate, Stop
from plantbal.gates.look import Look
from plantbal.model.facts import Fact
from plantbal.model.periods import Period
from plantbal.model.studies import share

# A level is outside the usual range if it is this many times above it, or this part below it.
TIMES = 10
# Fewer other dips say nothing of what is usual.
FEWEST = 3
# A step differs from the others if it is this many times as far from their middle as any of them,
# this many standard deviations, and this part of a full tank.
FARTHER, DEVIATIONS, PART_OF_TANK = 3, 6, 10
FEWEST_STEPS = 5
# A difference of levels below this part of the table's top does no harm.
SMALL_PART = 20
# A dip is beside another one if it is at most this many days away.
NEAR = 3


def odd_dips(look: Look) -> Iterator[Stop]:
    """Give the dips at the ends of a period that its tank hardly had."""
    for tank, (opening, closing) in look.view.dips.items():
        dips = look.facts.dips.get(tank, [])
        for dip in (opening, closing):
            if dip is None or _at_service_end(look, dip):
                continue
            stop = _outside(look, dip, dips) or _jump(look, dip, dips)
            if stop is not None:
                yield stop


def _at_service_end(look: Look, dip: Fact) -> bool:
    """Say whether a dip is the first or the last of its tank's service: it may be empty then."""
    service = look.state.plant.service(dip.of)
    return service is not None and dip.first in (service[0] - 1, service[1])


# ---- the range


def _outside(look: Look, dip: Fact, dips: list[Fact]) -> Stop | None:
    """Return that a level is outside the range of the others, and no booked flow leads to it."""
    begin = min(dip.first, look.period.first)
    earlier = [each for each in dips if each.first < begin]
    others = earlier if len(earlier) >= FEWEST else [each for each in dips if each is not dip]
    if len(others) < FEWEST:
        return None
    low, high = min(each.mm for each in others), max(each.mm for each in others)
    if not _is_beyond(dip, low, high) or _is_explained(look, dip, dips, low, high):
        return None
    top = look.state.plant.tables[dip.of][-1][0]
    if abs(dip.mm - (high if dip.mm > high else low)) * SMALL_PART < top:
        return None
    values = {"mm": dip.mm, "low": low, "high": high, "dips": len(others), "top": top}
    return Stop(Gate.TANK_RANGE, look.period.name, (dip.of,), (dip.first,), values, line=dip.line)


def _is_beyond(dip: Fact, low: int, high: int) -> bool:
    """Say whether a level is ten times outside a range."""
    return dip.mm >= TIMES * high or dip.mm * TIMES <= low


def _is_explained(look: Look, dip: Fact, dips: list[Fact], low: int, high: int) -> bool:
    """Say whether booked flows explain nine tenths of the step that leaves, or enters, a range."""
    place = dips.index(dip)
    while place and _is_beyond(dips[place - 1], low, high):
        place -= 1
    pair = dips[place - 1 : place + 1] if place else dips[:2]
    if len(pair) < 2:
        return False
    step = _step(look, *pair)
    return step.is_measured and 10 * abs(step.unexplained) <= abs(step.change)


# ---- the step


@dataclass(frozen=True, slots=True)
class _Step:
    """What a tank did from one dip to the next.

    Attributes
    ----------
    days : int
        How many days lie between.
    change : int
        By how much its content changed, in grams.
    measured : int
        What meters and tickets brought in, less what they took out.
    variance : int
        The variance of both together.
    is_measured : bool
        Whether each stream of the tank is measured on these days.
    """

    days: int
    change: int
    measured: int
    variance: int
    is_measured: bool

    @property
    def unexplained(self) -> int:
        """What nothing measures of the change."""
        return self.change - self.measured

    @property
    def daily(self) -> int:
        """The same for a day."""
        return self.unexplained // self.days


def _step(look: Look, one: Fact, other: Fact) -> _Step:
    """Return the step from a dip of a tank to a later one."""
    state, span = look.state, Period("", one.first + 1, other.first)
    measured, variance, whole = 0, one.variance + other.variance, True
    for stream in look.facts.beside[one.of]:
        if not stream.is_in(span):
            continue
        sign = 1 if stream.arc.to == one.of else -1
        if stream.kind == "metered":
            days = stream.days_in(span)
            facts = state.facts.on_days(stream.arc.name, days)
            whole = whole and len(facts) == len(days)
        else:
            facts = [
                fact
                for fact in look.facts.transfers.get(stream.arc.name, ())
                if fact.first <= span.last and span.first <= fact.last
            ]
            whole = whole and stream.kind == "batch"
        measured += sign * sum(share(fact.grams, fact, span) for fact in facts)
        variance += sum(share(fact.variance, fact, span) for fact in facts)
    change = state.content(other) - state.content(one)
    return _Step(other.first - one.first, change, measured, variance, whole)


def _jump(look: Look, dip: Fact, dips: list[Fact]) -> Stop | None:
    """Return that the step to a dip at an end of a period differs from all steps within it."""
    inside = [each for each in dips if look.period.first <= each.first <= look.period.last]
    opens = dip.first < look.period.first
    inside = [each for each in inside if each is not dip]
    beside = next(iter(inside if opens else reversed(inside)), None)
    if beside is None or abs(beside.first - dip.first) > NEAR:
        return None
    steps = [_step(look, one, other) for one, other in zip(inside, inside[1:])]
    if len(steps) < FEWEST_STEPS:
        return None
    own = _step(look, *((dip, beside) if opens else (beside, dip)))
    middle = median_low(each.daily for each in steps)
    spread = max(abs(each.daily - middle) for each in steps)
    away = abs(own.daily - middle)
    full = look.state.plant.tables[dip.of][-1][1] * dip.density // 1_000_000
    is_far = away > FARTHER * spread and away * own.days > DEVIATIONS * isqrt(own.variance)
    if not is_far or away * own.days * PART_OF_TANK < full:
        return None
    values = {"change": own.change, "measured": own.measured, "expected": middle * own.days}
    values |= {"usual": spread, "beside": beside.first, "opens": int(opens)}
    return Stop(Gate.TANK_JUMP, look.period.name, (dip.of,), (dip.first,), values, line=dip.line)
