"""Mistakes that no test tells, as far as the session shows them: columns that changed places, a
point of a strapping table, errors of meters of another size than the readings' scatter.

Each rule is to be quiet on whatever a plant does. So two columns have changed places only if each
meter reads what the other one read before, and neither what it read itself; a table's point is
wrong only if the table is smooth without it; and an error is too great or too small only if the
balances of the days, in which a meter's constant part cancels, scatter by a tenth or by ten times
of what the errors say.
"""

from __future__ import annotations

from collections.abc import Iterator, Mapping, Sequence
from itertools import combinations
from math import gcd, sqrt
from statistics import median, stdev

from plantbal.diagnosis.balances import Balance, Balances
from plantbal.lint.findings import Finding, place_in, tonnes_said
from plantbal.model.facts import Fact
from plantbal.model.ledger import Ledger, Seen
from plantbal.model.studies import measured_in
from plantbal.sentence import Sentence

# So many readings say what a meter usually reads; in a month and before it.
FEWEST = 10
# What is alike, and what is another figure: parts and times of a median.
ALIKE, OTHER = 1.15, 1.5
# By how many times the slopes beside a wrong point differ, and by how many one is above and the
# other below those of the next segments; in a smooth table they lie between these.
KINK, BEYOND = 2.0, 1.1
# A point off by fewer steps of the volumes than this may be rounded.
STEPS = 10
# How many times a scatter is smaller or greater than the errors say, and the share of the variance
# that a single meter has to have, so that it is the one.
TIMES, MOST_OF_IT = 10.0, 0.9


# ---- columns that changed places


def exchanged(ledger: Ledger) -> Iterator[Finding]:
    """Yield the pairs of meters of which each reads in a period what the other one read before."""
    earlier = _Earlier(ledger)
    in_order = sorted(ledger.reported.values(), key=lambda seen: seen.period.first)
    medians = {seen.period.name: _medians(earlier, seen) for seen in in_order}
    for seen in ledger.reported.values():
        now, before = medians[seen.period.name]
        moved = [name for name in now if not _alike(now[name], before[name], OTHER)]
        for one, other in combinations(moved, 2):
            if _alike(now[one], before[other], ALIKE) and _alike(now[other], before[one], ALIKE):
                period = seen.period.name
                text = Sentence(
                    "{one} and {other} may have changed places in {period}: {one} reads {one_now} "
                    "on most days and read {one_before} before, {other} reads {other_now} and read "
                    "{other_before}",
                    one=one,
                    other=other,
                    period=period,
                    one_now=_tonnes(now[one]),
                    one_before=_tonnes(before[one]),
                    other_now=_tonnes(now[other]),
                    other_before=_tonnes(before[other]),
                )
                remedy = "compare the heads of these two columns with the meters"
                line = seen.view.facts[other][0].line
                place = place_in(ledger, line)
                yield Finding("exchanged", text, remedy, place, one, period, (one, other))


class _Earlier:
    """What meters read before a day, of days in their order: no reading is gone through twice."""

    def __init__(self, ledger: Ledger) -> None:
        self._amounts = ledger.amounts
        self._left: dict[str, list[Fact]] = {}
        self._sizes: dict[str, list[int]] = {}

    def sizes(self, name: str, day: int) -> list[int]:
        """Return the sizes of the readings of a meter before a day, in the order of sizes."""
        if name not in self._left:
            facts = self._amounts.get(name, ())
            self._left[name] = sorted(facts, key=lambda fact: fact.first, reverse=True)
            self._sizes[name] = []
        left, sizes = self._left[name], self._sizes[name]
        new = []
        while left and left[-1].first < day:
            new.append(left.pop())
        if new:
            sizes += _sizes(new)
            sizes.sort()
        return sizes


def _medians(earlier: _Earlier, seen: Seen) -> tuple[dict[str, float], dict[str, float]]:
    """Return what meters usually read in a period, and before it, of those with enough of both."""
    now: dict[str, float] = {}
    before: dict[str, float] = {}
    for stream in seen.view.streams:
        name = stream.arc.name
        facts = seen.view.facts[name] if stream.kind == "metered" else ()
        if len(facts) < FEWEST:
            continue
        some = _sizes(facts), earlier.sizes(name, seen.period.first)
        if min(map(len, some)) >= FEWEST:
            now[name] = float(median(some[0]))
            low, high = some[1][(len(some[1]) - 1) // 2], some[1][len(some[1]) // 2]
            before[name] = float((low + high) / 2 if len(some[1]) % 2 == 0 else high)
    return now, before


def _sizes(facts: Sequence[Fact]) -> list[int]:
    return [fact.grams for fact in facts if fact.grams > 0]


def _alike(one: float, other: float, times: float) -> bool:
    return one < times * other and other < times * one


def _tonnes(grams: float) -> str:
    return tonnes_said(round(grams / 1000) * 1000)


# ---- a point of a strapping table


def kinks(ledger: Ledger) -> Iterator[Finding]:
    """Yield the points of tables that break a slope which is smooth without them."""
    for tank, points in ledger.state.plant.tables.items():
        step = gcd(*(ml for _, ml in points))
        for at in range(2, len(points) - 2):
            if _breaks(points[at - 2 : at + 3], step):
                mm, ml = points[at]
                fits = round(_between(points[at - 1], points[at + 1], mm))
                form = (
                    "the table of {tank} has {ml:,} ml at {mm:,} mm, which breaks its slope: "
                    "its neighbours lead to some {fits:,} ml"
                )
                text = Sentence(form, tank=tank, ml=ml, mm=mm, fits=fits)
                remedy = "compare this point with the calibration certificate"
                line = ledger.state.plant.lines.get(tank)
                yield Finding("strap-slope", text, remedy, place_in(ledger, line), tank)


def _breaks(points: Sequence[tuple[int, int]], step: int) -> bool:
    """Say whether the middle one of five points breaks the slope of the others."""
    slopes = [_slope(one, other) for one, other in zip(points, points[1:])]
    low, high = min(slopes[1], slopes[2]), max(slopes[1], slopes[2])
    least, most = min(slopes[0], slopes[3]), max(slopes[0], slopes[3])
    chord = _slope(points[1], points[3])
    is_smooth = least / BEYOND < chord < most * BEYOND
    is_kink = high > KINK * low and high > BEYOND * most and low * BEYOND < least
    off = abs(points[2][1] - _between(points[1], points[3], points[2][0]))
    return is_smooth and is_kink and off > STEPS * step


def _slope(one: tuple[int, int], other: tuple[int, int]) -> float:
    return (other[1] - one[1]) / (other[0] - one[0])


def _between(one: tuple[int, int], other: tuple[int, int], mm: int) -> float:
    return one[1] + _slope(one, other) * (mm - one[0])


# ---- errors of another size than the scatter


def scatter(ledger: Ledger) -> Iterator[Finding]:
    """Yield the meters whose errors are ten times what the days' balances scatter, or a tenth."""
    for seen in ledger.reported.values():
        found = measured_in(ledger.state, seen.view).values()
        balances = Balances.of_measured(seen.view.nodes, found)
        metered = {each.arc.name for each in seen.view.streams if each.kind == "metered"}
        for balance in balances.open:
            if all(each.name in metered for each in balance.through):
                yield from _scatter_of(ledger, seen, balance)


def _scatter_of(ledger: Ledger, seen: Seen, balance: Balance) -> Iterator[Finding]:
    names = [each.name for each in balance.through]
    amounts = [{fact.first: fact.grams for fact in seen.view.facts[name]} for name in names]
    running = _running(amounts)
    if len(names) < 2 or len(running) < FEWEST:
        return
    rests = [0] * len(running)
    for each, grams in zip(balance.through, amounts):
        sign = 1 if each.arc.to in balance.nodes else -1
        rests = [rest + sign * grams[day] for rest, day in zip(rests, running)]
    on = set(running)
    variances = {
        name: sum(fact.variance for fact in seen.view.facts[name] if fact.first in on)
        / len(running)
        for name in names
    }
    total, seen_scatter = sum(variances.values()), stdev(rests)
    widest = max(names, key=lambda name: variances[name])
    error = sqrt(total)
    some: tuple[str, ...]
    if variances[widest] > MOST_OF_IT * total and 0 < seen_scatter * TIMES < error:
        some = (widest,)
        form = (
            "the error of {names} seems too great in {period}: on a day the balance of {nodes} "
            "scatters by {scatter}, and its errors explain {error}"
        )
    elif seen_scatter > TIMES * error > 0:
        some = tuple(names)
        form = (
            "the errors of {names} seem too small in {period}: on a day the balance of {nodes} "
            "scatters by {scatter}, and its errors explain {error}"
        )
    else:
        return
    text = Sentence(
        form,
        names=", ".join(some),
        period=seen.period.name,
        nodes=" ".join(balance.nodes),
        scatter=_tonnes(seen_scatter),
        error=_tonnes(error),
    )
    remedy = (
        "compare the errors of these meters with their certificates: a digit, or percent of what?"
    )
    facts = seen.view.facts[some[0]]
    line = next(fact.line for fact in facts if fact.first == running[0])
    yield Finding("scatter", text, remedy, place_in(ledger, line), some[0], seen.period.name, some)


def _running(amounts: Sequence[Mapping[int, int]]) -> list[int]:
    """Return the days on which all of some meters read another amount than 0, in order."""
    if not amounts:
        return []
    days = set(amounts[0]).intersection(*amounts[1:])
    for each in amounts:
        if 0 in each.values():
            days -= {day for day, grams in each.items() if not grams}
    return sorted(days)
