"""Readings that a meter hardly gave: zero, frozen or negative where the others aren't, and copies.

Each rule is to be quiet on a month as plants have it: units that stand still, lines that are used
on a few days, amounts in whole tonnes, contract figures that are typed each day. So a zero counts
only where the unit that it feeds or drains goes on, a repeated figure only if the other days make
such a run unlikely, and a sign only where most other days have the other one.
"""

from __future__ import annotations

from collections import defaultdict
from collections.abc import Iterator, Sequence
from itertools import groupby
from math import gcd
from statistics import median_low

from plantbal.gates.gate import Gate, Stop
from plantbal.gates.look import Look
from plantbal.model.facts import Fact
from plantbal.model.plant import ENV, Stream

# Below this many readings a period says nothing of what is usual.
FEWEST = 5
# A run of equal figures counts from this many days on, and if chance gives it less than once in
# so many months.
RUN, MONTHS = 4, 100
# A figure of fewer steps than this says nothing: 3 t in whole tonnes stay 3 t if the flow changes.
STEPS = 200
# A row is copied down if this share of at least so many meters have the figures of the day before.
COPIED, FEWEST_COPIED = 0.9, 4
# A meter that reads below zero on more than this share of days may run either way.
EITHER_WAY = 0.25
# A line that stands still on more than this share of days, or in more runs, is used now and then.
NOW_AND_THEN, RUNS = 1 / 3, 2
# Two meters agree by chance on no day: so many different figures alike are one meter's.
DIFFERENT = 3


def odd_readings(look: Look) -> Iterator[Stop]:
    """Give the readings of a period that a meter hardly gave."""
    for name, stream in look.metered.items():
        facts = look.view.facts[name]
        if len(facts) >= FEWEST:
            yield from _zeros(look, stream, facts)
            yield from _negatives(look, name, facts)
            yield from _frozen(look, name, facts)
    yield from _copied_rows(look)
    yield from _copies(look)


def _stop(look: Look, gate: Gate, name: str, facts: Sequence[Fact], **values: int) -> Stop:
    days = tuple(fact.first for fact in facts)
    return Stop(gate, look.period.name, (name,), days, values, line=facts[0].line)


# ---- zero


def _zeros(look: Look, stream: Stream, facts: list[Fact]) -> Iterator[Stop]:
    """Give the zeros of a meter on days on which the unit that it serves goes on all the same."""
    zeros = [fact for fact in facts if not fact.grams]
    if not zeros:
        return
    name = stream.arc.name
    if len(zeros) == len(facts):
        before = look.earlier(name)
        running = sum(bool(fact.grams) for fact in before)
        if len(before) >= FEWEST and running <= NOW_AND_THEN * len(before):
            return
    else:
        runs = sum(is_zero for is_zero, _ in groupby(facts, key=lambda fact: not fact.grams))
        if len(zeros) > NOW_AND_THEN * len(facts) or runs > RUNS:
            return
    idle = [fact for fact in zeros if _goes_on(look, stream, fact.first)]
    if idle:
        yield _stop(look, Gate.ZERO, name, idle, readings=len(facts))


def _goes_on(look: Look, stream: Stream, day: int) -> bool:
    """Say whether a unit goes on, on a day, that a stream feeds or drains by most of its flow.

    It goes on if the streams of its other side have half of what they have on the days of the
    stream's own readings.
    """
    there = [fact for fact in look.facts.readings[stream.arc.name] if fact.grams > 0]
    if not there:
        return False
    usual = median_low(fact.grams for fact in there)
    for node, is_to in ((stream.arc.from_, False), (stream.arc.to, True)):
        if node == ENV or look.state.plant.nodes.get(node) != "unit":
            continue
        beside = [each for each in look.at[node] if (each.arc.to == node) == is_to]
        others = [each for each in look.at[node] if (each.arc.to == node) != is_to]
        same = _total(look, [each for each in beside if each is not stream], day)
        is_most = same is not None and 2 * same < usual
        other = _total(look, [each for each in others if each.kind == "metered"], day)
        if is_most and other:
            metered = [each for each in others if each.kind == "metered"]
            totals = [_total(look, metered, fact.first) or 0 for fact in there]
            if 2 * other > median_low(totals) > 0:
                return True
    return False


def _total(look: Look, streams: Sequence[Stream], day: int) -> int | None:
    """Return what some streams read on a day together; None if one has no reading."""
    facts = [look.state.facts.on(each.arc.name, day) for each in streams]
    there = [fact.grams for fact in facts if fact is not None]
    return sum(there) if len(there) == len(facts) else None


# ---- negative


def _negatives(look: Look, name: str, facts: list[Fact]) -> Iterator[Stop]:
    """Give the readings below zero, beyond two standard deviations, where the others are above."""
    below = [fact for fact in facts if fact.grams < 0 and fact.grams**2 > 4 * fact.variance]
    if not below:
        return
    before = look.earlier(name)
    others = [*facts, *before]
    share = sum(fact.grams < 0 for fact in others) / len(others)
    if share <= EITHER_WAY or (before and not any(fact.grams < 0 for fact in before)):
        least = min(below, key=lambda fact: fact.grams)
        yield _stop(look, Gate.NEGATIVE, name, below, grams=least.grams, readings=len(facts))


# ---- frozen


def _frozen(look: Look, name: str, facts: list[Fact]) -> Iterator[Stop]:
    """Give the longest run of equal figures of a meter, if chance hardly gives it."""
    runs = [list(some) for _, some in groupby(facts, key=lambda fact: fact.grams)]
    longest = max(runs, key=len)
    step = gcd(*(fact.grams for fact in facts))
    if len(longest) < RUN or abs(longest[0].grams) < STEPS * step:
        return
    others = [*look.earlier(name), *(fact for fact in facts if fact not in longest)]
    if not others:
        return  # a contract's figure, perhaps
    alike = sum(one.grams == other.grams for one, other in zip(others, others[1:]))
    chance = (alike + 1) / (len(others) + 1)
    if len(facts) * chance ** (len(longest) - 1) * MONTHS < 1:
        yield _stop(look, Gate.FROZEN, name, longest, grams=longest[0].grams)


def _copied_rows(look: Look) -> Iterator[Stop]:
    """Give the days on which nearly all meters have the figures of the day before."""
    by_day: dict[int, dict[str, Fact]] = defaultdict(dict)
    for name in look.metered:
        facts = look.view.facts[name]
        if len({fact.grams for fact in facts}) >= DIFFERENT:
            for fact in facts:
                by_day[fact.first][name] = fact
    for day, now in by_day.items():
        before = by_day.get(day - 1, {})
        both = [name for name in now if name in before and now[name].grams]
        same = [name for name in both if now[name].grams == before[name].grams]
        if len(both) >= FEWEST_COPIED and len(same) >= COPIED * len(both):
            values = {"meters": len(both), "copied": len(same)}
            line = now[same[0]].line
            yield Stop(Gate.FROZEN, look.period.name, (), (day,), values, line=line)


# ---- a meter that is a copy of another


def _copies(look: Look) -> Iterator[Stop]:
    """Give the meters with the same figures, which change, on each day."""
    by_figures: dict[tuple[tuple[int, int], ...], list[str]] = defaultdict(list)
    for name in look.metered:
        facts = look.view.facts[name]
        if len(facts) >= FEWEST and len({fact.grams for fact in facts}) >= DIFFERENT:
            by_figures[tuple((fact.first, fact.grams) for fact in facts)].append(name)
    for figures, names in by_figures.items():
        if len(names) > 1:
            days = tuple(day for day, _ in figures)
            line = look.view.facts[names[1]][0].line
            yield Stop(Gate.COPY, look.period.name, tuple(names), days, line=line)
