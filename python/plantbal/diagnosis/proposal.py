"""Proposals of estimates: what a meter may have read on days without a reading, and how sure.

There are two ways, and the one with the smaller error is taken. The balance of a day has a value
for a stream that isn't measured then if the other measurements determine it: with a value of 0 and
hardly any variance put in its place, the ratio of `gross` finds by how much 0 is too low, and the
variance of that. If tanks beside the stream aren't dipped each day, the days between two dips are
taken together, or else the whole period; what the meter has read is taken off, and the days share
the rest and its error. The other way is the mean of the meter's other days: of readings x of n days
it is off by the square root of var(x) (1 + 1/n) on a day, and all days of this guess are off
together.

A stream that has no reading in the whole period and that the others determine needs no estimate:
its report has the same value and ±, and an estimate would count the others' readings twice.
"""

from __future__ import annotations

from collections.abc import Collection, Mapping, Sequence
from dataclasses import dataclass, replace
from enum import StrEnum
from math import isqrt, sqrt

from plantbal.diagnosis.balances import GROUND, Balances
from plantbal.diagnosis.days import Days, Span
from plantbal.diagnosis.gross import ratio
from plantbal.estimates import is_estimate
from plantbal.model.facts import Fact
from plantbal.model.ledger import View
from plantbal.model.plant import Stream
from plantbal.model.state import State
from plantbal.model.topology import Arc

# Fewer other days than this say nothing of what is usual, and more than so many aren't looked at.
FEWEST, MOST = 5, 31
_KILOGRAM = 1000


class ProposalBasis(StrEnum):
    """What a proposal rests on."""

    DAY = "day"
    DAYS = "days"
    PERIOD = "period"
    OTHERS = "others"
    EARLIER = "earlier"


@dataclass(frozen=True, slots=True)
class Proposal:
    """What a meter may have read on some days, of which one error is that of all.

    Attributes
    ----------
    stream : str
        The stream.
    days : tuple of int
        The days.
    grams : int
        What it carried on each of them.
    error : int
        The standard deviation of that; all days are off by it together.
    basis : ProposalBasis
        What it rests on.
    names : tuple of str
        The measurements of the balance beside it, of those that balance it.
    readings : int
        Of how many readings it is the mean.
    is_needed : bool
        Whether there is something to book: not if the report has the same without it.
    """

    stream: str
    days: tuple[int, ...]
    grams: int
    error: int
    basis: ProposalBasis
    names: tuple[str, ...] = ()
    readings: int = 0
    is_needed: bool = True

    @property
    def variance(self) -> int:
        """The variance of each day's row: their sum is the square of the whole error."""
        return len(self.days) * max(1, self.error) ** 2


class Proposals:
    """The proposals of a period.

    Parameters
    ----------
    state : State
        The session.
    view : View
        The period.
    replaced : mapping of str to collection of int
        Days whose readings don't count, by the streams.
    """

    def __init__(
        self, state: State, view: View, replaced: Mapping[str, Collection[int]] | None = None
    ) -> None:
        self.state = state
        self.view = view
        self.replaced = replaced or {}
        self.streams = {each.arc.name: each for each in view.streams if each.kind == "metered"}
        self._days = Days(state, view)

    def wanted(self, name: str) -> list[int]:
        """Return the days of a stream for which there is no reading that counts."""
        return sorted({*self.view.missing.get(name, ()), *self.replaced.get(name, ())})

    def of(self, name: str) -> list[Proposal]:
        """Return the proposals for a stream; none if there is nothing to go by."""
        wanted = self.wanted(name)
        if not wanted:
            return []
        known = [fact for fact in self.view.facts[name] if fact.first not in wanted]
        by_balance = self._by_balance(self.streams[name], wanted, known)
        if by_balance and not known:
            return by_balance
        some = [each for each in (by_balance, self._by_other_days(name, wanted, known)) if each]
        return min(some, key=error_of_sum, default=[])

    # ---- by the balance

    def _by_balance(self, stream: Stream, wanted: list[int], known: list[Fact]) -> list[Proposal]:
        """Return what the balances leave over, by the shortest spans that determine it."""
        period = self.view.period
        whole = [Span(period.first, period.last)]
        levels = {ProposalBasis.PERIOD: whole}
        if known:
            levels = {
                ProposalBasis.DAY: [Span(day, day) for day in wanted],
                ProposalBasis.DAYS: self._days.spans(self._tanks_beside(stream)),
                ProposalBasis.PERIOD: whole,
            }
        for basis, spans in levels.items():
            found = [self._left_over(stream, span, wanted, known, basis) for span in spans]
            if all(each is not None for each in found):
                return [each for each in found if each is not None and each.days]
        return []

    def _tanks_beside(self, stream: Stream) -> list[str]:
        ends = {stream.arc.from_, stream.arc.to}
        near = {
            end
            for each in self.view.streams
            if ends & {each.arc.from_, each.arc.to}
            for end in (each.arc.from_, each.arc.to)
        }
        tanks = (each.arc.name for each in self.view.streams if each.kind == "tank")
        return [name for name in tanks if name in near and name not in self.view.lacking]

    def _left_over(
        self, stream: Stream, span: Span, wanted: list[int], known: list[Fact], basis: ProposalBasis
    ) -> Proposal | None:
        """Return what a span's balance leaves for the wanted days in it.

        That is None if it doesn't determine the stream, or if it leaves less than nothing.
        """
        days = tuple(day for day in wanted if span.first <= day <= span.last)
        if not days:
            return Proposal(stream.arc.name, (), 0, 0, basis)
        found = self._determined(stream.arc, span)
        if found is None:
            return None
        grams, variance, names = found
        there = [fact for fact in known if span.first <= fact.first <= span.last]
        each = (grams - sum(fact.grams for fact in there)) / len(days)
        error = sqrt(variance + sum(fact.variance for fact in there)) / len(days)
        if each < 0:
            return None
        needed = bool(known)
        booked = round(each / _KILOGRAM) * _KILOGRAM
        return Proposal(stream.arc.name, days, booked, round(error), basis, names, is_needed=needed)

    def _determined(self, arc: Arc, span: Span) -> tuple[float, float, tuple[str, ...]] | None:
        """Return the value and variance that the others give a stream, and those beside it."""
        nodes, measured = self._days.measured(span)
        if arc.name not in measured or arc.from_ not in nodes or arc.to not in nodes:
            return None
        measured = measured | {arc.name: replace(measured[arc.name], value=0, variance=1)}
        balances = Balances.of_measured(nodes, measured.values())
        pair = balances.pair(arc)
        if pair is None:
            return None
        size, weight = ratio(balances, pair)
        variance = 1 / weight - 1
        if variance < 1:  # a dead end, where nothing measured balances it
            return None
        numbers = [number for number in pair if number != GROUND]
        through = [balances.open[number].through for number in numbers]
        names = min(([each.name for each in some] for some in through), key=len)
        beside = tuple(name for name in names if name != arc.name)
        return -balances.sign(arc) * size, variance, beside

    # ---- by the meter's other days

    def _by_other_days(self, name: str, wanted: list[int], known: list[Fact]) -> list[Proposal]:
        """Return the mean of the meter's other days of the period, or of those before it."""
        basis, facts = ProposalBasis.OTHERS, [fact for fact in known if not is_estimate(fact)]
        if len(facts) < FEWEST:
            first = self.view.period.first
            days = range(first - 2 * MOST, first)
            there = (self.state.facts.on(name, day) for day in days)
            before = [fact for fact in there if fact is not None and not is_estimate(fact)]
            basis, facts = ProposalBasis.EARLIER, before[-MOST:]
        if len(facts) < FEWEST:
            return []
        count = len(facts)
        mean = round(sum(fact.grams for fact in facts) / (count * _KILOGRAM)) * _KILOGRAM
        squares = sum((fact.grams - mean) ** 2 for fact in facts)
        own = max(fact.variance for fact in facts)  # no better than a reading
        error = isqrt(max(own, squares * (count + 1) // (count * (count - 1))))
        return [Proposal(name, tuple(wanted), mean, error, basis, readings=count)]


def error_of_sum(some: Sequence[Proposal]) -> float:
    """Return the standard deviation of the sum of proposals, in grams."""
    return sqrt(sum((len(each.days) * each.error) ** 2 for each in some))
