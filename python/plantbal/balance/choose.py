"""Which meters and assays to buy: the cheapest that reach an aim, exactly, with the bound.

The aims here can't be lost by one more instrument: a ± of at most so much, every stream known, every
stream known even if any one instrument fails. A choice that doesn't reach the aim can be made as
large as possible without reaching it; then every choice that does has at least one of the others.
Each of these rows is a cut. The cheapest choice that keeps all cuts so far, by HiGHS, costs no more
than any choice that reaches the aim; if it reaches it, it is the cheapest (an implicit hitting set;
Moreno-Centeno and Karp 2013). If time runs out, its cost is the bound of the best that was found.
"""

from __future__ import annotations

import time
from collections.abc import Callable, Sequence
from dataclasses import dataclass

from plantbal.balance.known import Class, Known
from plantbal.balance.worth import Instrument, PeriodState, deviation_of
from plantbal.faults import Fault

Aim = Callable[[Sequence[Instrument]], bool]


@dataclass(frozen=True)
class Choice:
    """What to buy.

    Attributes
    ----------
    instruments : tuple of Instrument
        The meters and assays.
    bound : float
        No choice that reaches the aim costs less.
    """

    instruments: tuple[Instrument, ...]
    bound: float

    @property
    def cost(self) -> int:
        """What they cost together."""
        return sum(each.cost for each in self.instruments)

    @property
    def is_cheapest(self) -> bool:
        """Whether it is shown that nothing cheaper reaches the aim."""
        return self.cost <= self.bound + 0.5


def within(state: PeriodState, wanted: dict[str, float]) -> Aim:
    """Return the aim that the ± of each of some streams is at most what is wanted, in tonnes."""

    def reached(bought: Sequence[Instrument]) -> bool:
        known = state.with_([*state.here, *bought])
        return all(deviation_of(known, name) <= most * (1 + 1e-9) for name, most in wanted.items())

    return reached


def redundant(state: PeriodState, streams: Sequence[str]) -> Aim:
    """Return the aim that streams are known even if any one meter or assay fails."""

    def knows(known: Known) -> bool:
        return all(known.class_of(name) is not Class.UNOBSERVABLE for name in streams)

    def reached(bought: Sequence[Instrument]) -> bool:
        there = [*state.here, *bought]
        if not knows(state.with_(there)):
            return False
        return all(
            any(not each.component for each in there if each is not lost)
            and knows(state.with_(each for each in there if each is not lost))
            for lost in there
        )

    return reached


def cheapest(offers: Sequence[Instrument], reached: Aim, seconds: float = 30.0) -> Choice:
    """Return the cheapest instruments that reach an aim.

    Parameters
    ----------
    offers : sequence of Instrument
        What could be bought.
    reached : callable
        Whether a choice reaches the aim; one more instrument never loses it.
    seconds : float
        How long to look for a cheaper one.

    Raises
    ------
    Fault
        If all of them together don't reach it.
    """
    if not reached(offers):
        raise Fault(
            "all that could be bought together doesn't reach it",
            remedy="ask for less, or offer more meters and assays",
        )
    until = time.monotonic() + seconds
    best = _thinned(offers, reached)
    cuts: list[frozenset[int]] = []
    while True:
        chosen, bound = _hitting(offers, cuts)
        own = [offers[at] for at in chosen]
        if reached(own):
            return Choice(tuple(own), bound)
        if time.monotonic() > until:
            return Choice(tuple(best), bound)
        cuts.append(_cut(offers, chosen, reached))


def _thinned(offers: Sequence[Instrument], reached: Aim) -> list[Instrument]:
    """Return a choice that reaches the aim, without any that it doesn't need; dear ones go first."""
    own = list(offers)
    for each in sorted(offers, key=lambda each: -each.cost):
        less = [other for other in own if other is not each]
        if reached(less):
            own = less
    return own


def _cut(offers: Sequence[Instrument], chosen: frozenset[int], reached: Aim) -> frozenset[int]:
    """Return the offers of which one is needed: a choice too small is made as large as can be."""
    large = set(chosen)
    for at in sorted(range(len(offers)), key=lambda at: offers[at].cost):
        if at not in large and not reached([offers[each] for each in (*large, at)]):
            large.add(at)
    return frozenset(range(len(offers))) - large


def _hitting(
    offers: Sequence[Instrument], cuts: Sequence[frozenset[int]]
) -> tuple[frozenset[int], float]:
    """Return the cheapest choice with one of each cut, and a bound of its cost from below."""
    import numpy
    from scipy.optimize import Bounds, LinearConstraint, milp

    if not cuts:
        return frozenset(), 0.0
    matrix = numpy.array([[float(at in cut) for at in range(len(offers))] for cut in cuts])
    found = milp(
        numpy.array([float(each.cost) for each in offers]),
        integrality=numpy.ones(len(offers)),
        bounds=Bounds(0, 1),
        constraints=LinearConstraint(matrix, lb=1),
    )
    if found.x is None:
        raise Fault("the integer solver found no choice", remedy="offer fewer meters and assays")
    bound = found.mip_dual_bound if found.mip_dual_bound is not None else found.fun
    return frozenset(int(at) for at in numpy.flatnonzero(found.x > 0.5)), float(bound)


def best_for(
    state: PeriodState, offers: Sequence[Instrument], streams: Sequence[str], budget: int
) -> tuple[Choice, float]:
    """Return what a budget buys so that the greatest ± of some streams is as small as can be.

    Parameters
    ----------
    state : PeriodState
        The plant.
    offers : sequence of Instrument
        What could be bought.
    streams : sequence of str
        The streams whose ± counts, each as a part of its ± with all offers.
    budget : int
        What may be spent.

    Returns
    -------
    tuple of Choice and float
        What to buy, and how many times the ± with all offers is reached; to one part in 200.

    Raises
    ------
    Fault
        If the budget doesn't make all of the streams known.
    """
    everything = state.with_([*state.here, *offers])
    least = {name: deviation_of(everything, name) for name in streams}
    now = state.with_(state.here)
    low, high = 1.0, 1e9
    if any(each == float("inf") for each in least.values()):
        raise Fault("not even all that could be bought makes these streams known")
    present = max(
        (deviation_of(now, name) / own if own else 1.0 for name, own in least.items()), default=1.0
    )
    if present < high:
        high, best = present, Choice((), 0.0)
    else:
        best = cheapest(offers, within(state, {n: own * high for n, own in least.items()}))
        if best.cost > budget:
            raise Fault(
                f"a budget of {budget:,} doesn't make these streams known",
                remedy=f"the cheapest that does costs {best.cost:,}",
            )
        high = _ratio(state, best, least)
    while high > low * 1.005:
        middle = (high * low) ** 0.5
        found = cheapest(offers, within(state, {n: own * middle for n, own in least.items()}))
        if found.cost <= budget:
            best, high = found, min(middle, _ratio(state, found, least))
        else:
            low = middle
    return best, high


def _ratio(state: PeriodState, choice: Choice, least: dict[str, float]) -> float:
    """Return how many times the ± with all offers a choice has."""
    known = state.with_([*state.here, *choice.instruments])
    return max(deviation_of(known, name) / own if own else 1.0 for name, own in least.items())
