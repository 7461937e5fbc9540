"""The generalized likelihood ratio: how great one gross error would be, and what speaks for it.

The ratio is that of Narasimhan and Mah (AIChE Journal 33, 1987, 1514). If measurement j is too high
by b, what doesn't close is r = b f + noise, where f is the row of j in A (see `balances`): 1 where
the stream comes in and -1 where it goes out. The best estimate of b is d / c with d = f'S^-1 r and
c = f'S^-1 f; its standard deviation is c^-1/2, and the logarithm of the ratio is half of

    T = d^2 / c,

which is chi-squared with one degree of freedom if there is no such error. T is also what the
weighted squares fall by if j is left out, so it is the program's test of a measurement.

Two measurements have the same T whatever the values are if and only if their rows f are parallel:
one cut of the balances has both. A row has a 1 and a -1, or one of them if an end is in the set of
``env``, whose balance follows from the others. So two rows are parallel exactly if they lie between
the same two sets of nodes, whichever way each leads. These measurements are a *set of equals*: no
readings can tell which of them is wrong.

Several errors are found one after another: the set with the greatest T counts as not measured, which
joins its ends, and the rest is looked at again. In the end each size is estimated once more with all
other sets left out, so that no error is counted into another.
"""

from __future__ import annotations

from collections.abc import Iterator
from dataclasses import dataclass
from math import sqrt

from plantbal.study.critical import of_each
from plantbal.diagnosis.balances import GROUND, Balances, Measurement, Pair

# How many errors are looked for, one after another.
MOST_ERRORS = 8
# The level of a test that no session gives a critical value for.
LEVEL = 0.05
# Sets that fall short of the first one's T by less than this are nearly as likely: a likelihood
# ratio of e^2.
NEAR = 4.0
# A part of a standard deviation's square below this is what rounding leaves of nothing.
_NOTHING = 1e-12


@dataclass(frozen=True, slots=True)
class Equals:
    """Measurements of which no readings can tell which one is wrong.

    Attributes
    ----------
    pair : tuple of int
        The sets of nodes that all of them lie between.
    members : tuple of Measurement
        The measurements in the order of the plant.
    grams : float
        By how much too much leads from the first set of nodes to the second.
    deviation : float
        The standard deviation of it.
    """

    pair: Pair
    members: tuple[Measurement, ...]
    grams: float
    deviation: float

    @property
    def names(self) -> tuple[str, ...]:
        """The names of its members."""
        return tuple(each.name for each in self.members)

    @property
    def statistic(self) -> float:
        """What the weighted squares fall by if any one of them is left out."""
        return (self.grams / self.deviation) ** 2


@dataclass(frozen=True, slots=True)
class Hole:
    """An error that the tests tell: where it is, and how great.

    Attributes
    ----------
    equals : Equals
        The measurements that may have it.
    ends : tuple of tuple of str
        The nodes on both sides of it; no nodes are the side of ``env``.
    size : float
        By how much too much leads from the first side to the second, in grams: with the other
        holes left out.
    deviation : float
        The standard deviation of the size.
    rivals : tuple of Hole
        What it would be at other sets that explain nearly as much.
    signs : dict of str to int
        For each member 1 if it leads from the first side to the second, and else -1.
    """

    equals: Equals
    ends: tuple[tuple[str, ...], tuple[str, ...]]
    size: float
    deviation: float
    rivals: tuple[Hole, ...]
    signs: dict[str, int]

    @property
    def names(self) -> tuple[str, ...]:
        """The names of the measurements that may have it."""
        return self.equals.names

    @property
    def deviations(self) -> float:
        """Its size in standard deviations."""
        return abs(self.size) / self.deviation

    def error_of(self, name: str) -> float:
        """Return by how many grams the value of a member would be too high."""
        return self.signs[name] * self.size


def sets_of_equals(balances: Balances) -> list[Equals]:
    """Return the sets of equals of the measurements that are in a balance, in order."""
    found: dict[Pair, list[Measurement]] = {}
    for each in balances.measured.values():
        pair = balances.pair(each.arc)
        if pair is not None:
            found.setdefault(pair, []).append(each)
    return [_equals(balances, pair, tuple(some)) for pair, some in found.items()]


def _equals(balances: Balances, pair: Pair, members: tuple[Measurement, ...]) -> Equals:
    grams, weight = ratio(balances, pair)
    return Equals(pair, members, grams, 1 / sqrt(weight))


def ratio(balances: Balances, pair: Pair) -> tuple[float, float]:
    """Return the size of an error between two sets of nodes, and one by its variance.

    The size is positive if too much leads from the first to the second.
    """
    one, other = pair
    inverse, pulls = balances.inverse, balances.pulls
    drawn = weight = 0.0
    if other != GROUND:
        drawn += float(pulls[other])
        weight += float(inverse[other, other])
    if one != GROUND:
        drawn -= float(pulls[one])
        weight += float(inverse[one, one])
    if GROUND not in pair:
        weight -= 2 * float(inverse[one, other])
    weight = max(weight, _NOTHING * max(_of(balances, one), _of(balances, other)))
    return drawn / weight, weight


def _of(balances: Balances, number: int) -> float:
    return 0.0 if number == GROUND else float(balances.inverse[number, number])


@dataclass(frozen=True, slots=True)
class Limits:
    """The critical values of the tests.

    Attributes
    ----------
    level : float
        How often a period without an error is rejected.
    measure : float
        The critical value of the test of a single measurement; 0 if the session has none.
    """

    level: float = LEVEL
    measure: float = 0.0

    def of_period(self, freedom: int) -> float:
        """Return the critical value of the global test."""
        from scipy.special import chdtri

        return float(chdtri(max(1, freedom), self.level))

    def of_one(self, count: int) -> float:
        """Return the critical value of one of that many tests."""
        from scipy.special import chdtri

        return self.measure or float(chdtri(1, of_each(self.level, max(1, count))))


def holes_of(balances: Balances, limits: Limits = Limits()) -> list[Hole]:
    """Return the errors that the tests tell, in the order in which they are found.

    Parameters
    ----------
    balances : Balances
        The balances of a period.
    limits : Limits
        The critical values.
    """
    found = list(_one_after_another(balances, limits))
    names = {name for equals, _ in found for name in equals.names}
    return [_hole(balances, equals, near, names) for equals, near in found]


def _one_after_another(
    balances: Balances, limits: Limits
) -> Iterator[tuple[Equals, tuple[Equals, ...]]]:
    """Give the sets of equals that are left out, each with those that explain nearly as much."""
    for _ in range(MOST_ERRORS):
        if not balances.freedom or balances.statistic <= limits.of_period(balances.freedom):
            return
        some = sorted(sets_of_equals(balances), key=lambda each: -each.statistic)
        first = some[0]
        if first.statistic <= limits.of_one(len(some)):
            return
        near = tuple(each for each in some[1:] if first.statistic - each.statistic < NEAR)
        yield first, near
        balances = balances.without(first.names)


def _hole(balances: Balances, equals: Equals, near: tuple[Equals, ...], names: set[str]) -> Hole:
    """Return a hole with its size once the other holes are left out."""
    apart = names - set(equals.names)
    rivals = tuple(_hole(balances, each, (), apart | set(each.names)) for each in near)
    others = balances.without(names - set(equals.names))
    arc = equals.members[0].arc
    pair = others.pair(arc)
    if pair is None:  # the others join its ends: its size is the one by which it was found
        others, pair = balances, balances.pair(arc)
    assert pair is not None
    size, weight = ratio(others, pair)
    sides = [() if number == GROUND else others.sets[number] for number in pair]
    signs = {each.name: others.sign(each.arc) for each in equals.members}
    return Hole(equals, (sides[0], sides[1]), size, 1 / sqrt(weight), rivals, signs)
