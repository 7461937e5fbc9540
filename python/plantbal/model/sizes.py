"""How large the amounts of a stream are: what is far from them is likely to be a mistake."""

from __future__ import annotations

from collections.abc import Callable, Iterable
from operator import attrgetter
from typing import NamedTuple, Self

from plantbal.model.facts import Fact

# So many amounts other than 0 have a median.
FEWEST_OF_A_MEDIAN = 3
_GRAMS: Callable[[Fact], int] = attrgetter("grams")


class AmountSizes(NamedTuple):
    """How large amounts are without their signs: the least that isn't 0, the median, the most.

    The median is that of the amounts that aren't 0, the lower one of two; 0 if too few aren't 0.
    """

    least: int
    middle: int
    most: int

    @classmethod
    def of(cls, facts: Iterable[Fact]) -> Self:
        """Return how large the amounts of facts are."""
        sizes: list[int] = sorted(filter(None, (abs(grams) for grams in map(_GRAMS, facts))))
        count = len(sizes)
        middle = sizes[(count - 1) // 2] if count >= FEWEST_OF_A_MEDIAN else 0
        return cls(sizes[0], middle, sizes[-1]) if sizes else cls(0, 0, 0)
