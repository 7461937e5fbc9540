"""What is split among owners, to the gram.

Each gets the whole grams of his part; the grams that are left over go one by one to those with the
largest remainders, and among equal ones by name. So the parts always add up to the amount.
"""

from __future__ import annotations

from collections.abc import Mapping
from fractions import Fraction

# Whose something is that has no owner, or that no rule splits.
NOBODY = ""


def split(grams: int, weights: Mapping[str, Fraction | int]) -> dict[str, int]:
    """Return an amount split among owners in proportion to weights.

    Parameters
    ----------
    grams : int
        The amount; of one below 0 the same parts are taken with a minus.
    weights : mapping of str to Fraction or int
        The weights; those below 0 count as 0. If all are 0, nobody has it.
    """
    parts = {name: Fraction(max(number, 0)) for name, number in weights.items()}
    total = sum(parts.values(), Fraction(0))
    if not total:
        return {NOBODY: grams} if grams else {}
    exact = {name: abs(grams) * part / total for name, part in parts.items()}
    whole = {name: int(number) for name, number in exact.items()}
    left = abs(grams) - sum(whole.values())
    order = sorted(exact, key=lambda name: (whole[name] - exact[name], name))
    for name in order[:left]:
        whole[name] += 1
    sign = -1 if grams < 0 else 1
    return {name: sign * number for name, number in whole.items() if number}
