"""What no test can see: how great an error each measurement could hide.

A measurement that is in no balance can have any error. Only that no stream flows backwards bounds
it: an observable stream is a sum of measurements by its cut, and would be below 0. One that others
check can hide what the global test doesn't reject: with no other error the statistic is b^2 c (see
`gross`), so up to the root of the critical value in standard deviations of b.
"""

from __future__ import annotations

from collections.abc import Iterator
from dataclasses import dataclass
from math import sqrt

from plantbal.diagnosis.balances import Balances
from plantbal.diagnosis.gross import Limits, sets_of_equals
from plantbal.report.blocks import Block, Values


@dataclass(frozen=True, slots=True)
class Unchecked:
    """A measurement that nothing checks.

    Attributes
    ----------
    name : str
        The stream or tank.
    grams : int
        Its value.
    most, least : int or None
        By how many grams it may be too high and too low; None if nothing bounds that.
    above, below : str
        The stream that would flow backwards beyond that.
    carries : tuple of str
        The streams whose flow follows from it, and from no other unchecked measurement.
    """

    name: str
    grams: int
    most: int | None
    least: int | None
    above: str
    below: str
    carries: tuple[str, ...]


@dataclass(frozen=True, slots=True)
class Hidden:
    """What a measurement that others check can hide.

    Attributes
    ----------
    name : str
        The stream or tank.
    grams : float
        The greatest error that the global test doesn't reject.
    value : int
        Its value in grams.
    """

    name: str
    grams: float
    value: int


def unchecked_of(block: Block) -> list[Unchecked]:
    """Return the measurements of a round that nothing checks, with what each could hide."""
    alone = {row["name"]: row for row in block.streams if row["class"] == "nonredundant"}
    signs: dict[str, list[tuple[int, Values]]] = {name: [] for name in alone}
    carries: dict[str, list[str]] = {name: [] for name in alone}
    for row in block.streams if alone else ():
        if row["class"] != "observable":
            continue
        members = [(sign, name) for sign, name in _members(row) if name in alone]
        for sign, name in members:
            signs[name].append((sign, row))
        if len(members) == 1:
            carries[members[0][1]].append(row["name"])
    return [_unchecked(row, signs[name], carries[name]) for name, row in alone.items()]


def _members(row: Values) -> Iterator[tuple[int, str]]:
    """Give the measurements that an observable stream is a sum of, by its cut."""
    parts = [(1 if part[:1] == "+" else -1, part[1:]) for part in row["parts"].split()]
    own = next((sign for sign, name in parts if name == row["name"]), 1)
    for sign, name in parts:
        if name != row["name"]:
            yield -own * sign, name


def _unchecked(row: Values, sums: list[tuple[int, Values]], carries: list[str]) -> Unchecked:
    is_tank = row["name"] == row["from"]
    # an error that is too high makes the flows too high that it adds to
    above = [(int(other["flow"]), other["name"]) for sign, other in sums if sign > 0]
    below = [(int(other["flow"]), other["name"]) for sign, other in sums if sign < 0]
    if not is_tank:
        above.append((int(row["value"]), row["name"]))
    most = min((each for each in above if each[0] >= 0), default=None)
    least = min((each for each in below if each[0] >= 0), default=None)
    return Unchecked(
        row["name"],
        int(row["value"]),
        most[0] if most else None,
        least[0] if least else None,
        most[1] if most else "",
        least[1] if least else "",
        tuple(carries),
    )


def hidden_of(balances: Balances, limits: Limits = Limits()) -> list[Hidden]:
    """Return what each measurement could hide that others check, the greatest part of its value
    first."""
    if not balances.freedom:
        return []
    root = sqrt(limits.of_period(balances.freedom))
    found = [
        Hidden(each.name, root * equals.deviation, each.grams)
        for equals in sets_of_equals(balances)
        for each in equals.members
    ]
    return sorted(found, key=lambda each: -each.grams / max(1, abs(each.value)))
