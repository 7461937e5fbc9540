"""Anybody's figures of a block, as whole flows that balance and prices of its nodes.

The figures may be floats: they are rounded to grams, and what the rounding leaves over falls on a
spanning forest. What then is handed out is certified for itself, so nothing rests on the figures
being right; those that don't balance are refused, since others would be handed out in their place.

Without multipliers the prices are those of weighted least squares on the corrections. With the
weights of the gap its normal equations say that the flows of the prices balance, whatever balanced
flows are given: so these are the prices of the solution itself, and no others give a smaller gap.
"""

from __future__ import annotations

from collections.abc import Mapping
from dataclasses import dataclass
from decimal import Decimal
from fractions import Fraction
from math import isqrt
from numbers import Integral, Real
from typing import Any

from plantbal.amounts import GRAMS_A_TONNE, decimal_of, tonnes_text
from plantbal.faults import Fault, InputFault, Place
from plantbal.report.blocks import Block
from plantbal.study.certificate import BlockSolution, balanced, gap_of, is_met, signed_members
from plantbal.study.plant import NumberedPlant, grounds_of, plant_of
from plantbal.study.prices import UNIT, prices_of, require_fit
from plantbal.study.uncertified import Uncertified

# How many grams the units of figures have.
_GRAMS = {"tonnes": GRAMS_A_TONNE, "grams": 1}


@dataclass(frozen=True)
class Figures:
    """What another engine found for a block.

    Attributes
    ----------
    flows : mapping
        The flow of each measured stream by its name; of others if they are known.
    multipliers : mapping or None
        The multipliers of the nodes' balances by their names, such that a flow is its measured
        value and its variance times the rise of the multiplier from its first end to its last.
    unit : {'tonnes', 'grams'}
        What flows are in; multipliers are in one over it.
    """

    flows: Mapping[str, Any]
    multipliers: Mapping[str, Any] | None = None
    unit: str = "tonnes"

    def __post_init__(self) -> None:
        if self.unit not in _GRAMS:
            what = f"there is no unit {self.unit!r} of figures"
            raise InputFault(what, text=str(self.unit), remedy="use 'tonnes' or 'grams'")

    def solution(self, block: Block) -> BlockSolution:
        """Return the figures as whole flows that balance, and prices.

        Raises
        ------
        InputFault
            If a figure isn't a number, lacks, or is of no stream or node of the block.
        Uncertified
            If they don't balance, or aren't near enough to the least squares solution.
        """
        plant = plant_of(block)
        given = _numbers("flows", self.flows, list(plant.place), block)
        lacking = [s["name"] for s in plant.streams if s["value"] and s["name"] not in given]
        if lacking:
            what = f"there is no flow of {', '.join(lacking[:5])}{' ..' * (len(lacking) > 5)}"
            place = Place(file="flows", row=block.subject)
            raise InputFault(what, place=place, remedy="give that of each measured stream")
        grams = {name: figure * _GRAMS[self.unit] for name, figure in given.items()}
        flows = balanced(plant, [round(grams.get(name, 0)) for name in plant.place])
        _require_near(block, plant, grams, flows)
        prices = prices_of(plant) if self.multipliers is None else self._prices(block, plant)
        g, h = gap_of(plant, prices, flows)
        if not is_met(block, g, h):
            raise _not_least(block, g, h, self.multipliers is not None)
        return BlockSolution(prices, flows)

    def _prices(self, block: Block, plant: NumberedPlant) -> list[int]:
        """Return the multipliers as prices: one for each group, and 0 for that of ``env``."""
        assert self.multipliers is not None
        given = _numbers("multipliers", self.multipliers, plant.names, block)
        of_group: dict[int, list[Fraction]] = {}
        for name, group in zip(plant.names, plant.group):
            if name in given:
                of_group.setdefault(group, []).append(given[name])
        mean = {group: sum(some) / len(some) for group, some in of_group.items()}
        price = {}
        for group, ground in grounds_of(plant).items():
            if group not in mean and group != plant.group[0]:
                what = f"there is no multiplier of {plant.names[group]}"
                place = Place(file="multipliers", row=block.subject)
                raise InputFault(what, place=place, remedy="give that of each node's balance")
            rise = mean.get(group, Fraction(0)) - mean.get(ground, Fraction(0))
            price[group] = round(UNIT * rise / _GRAMS[self.unit])
        prices = [price.get(group, 0) for group in plant.group]
        require_fit(plant, prices)
        return prices


def _numbers(
    what: str, figures: Mapping[str, Any], names: list[str], block: Block
) -> dict[str, Fraction]:
    """Return figures by their names, exactly, without those that are missing."""
    known = set(names)
    found = {}
    for name, value in figures.items():
        place = Place(file=what, row=f"{block.subject}, {name}")
        number = _number(value, place)
        if number is None:
            continue
        if name not in known:
            kind = "stream" if what == "flows" else "node"
            raise InputFault(f"there is no {kind} of this name", place=place, remedy="correct it")
        found[str(name)] = number
    return found


def _number(value: Any, place: Place) -> Fraction | None:
    """Return a number exactly, and a float as what it is; None if it is missing."""
    import pandas

    if value is None or pandas.api.types.is_scalar(value) and pandas.isna(value):
        return None
    try:
        if isinstance(value, (Decimal, str)):
            return Fraction(decimal_of(value, "it"))
        if isinstance(value, Fraction):
            return value
        if isinstance(value, Integral) and not isinstance(value, bool):
            return Fraction(int(value))
        if isinstance(value, Real) and not isinstance(value, bool):
            return Fraction(float(value))
    except (Fault, OverflowError) as error:
        said = error.what if isinstance(error, Fault) else f"it is {value}, which isn't a number"
        raise InputFault(said, place=place, text=str(value), remedy="give a number") from error
    what = f"it is {value!r}, of type {type(value).__name__}"
    raise InputFault(what, place=place, text=repr(value), remedy="give a number")


def _require_near(
    block: Block, plant: NumberedPlant, given: Mapping[str, Fraction], flows: list[int]
) -> None:
    """Return if flows that balance are near those that were given.

    They may differ by rounding, and by as much as a report that has converged may: the gap's part of
    the standard deviation of what determines the flow.
    """
    gap = int(block.head["gap"])
    for stream in plant.streams:
        members = signed_members(plant, stream)
        name = stream["name"]
        if members is None or name not in given:
            continue
        variance = sum(plant.variance[place] for _, place in members)
        flow = flows[plant.place[name]]
        if abs(given[name] - flow) > gap * isqrt(variance) // 1000 + len(flows):
            raise Uncertified(
                f"the figures of {block.subject} don't balance: {name} is given as "
                f"{tonnes_text(round(given[name]), 6)} t, and the others leave "
                f"{tonnes_text(flow, 6)} t for it",
                subject=block.subject,
                test="balance",
                name=name,
                remedy="let the engine find a closer solution, or allow a greater gap",
            )


def _not_least(block: Block, g: int, h: int, has_multipliers: bool) -> Uncertified:
    """Return what is said of figures that aren't near enough to the least squares solution."""
    thousandths = -(-g * 2**h * 1000 // 2**20)
    remedy = "check the variances and bounds that the engine used"
    if has_multipliers:
        remedy = (
            "check their sign and unit: flow = value + variance * (multiplier of to - that of "
            "from); or leave the multipliers out"
        )
    return Uncertified(
        f"the figures of {block.subject} are up to {thousandths:,} thousandths of a standard "
        f"deviation from the least squares solution, and {block.head['gap']} are allowed",
        subject=block.subject,
        test="gap",
        remedy=remedy,
    )
