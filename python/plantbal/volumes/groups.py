"""The groups of the petroleum tables, and how far a liquid of each expands.

The tables of ASTM D1250-80 (API MPMS chapter 11.1, IP 200, ISO 91-1) for 15 degrees Celsius know a
liquid by its group and its density at 15 degrees: volumes VII (53A, 54A), VIII (53B, 54B), IX (54C)
and XIV (53D, 54D). Its coefficient of expansion there is

    alpha = A + K1 / density + K0 / density^2

with constants of the group, which were fitted to measured crude oils (A), products (B) and
lubricants (D). Products have four ranges of density, at whose borders the coefficients nearly meet.
In table C the coefficient is that of the one liquid, and somebody has measured it.

    range of products       at 15 degrees, kg/m3   constants
    gasolines               up to 770              K0 = 346.4228, K1 = 0.4388
    between                 770 to 787.5           A = -0.00336312, K0 = 2680.3206
    jet fuels, kerosenes    787.5 to 838.5         K0 = 594.5418
    gas oils, fuel oils     from 838.5             K0 = 186.9696, K1 = 0.4862

Crude oils have K0 = 613.9723, and lubricants K1 = 0.6278. Each is 1.8 times the constant of the same
table for 60 degrees Fahrenheit, which a test holds; docs/PYTHON.md says what isn't confirmed.
"""

from __future__ import annotations

import enum
from dataclasses import dataclass
from decimal import Decimal

from plantbal.causes import CausedFault
from plantbal.sentence import Sentence
from plantbal.volumes.causes import VolumeCause


class Group(enum.Enum):
    """Which of the petroleum tables holds of a liquid."""

    CRUDE = "crude"
    PRODUCTS = "products"
    COEFFICIENT = "coefficient"
    LUBRICANTS = "lubricants"

    @property
    def letter(self) -> str:
        """The letter of its tables: 54A is that of crude oils."""
        return {"crude": "A", "products": "B", "coefficient": "C", "lubricants": "D"}[self.value]


@dataclass(frozen=True)
class Expansion:
    """How far a liquid expands at 15 degrees, and how that changes with its density.

    Attributes
    ----------
    alpha : Decimal
        The coefficient, a degree.
    slope : Decimal
        Its derivative by the density in kg/m3.
    """

    alpha: Decimal
    slope: Decimal


@dataclass(frozen=True)
class _Range:
    """Constants from a density on, in kg/m3 at 15 degrees."""

    begin: Decimal
    k0: Decimal
    k1: Decimal
    a: Decimal = Decimal(0)
    is_open: bool = False  # whether it begins above that density

    def holds(self, density: Decimal) -> bool:
        """Say whether a density is in the range or above it."""
        return self.begin < density if self.is_open else self.begin <= density

    def expansion(self, density: Decimal) -> Expansion:
        """Return the thermal expansion at a density, and its derivative."""
        alpha = self.a + self.k1 / density + self.k0 / density**2
        return Expansion(alpha, -self.k1 / density**2 - 2 * self.k0 / density**3)


def _range(begin: str, k0: str, k1: str = "0", a: str = "0", is_open: bool = False) -> _Range:
    return _Range(Decimal(begin), Decimal(k0), Decimal(k1), Decimal(a), is_open)


RANGES: dict[Group, tuple[_Range, ...]] = {
    Group.CRUDE: (_range("0", "613.9723"),),
    Group.PRODUCTS: (
        _range("0", "346.4228", "0.4388"),
        _range("770", "2680.3206", "0", "-0.00336312", is_open=True),
        _range("787.5", "594.5418"),
        _range("838.5", "186.9696", "0.4862"),
    ),
    Group.LUBRICANTS: (_range("0", "0", "0.6278"),),
}
# The densities at 15 degrees of which each table speaks, in kg/m3.
DENSITIES = {
    Group.CRUDE: (Decimal("610.5"), Decimal(1075)),
    Group.PRODUCTS: (Decimal(653), Decimal(1075)),
    Group.LUBRICANTS: (Decimal(800), Decimal(1164)),
}
# The coefficients of table C, a degree.
COEFFICIENTS = Decimal("0.000486"), Decimal("0.001674")
COLDEST = Decimal(-18)
# The hottest of a density below; a denser liquid is in the tables up to 150 degrees.
_HOTTEST = ((Decimal(778), Decimal(95)), (Decimal("823.5"), Decimal(125)))
HOTTEST = Decimal(150)


def expansion(group: Group, density: Decimal) -> Expansion:
    """Return how far a liquid of a group expands; not of table C, whose liquids say it.

    Parameters
    ----------
    group : Group
        The group.
    density : Decimal
        Its density at 15 degrees, in kg/m3.
    """
    return [each for each in RANGES[group] if each.holds(density)][-1].expansion(density)


def check_temperature(group: Group, density: Decimal, temperature: Decimal) -> None:
    """Refuse a temperature, or a density, of which the table doesn't speak.

    Raises
    ------
    Fault
        If it is so.
    """
    hottest = HOTTEST
    if group is not Group.COEFFICIENT:
        low, high = DENSITIES[group]
        if not low <= density <= high:
            what = VolumeCause.DENSITY_OUTSIDE(letter=group.letter, density=density)
            form = "it goes from {low} to {high}: name the product's own group, or its factors"
            remedy = Sentence(form, low=low, high=high)
            raise CausedFault(what, text=str(density), remedy=remedy)
    if group in (Group.CRUDE, Group.PRODUCTS):
        hottest = next((most for below, most in _HOTTEST if density < below), HOTTEST)
    if not COLDEST <= temperature <= hottest:
        what = VolumeCause.TEMPERATURE_OUTSIDE(letter=group.letter, at=temperature, density=density)
        form = "it goes from {low} to {high} °C: look at the unit of the temperature"
        remedy = Sentence(form, low=COLDEST, high=hottest)
        raise CausedFault(what, text=str(temperature), remedy=remedy)
