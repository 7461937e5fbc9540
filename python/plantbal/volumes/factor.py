"""Volume correction factors: by the petroleum tables' formula, or by a product's own table.

A volume at a temperature t times the factor is the volume at the standard temperature. The formula
of tables 54A to 54D is

    factor = exp(-alpha d (1 + 0.8 alpha d)),  d = t - 15 °C

with the coefficient of `plantbal.volumes.groups`. The procedure of 1980 rounds what goes in (the
density to 0.5 kg/m3, the temperature to 0.05 degrees, the coefficient to seven decimals) and the
factor: to five decimals below 1, and to four from there on, which are five figures both times. A
factor that isn't rounded has all the digits of the formula.

Errors are carried by the derivatives of the formula that isn't rounded.
"""

from __future__ import annotations

import enum
from collections.abc import Sequence
from dataclasses import dataclass
from decimal import ROUND_HALF_UP, Context, Decimal, localcontext

from plantbal.causes import CausedFault
from plantbal.sentence import Sentence
from plantbal.volumes.causes import VolumeCause
from plantbal.volumes.groups import COEFFICIENTS, Expansion, Group, check_temperature, expansion

# Whole figures of amounts have some 20 digits; nothing here comes near to losing one.
CONTEXT = Context(prec=40)
# What is said in place of a petroleum table, if a factor is the product's own.
OWN_TABLE = "table"
STANDARD = Decimal(15)
_CURVE = Decimal("0.8")


class Rounding(enum.Enum):
    """How a factor of the petroleum tables is rounded."""

    PROCEDURE = "procedure"  # as the procedure of 1980 has it
    NONE = "none"


@dataclass(frozen=True)
class VolumeFactor:
    """A volume correction factor.

    Attributes
    ----------
    value : Decimal
        The factor.
    by_temperature, by_density : Decimal
        Its derivatives, a degree and a kg/m3.
    source : str
        Where it comes from: ``54B``, or ``table``.
    """

    value: Decimal
    by_temperature: Decimal
    by_density: Decimal
    source: str


NO_CHANGE = VolumeFactor(Decimal(1), Decimal(0), Decimal(0), "")


def to_nearest(number: Decimal, step: Decimal) -> Decimal:
    """Return the multiple of a step that is nearest; halves away from 0, as the procedure has it."""
    with localcontext(CONTEXT):
        return (number / step).quantize(Decimal(1), ROUND_HALF_UP) * step


def five_figures(factor: Decimal) -> Decimal:
    """Return a factor as the procedure rounds it."""
    places = Decimal("0.0001") if factor >= 1 else Decimal("0.00001")
    return factor.quantize(places, ROUND_HALF_UP)


def petroleum(
    group: Group,
    density: Decimal,
    temperature: Decimal,
    rounding: Rounding = Rounding.PROCEDURE,
    coefficient: Decimal | None = None,
) -> VolumeFactor:
    """Return the factor of tables 54A to 54D.

    Parameters
    ----------
    group : Group
        The group of the liquid.
    density : Decimal
        Its density at 15 degrees, in kg/m3.
    temperature : Decimal
        The temperature of the volume, in degrees Celsius.
    rounding : Rounding
        How it is rounded.
    coefficient : Decimal, optional
        The coefficient of expansion at 15 degrees, for table C.

    Raises
    ------
    Fault
        If the table doesn't speak of such a liquid or temperature, or has no coefficient.
    """
    check_temperature(group, density, temperature)
    with localcontext(CONTEXT):
        exact = exact_factor(group, density, temperature, coefficient)
        value = exact.value
        if rounding is Rounding.PROCEDURE:
            near = to_nearest(density, Decimal("0.5"))
            found = _expansion(group, near, coefficient)
            rounded = Expansion(to_nearest(found.alpha, Decimal("1e-7")), found.slope)
            by = to_nearest(temperature, Decimal("0.05")) - STANDARD
            value = five_figures(_factor(rounded, by).value)
        return VolumeFactor(value, exact.by_temperature, exact.by_density, f"54{group.letter}")


def exact_factor(
    group: Group, density: Decimal, temperature: Decimal, coefficient: Decimal | None
) -> VolumeFactor:
    """Return the factor by the formula, without rounding, also beyond the ends of the tables.

    Raises
    ------
    Fault
        If table C has no coefficient.
    """
    return _factor(_expansion(group, density, coefficient), temperature - STANDARD)


def _expansion(group: Group, density: Decimal, coefficient: Decimal | None) -> Expansion:
    if group is not Group.COEFFICIENT:
        return expansion(group, density)
    low, high = COEFFICIENTS
    if coefficient is None or not low <= coefficient <= high:
        what = VolumeCause.NO_COEFFICIENT()
        if coefficient is not None:
            what = VolumeCause.COEFFICIENT_OUTSIDE(coefficient=coefficient)
        form = "write the product's coefficient of expansion, {low} to {high} a degree"
        remedy = Sentence(form, low=low, high=high)
        raise CausedFault(what, text=str(coefficient or ""), remedy=remedy)
    return Expansion(coefficient, Decimal(0))


def _factor(of: Expansion, by: Decimal) -> VolumeFactor:
    """Return the factor at so many degrees above 15, and its derivatives."""
    ad = of.alpha * by
    value = (-ad * (1 + _CURVE * ad)).exp()
    steep = -(1 + 2 * _CURVE * ad) * value  # the derivative by alpha d
    return VolumeFactor(value, steep * of.alpha, steep * by * of.slope, "")


@dataclass(frozen=True)
class FactorTable:
    """A product's own factors, by temperatures that rise; linear between neighbours.

    Attributes
    ----------
    product : str
        The product.
    points : sequence of (Decimal, Decimal)
        Temperatures and factors.
    """

    product: str
    points: Sequence[tuple[Decimal, Decimal]]

    def at(self, temperature: Decimal) -> VolumeFactor:
        """Return the factor at a temperature, with the steeper slope if it is at a point.

        Raises
        ------
        Fault
            If the table doesn't go so far.
        """
        beside = [
            (below, above)
            for below, above in zip(self.points, self.points[1:])
            if below[0] <= temperature <= above[0]
        ]
        if not beside:
            first, last = self.points[0][0], self.points[-1][0]
            what = VolumeCause.OUTSIDE_OF_FACTORS(
                name=self.product, first=first, last=last, at=temperature
            )
            remedy = Sentence("add a row to the sheet factors")
            raise CausedFault(what, text=str(temperature), remedy=remedy)
        with localcontext(CONTEXT):
            slopes = [(high[1] - low[1]) / (high[0] - low[0]) for low, high in beside]
            low, _ = beside[0]
            value = low[1] + slopes[0] * (temperature - low[0])
            return VolumeFactor(value, max(slopes, key=abs), Decimal(0), OWN_TABLE)
