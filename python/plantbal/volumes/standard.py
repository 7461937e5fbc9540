"""The density at 15 degrees of a sample whose density was taken at another temperature.

This is what tables 53A to 53D have. The factor needs the density at 15 degrees, which is what is
looked for, so it is found by steps: the observed density over the factor of the one before. The
tables' ends are those of the density that is found: on the way it may be beyond them. A
glass hydrometer is larger when it is warm, and reads too low by

    1 - 0.000023 (t - 15) - 0.00000002 (t - 15)^2

by which its reading is multiplied first. An oscillating tube, or a hydrometer whose reading was
corrected already, needs none of that. The procedure of 1980 rounds the observed density to
0.5 kg/m3, the temperature to 0.05 degrees, and the density at 15 degrees to 0.1 kg/m3.
"""

from __future__ import annotations

import enum
from dataclasses import dataclass
from decimal import Decimal, localcontext

from plantbal.causes import CausedFault
from plantbal.sentence import phrase
from plantbal.volumes.causes import VolumeCause
from plantbal.volumes.factor import (
    CONTEXT,
    OWN_TABLE,
    STANDARD,
    FactorTable,
    Rounding,
    exact_factor,
    to_nearest,
)
from plantbal.volumes.groups import Group, check_temperature

_STEPS = 100
_NEAR = Decimal("1e-12")
_TENTH = Decimal("0.1")
# If two ranges of products answer each other, the procedure of 1980 ends within this.
_NEAR_A_BORDER = Decimal("0.05")
_GLASS = Decimal("0.000023"), Decimal("0.00000002")


class DensityInstrument(enum.Enum):
    """By what a density was taken."""

    HYDROMETER = "hydrometer"
    DENSITOMETER = "densitometer"


@dataclass(frozen=True)
class Standard:
    """A density at 15 degrees, in kg/m3, and how far it follows the observed one.

    Attributes
    ----------
    density : Decimal
        The density at 15 degrees.
    by_density : Decimal
        Its derivative by the observed density, which carries the error of that.
    source : str
        Where it comes from: ``53B``, or ``table``.
    """

    density: Decimal
    by_density: Decimal
    source: str


def glass(temperature: Decimal) -> Decimal:
    """Return by what the reading of a glass hydrometer is multiplied at a temperature."""
    by = temperature - STANDARD
    return 1 - _GLASS[0] * by - _GLASS[1] * by**2


def at_standard(
    group: Group,
    observed: Decimal,
    temperature: Decimal,
    instrument: DensityInstrument,
    rounding: Rounding = Rounding.PROCEDURE,
    coefficient: Decimal | None = None,
) -> Standard:
    """Return the density at 15 degrees of a liquid, as tables 53A to 53D have it.

    Parameters
    ----------
    group : Group
        The group of the liquid.
    observed : Decimal
        The density that was read, in kg/m3.
    temperature : Decimal
        The temperature at which it was read, in degrees Celsius.
    instrument : DensityInstrument
        By what it was read.
    rounding : Rounding
        How it is rounded.
    coefficient : Decimal, optional
        The coefficient of expansion at 15 degrees, for table C.

    Raises
    ------
    Fault
        If the tables don't speak of such a liquid.
    """
    with localcontext(CONTEXT):
        if rounding is Rounding.PROCEDURE:
            observed = to_nearest(observed, Decimal("0.5"))
            temperature = to_nearest(temperature, Decimal("0.05"))
        read = observed * (glass(temperature) if instrument is DensityInstrument.HYDROMETER else 1)
        found = read
        for _ in range(_STEPS):
            factor = exact_factor(group, found, temperature, coefficient)
            before, found = found, read / factor.value
            if abs(found - before) < _NEAR:
                break
        if abs(found - before) >= _NEAR_A_BORDER:
            what = VolumeCause.NO_STANDARD_DENSITY(density=observed, at=temperature)
            raise CausedFault(what, text=str(observed), remedy=phrase("look at both figures"))
        check_temperature(group, to_nearest(found, _TENTH), temperature)
        # found = read / F(found), so its derivative by read is 1 / (F + found F')
        slope = (read / observed) / (factor.value + found * factor.by_density)
        if rounding is Rounding.PROCEDURE:
            found = to_nearest(found, _TENTH)
        return Standard(found, slope, f"53{group.letter}")


def by_table(table: FactorTable, observed: Decimal, temperature: Decimal) -> Standard:
    """Return the density at the standard temperature by a product's own factors."""
    with localcontext(CONTEXT):
        factor = table.at(temperature).value
        return Standard(observed / factor, 1 / factor, OWN_TABLE)
