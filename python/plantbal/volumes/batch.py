"""What a volume of a ticket or a meter weighs, at its temperature.

The error of the volume is that of its ticket or meter. That of the density and of the temperature
come on top of it: for one figure their squares add up. A density of several days is off by the same
on all of them, so its part counts as often as it has figures, as that of a moisture does.
"""

from __future__ import annotations

from dataclasses import dataclass
from decimal import Decimal, localcontext

from plantbal.volumes.factor import CONTEXT
from plantbal.volumes.liquid import Liquid, Weight


@dataclass(frozen=True)
class Batch:
    """The mass of a volume.

    Attributes
    ----------
    grams : Decimal
        Its mass in grams.
    standard : Decimal
        Its volume at 15 degrees, in m3.
    by_density, by_temperature : Decimal
        The variances of the mass by the error of the density, and by that of the temperature.
    weight : Weight
        What a cubic metre of it weighs, and by what density and factor.
    """

    grams: Decimal
    standard: Decimal
    by_density: Decimal
    by_temperature: Decimal
    weight: Weight


def batch(volume: Decimal, liquid: Liquid) -> Batch:
    """Return what a volume weighs.

    Parameters
    ----------
    volume : Decimal
        The volume, in m3.
    liquid : Liquid
        What it is of.

    Raises
    ------
    Fault
        If the product, or how it expands, isn't known.
    """
    with localcontext(CONTEXT):
        weight = liquid.weight()
        thousand = volume * 1000  # grams of one kg/m3
        variances = (thousand * weight.by_density) ** 2, (thousand * weight.by_temperature) ** 2
        standard = volume * weight.factor.value
        return Batch(thousand * weight.kilograms, standard, *variances, weight)
