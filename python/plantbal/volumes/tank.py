"""What a tank holds: its volume by its table, less water and roof, at its temperature.

    level  --table-->  volume                          5,368 mm   4,312.5 m3
    water  --table-->  volume of free water              120 mm      61.2 m3
    product = volume - water                                      4,251.3 m3
    mass = product * density at 15 degrees * factor - roof

A floating roof that floats displaces its own mass of product, so that mass is subtracted: as
volume, it is the mass over the density at the temperature of the tank. Below the critical zone the
roof stands on its legs and displaces nothing. Within the zone it does partly, and nobody knows how
much: such a level is refused, unless the tank has an error for it; then the part is taken to rise
evenly through the zone.

Each figure has its error, and the errors are independent: the variance of the mass is the sum of
their parts, each the square of a derivative times a standard deviation.
"""

from __future__ import annotations

from dataclasses import dataclass
from decimal import Decimal, localcontext

from plantbal.causes import CausedFault
from plantbal.sentence import phrase
from plantbal.volumes.causes import VolumeCause
from plantbal.volumes.factor import CONTEXT
from plantbal.volumes.liquid import Liquid, MeasuredFigure, Weight


@dataclass(frozen=True)
class Depth:
    """A level and what the table has of it.

    Attributes
    ----------
    level : MeasuredFigure
        The level, in mm.
    volume : Decimal
        The volume by the table, in m3.
    slope : Decimal
        What a millimetre more holds, in m3.
    """

    level: MeasuredFigure
    volume: Decimal
    slope: Decimal

    @property
    def sd(self) -> Decimal:
        """The standard deviation of the volume by that of the level."""
        return self.slope * self.level.sd


@dataclass(frozen=True)
class Roof:
    """A floating roof.

    Attributes
    ----------
    mass : MeasuredFigure
        Its mass, in kg.
    rests, floats : Decimal
        The critical zone, in mm: up to here it stands on its legs, and from here on it floats.
    zone : Decimal or None
        The standard deviation of what it displaces within the zone, in kg; None refuses the zone.
    """

    mass: MeasuredFigure
    rests: Decimal
    floats: Decimal
    zone: Decimal | None = None

    def displaced(self, level: Decimal) -> MeasuredFigure:
        """Return the mass that it displaces at a level, in kg.

        Raises
        ------
        Fault
            If the level is in the critical zone, and there is no error for it.
        """
        if level <= self.rests:
            return MeasuredFigure(Decimal(0))
        if level >= self.floats:
            return self.mass
        if self.zone is None:
            what = VolumeCause.IN_CRITICAL_ZONE(level=level, rests=self.rests, floats=self.floats)
            remedy = phrase(
                "take the dip where the roof floats, or rests on its legs; or give the tank a zone error"
            )
            raise CausedFault(what, text=str(level), remedy=remedy)
        part = (level - self.rests) / (self.floats - self.rests)
        sd = (part**2 * self.mass.sd**2 + self.zone**2).sqrt()
        return MeasuredFigure(part * self.mass.value, sd)


@dataclass(frozen=True)
class Gauging:
    """What was measured of a tank.

    Attributes
    ----------
    depth : Depth
        Its level.
    liquid : Liquid
        What is in it.
    water : Depth or None
        The level of its free water.
    roof : Roof or None
        Its floating roof.
    """

    depth: Depth
    liquid: Liquid
    water: Depth | None = None
    roof: Roof | None = None

    def content(self) -> Content:
        """Return what the tank holds.

        Raises
        ------
        Fault
            If there is more water than anything, or the roof is heavier than what floats it.
        """
        with localcontext(CONTEXT):
            return _content(self)


@dataclass(frozen=True)
class Content:
    """What a tank holds.

    Attributes
    ----------
    grams, variance : Decimal
        Its mass in grams, and the variance of that.
    product : Decimal
        The volume of what isn't water, with what the roof displaces, in m3.
    roof : MeasuredFigure
        The mass that the roof displaces, in kg.
    standard : Decimal
        The volume at 15 degrees of what is there, in m3.
    weight : Weight
        What a cubic metre of it weighs, and by what density and factor.
    """

    grams: Decimal
    variance: Decimal
    product: Decimal
    roof: MeasuredFigure
    standard: Decimal
    weight: Weight


def _content(of: Gauging) -> Content:
    weight = of.liquid.weight()
    water, water_sd = (of.water.volume, of.water.sd) if of.water else (Decimal(0), Decimal(0))
    product = of.depth.volume - water
    if product < 0:
        assert of.water is not None
        level = of.water.level.value
        what = VolumeCause.MORE_WATER_THAN_TANK(level=level, water=water, volume=of.depth.volume)
        raise CausedFault(what, text=str(water), remedy=phrase("look at both levels"))
    roof = of.roof.displaced(of.depth.level.value) if of.roof else MeasuredFigure(Decimal(0))
    kilograms = product * weight.kilograms - roof.value
    if kilograms < 0:
        what = VolumeCause.ROOF_TOO_HEAVY(volume=product)
        remedy = phrase("look at its mass and its critical zone")
        raise CausedFault(what, text=str(roof.value), remedy=remedy)
    by_level = weight.kilograms**2 * (of.depth.sd**2 + water_sd**2)
    variance = by_level + product**2 * weight.variance + roof.sd**2
    standard = kilograms / weight.density.value
    return Content(kilograms * 1000, variance * 10**6, product, roof, standard, weight)
