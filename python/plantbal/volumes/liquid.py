"""A liquid: its density at the standard temperature, and its factor at another one."""

from __future__ import annotations

from dataclasses import dataclass, field
from decimal import Decimal

from plantbal.causes import CausedFault
from plantbal.sentence import phrase
from plantbal.volumes.causes import VolumeCause
from plantbal.volumes.factor import (
    NO_CHANGE,
    STANDARD,
    FactorTable,
    Rounding,
    VolumeFactor,
    petroleum,
)
from plantbal.volumes.groups import Group
from plantbal.volumes.standard import DensityInstrument, Standard, at_standard, by_table


@dataclass(frozen=True)
class MeasuredFigure:
    """A figure that was measured, and its standard deviation in the same unit."""

    value: Decimal
    sd: Decimal = Decimal(0)


@dataclass(frozen=True)
class Product:
    """How the volume of a product follows its temperature.

    Attributes
    ----------
    name : str
        The product.
    group : Group or None
        Its group of the petroleum tables.
    coefficient : Decimal or None
        Its coefficient of expansion, for table C.
    table : FactorTable or None
        Its own factors, which are taken in place of a group.
    rounding : Rounding
        How a factor of the petroleum tables is rounded.
    """

    name: str
    group: Group | None = None
    coefficient: Decimal | None = None
    table: FactorTable | None = None
    rounding: Rounding = Rounding.PROCEDURE

    def factor(self, density: Decimal, temperature: Decimal) -> VolumeFactor:
        """Return the factor at a temperature, of a density at 15 degrees in kg/m3.

        Raises
        ------
        Fault
            If there is none.
        """
        if self.table is not None:
            return self.table.at(temperature)
        if self.group is None:
            raise self._unknown()
        return petroleum(self.group, density, temperature, self.rounding, self.coefficient)

    def standard(self, observed: Decimal, temperature: Decimal, by: DensityInstrument) -> Standard:
        """Return the density at 15 degrees of one that was observed at another temperature.

        Raises
        ------
        Fault
            If there is none.
        """
        if self.table is not None:
            return by_table(self.table, observed, temperature)
        if self.group is None:
            raise self._unknown()
        given = self.rounding, self.coefficient
        return at_standard(self.group, observed, temperature, by, *given)

    def _unknown(self) -> CausedFault:
        what = VolumeCause.EXPANSION_UNKNOWN(name=self.name)
        remedy = phrase(
            "give it a group in the sheet products (crude, products, lubricants), or rows in "
            "the sheet factors"
        )
        return CausedFault(what, text=self.name, remedy=remedy)


@dataclass(frozen=True)
class Sample:
    """A density as it was taken.

    Attributes
    ----------
    density : MeasuredFigure
        In kg/m3.
    at : Decimal or None
        The temperature at which it was taken; None if it is the standard one, or if no
        temperature plays a part.
    by : DensityInstrument or None
        By what it was taken, if that was at another temperature.
    source : str
        Where it stands.
    """

    density: MeasuredFigure
    at: Decimal | None = None
    by: DensityInstrument | None = None
    source: str = ""

    def at_15(self, product: Product | None) -> tuple[MeasuredFigure, str]:
        """Return the density at 15 degrees, and the table that gave it; its own if none did.

        Raises
        ------
        Fault
            If it was taken at another temperature, and product or instrument isn't known.
        """
        if self.at is None or self.at == STANDARD:
            return self.density, ""
        if product is None:
            what = VolumeCause.DENSITY_OF_NO_PRODUCT(density=self.density.value, at=self.at)
            remedy = phrase(
                "name the product in the sheets streams or tanks, and say in the sheet products "
                "how it expands"
            )
            raise CausedFault(what, text=str(self.at), remedy=remedy)
        if self.by is None and product.table is None:
            what = VolumeCause.INSTRUMENT_UNTOLD(density=self.density.value, at=self.at)
            remedy = phrase("write hydrometer or densitometer into its column by")
            raise CausedFault(what, text=str(self.at), remedy=remedy)
        found = product.standard(
            self.density.value, self.at, self.by or DensityInstrument.DENSITOMETER
        )
        sd = abs(found.by_density) * self.density.sd
        return MeasuredFigure(found.density, sd), found.source


@dataclass(frozen=True)
class Liquid:
    """What has a volume at a temperature.

    Attributes
    ----------
    sample : Sample
        Its density.
    product : Product or None
        The product; without it no volume is corrected.
    temperature : MeasuredFigure or None
        The temperature of the volume; without it the density is taken as that of the volume.
    """

    sample: Sample
    product: Product | None = None
    temperature: MeasuredFigure | None = None
    _found: list[Weight] = field(default_factory=list, repr=False, compare=False)

    def weight(self) -> Weight:
        """Return what a cubic metre of it weighs.

        Raises
        ------
        Fault
            If the product, or how it expands, isn't known.
        """
        if not self._found:
            self._found.append(_weight(self))
        return self._found[0]


@dataclass(frozen=True)
class Weight:
    """What a cubic metre of a liquid weighs at its temperature.

    Attributes
    ----------
    density : MeasuredFigure
        The density at 15 degrees, or at the temperature of the volume if nothing is corrected.
    density_by : str
        The table that gave it; empty if it is what was taken.
    factor : VolumeFactor
        The volume correction factor.
    kilograms : Decimal
        What a cubic metre weighs.
    by_density, by_temperature : Decimal
        The standard deviations of that by the error of the density, and by that of the temperature.
    """

    density: MeasuredFigure
    density_by: str
    factor: VolumeFactor
    kilograms: Decimal
    by_density: Decimal
    by_temperature: Decimal

    @property
    def variance(self) -> Decimal:
        """The variance of what a cubic metre weighs."""
        return self.by_density**2 + self.by_temperature**2


def _weight(liquid: Liquid) -> Weight:
    density, source = liquid.sample.at_15(liquid.product)
    factor, sd = NO_CHANGE, Decimal(0)
    if liquid.temperature is not None:
        if liquid.product is None:
            what = VolumeCause.TEMPERATURE_OF_NO_PRODUCT(at=liquid.temperature.value)
            remedy = phrase("name it in the sheets streams or tanks, or leave the temperature out")
            raise CausedFault(what, text=str(liquid.temperature.value), remedy=remedy)
        factor = liquid.product.factor(density.value, liquid.temperature.value)
        sd = abs(density.value * factor.by_temperature) * liquid.temperature.sd
    steep = factor.value + density.value * factor.by_density
    kilograms = density.value * factor.value
    return Weight(density, source, factor, kilograms, abs(steep) * density.sd, sd)
