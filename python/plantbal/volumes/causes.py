"""Why a volume, a density or a temperature can't be calculated with."""

from __future__ import annotations

from enum import unique

from plantbal.causes import Causes


@unique
class VolumeCause(Causes):
    """What the tables, the formula or the tank don't have."""

    NO_COEFFICIENT = "table 54C has no coefficient"
    COEFFICIENT_OUTSIDE = "table 54C has no coefficient {coefficient}"
    OUTSIDE_OF_FACTORS = "the factors of {name} go from {first} to {last} °C, and not to {at} °C"
    DENSITY_OUTSIDE = "table 54{letter} has no liquid of {density} kg/m3 at 15 °C"
    TEMPERATURE_OUTSIDE = "table 54{letter} has no {at} °C of a liquid of {density} kg/m3"
    EXPANSION_UNKNOWN = "nothing says how {name} expands"
    DENSITY_OF_NO_PRODUCT = "the density {density} kg/m3 was taken at {at} °C"
    INSTRUMENT_UNTOLD = "the density {density} kg/m3 was taken at {at} °C, and by what isn't said"
    TEMPERATURE_OF_NO_PRODUCT = "a volume has {at} °C, and no product is named"
    NO_STANDARD_DENSITY = "no density at 15 °C gives {density} kg/m3 at {at} °C"
    IN_CRITICAL_ZONE = "{level} mm is in the critical zone of the roof, {rests} to {floats} mm"
    MORE_WATER_THAN_TANK = "{level} mm of water hold {water} m3, and the tank {volume} m3 in all"
    ROOF_TOO_HEAVY = "{volume} m3 of product weigh less than the roof that floats on them"
