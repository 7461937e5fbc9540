"""Volume correction step by step: each rounding by itself, factors worked by hand, tables 53 and 54 inverse.

No value here is from a printed copy of the tables: what is tested is that the steps of the procedure are
carried out as they are described, by arithmetic that anybody can do again.
"""

from __future__ import annotations

from dataclasses import dataclass
from decimal import Decimal

import pytest

from plantbal.causes import CausedFault
from plantbal.volumes.causes import VolumeCause
from plantbal.volumes.factor import Rounding, five_figures, petroleum, to_nearest
from plantbal.volumes.groups import DENSITIES, RANGES, Group
from plantbal.volumes.standard import DensityInstrument, at_standard

D = Decimal
ANY = D(800)  # of table 54C, whose factor follows no density


# ---- each step by itself


@pytest.mark.parametrize(
    ("number", "step", "nearest"),
    [
        # densities to 0.5 kg/m3: a quarter is a half, and goes up
        ("865.24", "0.5", "865.0"),
        ("865.25", "0.5", "865.5"),
        ("865.74", "0.5", "865.5"),
        ("865.75", "0.5", "866.0"),
        # temperatures to 0.05 degrees, away from 0 on both sides
        ("24.974", "0.05", "24.95"),
        ("24.975", "0.05", "25.00"),
        ("-4.974", "0.05", "-4.95"),
        ("-4.975", "0.05", "-5.00"),
        # a density at 15 degrees to 0.1 kg/m3, a coefficient to seven decimals
        ("860.449", "0.1", "860.4"),
        ("860.45", "0.1", "860.5"),
        ("0.00082054999", "1e-7", "0.0008205"),
        ("0.00082055", "1e-7", "0.0008206"),
    ],
)
def test_figures_are_rounded_to_the_nearest_step(number: str, step: str, nearest: str) -> None:
    assert to_nearest(D(number), D(step)) == D(nearest)


@pytest.mark.parametrize(
    ("factor", "rounded"),
    [
        ("0.991774", "0.99177"),
        ("0.991775", "0.99178"),
        ("0.9999949", "0.99999"),
        ("0.999995", "1.00000"),
        ("1.00004", "1.0000"),
        ("1.00005", "1.0001"),
        ("1.00985", "1.0099"),
    ],
)
def test_a_factor_has_five_figures(factor: str, rounded: str) -> None:
    assert str(five_figures(D(factor))) == rounded


def test_the_step_of_a_density_is_that_of_its_factors() -> None:
    """From 864.75 up to below 865.25 a density has the factor of 865, and another one outside."""
    own = petroleum(Group.CRUDE, D(865), D(95)).value
    for density in ("864.75", "864.9", "865.1", "865.2499"):
        assert petroleum(Group.CRUDE, D(density), D(95)).value == own, density
    for density in ("864.7499", "865.25"):
        assert petroleum(Group.CRUDE, D(density), D(95)).value != own, density


def test_the_step_of_a_temperature_is_that_of_its_factors() -> None:
    own = petroleum(Group.CRUDE, D(865), D(25)).value
    for temperature in ("24.975", "25.0249"):
        assert petroleum(Group.CRUDE, D(865), D(temperature)).value == own, temperature
    for temperature in ("24.9749", "25.025"):
        assert petroleum(Group.CRUDE, D(865), D(temperature)).value != own, temperature


def test_the_seventh_decimal_of_a_coefficient_decides() -> None:
    """Two coefficients that are the same to seven decimals have one factor, also 135 degrees off."""
    at = {
        text: petroleum(Group.COEFFICIENT, ANY, D(150), coefficient=D(text)).value
        for text in COEFFICIENTS
    }
    first, second, third = at.values()
    assert first == second != third
    exact = [
        petroleum(Group.COEFFICIENT, ANY, D(150), Rounding.NONE, D(text)).value
        for text in COEFFICIENTS
    ]
    assert len({*exact}) == 3


COEFFICIENTS = ("0.00100005", "0.00100014", "0.00100015")


# ---- factors worked by hand


@dataclass(frozen=True)
class Worked:
    """A factor with its steps, as somebody writes them down with a pocket calculator.

    Attributes
    ----------
    group : Group
        The table.
    given : tuple of str
        The density, or the coefficient of table C, and the temperature.
    rounded : tuple of str
        Both after rounding.
    coefficient : str
        The coefficient to twelve decimals, and then to seven.
    """

    group: Group
    given: tuple[str, str]
    rounded: tuple[str, str]
    coefficient: tuple[str, str]
    by: str  # degrees above 15
    ad: str  # the rounded coefficient times these
    exponent: str  # ad (1 + 0.8 ad), to twelve decimals
    factor: str  # exp(-exponent), to nine decimals
    printed: str


WORKED = {
    # 865.2 -> 865.0; 24.98 / 0.05 = 499.6 -> 500 steps = 25.00
    # 613.9723 / (865.0 x 865.0 = 748,225) = 0.000820571753 -> 0.0008206
    # 0.0008206 x 10.00 = 0.008206; x (1 + 0.0065648) = 0.008259870749
    # 1 - 0.00825987075 + 0.00003411273 - 0.00000009392 + 0.00000000019 = 0.991774148 -> 0.99177
    "54A above 15 degrees": Worked(
        *(Group.CRUDE, ("865.2", "24.98"), ("865.0", "25.00")),
        *(("0.000820571753", "0.0008206"), "10.00", "0.008206", "0.008259870749"),
        *("0.991774148", "0.99177"),
    ),
    # 790.0; 4.97 / 0.05 = 99.4 -> 99 steps = 4.95, which is 10.05 below 15
    # 613.9723 / (790.0 x 790.0 = 624,100) = 0.000983772312 -> 0.0009838
    # 0.0009838 x -10.05 = -0.00988719; x (1 - 0.007909752) = -0.009808984779
    # 1 + 0.00980898478 + 0.00004810809 + 0.00000015730 + 0.00000000039 = 1.009857251 -> 1.0099
    "54A below 15 degrees": Worked(
        *(Group.CRUDE, ("790.0", "4.97"), ("790.0", "4.95")),
        *(("0.000983772312", "0.0009838"), "-10.05", "-0.00988719", "-0.009808984779"),
        *("1.009857251", "1.0099"),
    ),
    # 740.25 -> 740.5, a half up; 25.02 / 0.05 = 500.4 -> 25.00
    # 346.4228 / 548,340.25 + 0.4388 / 740.5 = 0.000631766135 + 0.000592572586 = 0.001224338720 -> 0.0012243
    # 0.012243 x 1.0097944 = 0.012362912839
    # 1 - 0.01236291284 + 0.00007642081 - 0.00000031493 + 0.00000000097 = 0.987713194 -> 0.98771
    "54B, up to 770": Worked(
        *(Group.PRODUCTS, ("740.25", "25.02"), ("740.5", "25.00")),
        *(("0.001224338720", "0.0012243"), "10.00", "0.012243", "0.012362912839"),
        *("0.987713194", "0.98771"),
    ),
    # 780.1 -> 780.0; 24.975 -> 25.00, a half up
    # 2680.3206 / 608,400 - 0.00336312 = 0.004405523669 - 0.00336312 = 0.001042403669 -> 0.0010424
    # 0.010424 x 1.0083392 = 0.010510927821
    # 1 - 0.01051092782 + 0.00005523980 - 0.00000019354 + 0.00000000051 = 0.989544119 -> 0.98954
    "54B, between 770 and 787.5": Worked(
        *(Group.PRODUCTS, ("780.1", "24.975"), ("780.0", "25.00")),
        *(("0.001042403669", "0.0010424"), "10.00", "0.010424", "0.010510927821"),
        *("0.989544119", "0.98954"),
    ),
    # 809.75 -> 810.0, a half up; 40.01 -> 40.00
    # 594.5418 / 656,100 = 0.000906175583 -> 0.0009062
    # 0.0009062 x 25.00 = 0.022655; x 1.018124 = 0.023065599220
    # 1 - 0.02306559922 + 0.00026601093 - 0.00000204523 + 0.00000001179 - 0.00000000005 = 0.977198378 -> 0.97720
    "54B, between 787.5 and 838.5": Worked(
        *(Group.PRODUCTS, ("809.75", "40.01"), ("810.0", "40.00")),
        *(("0.000906175583", "0.0009062"), "25.00", "0.022655", "0.023065599220"),
        *("0.977198378", "0.97720"),
    ),
    # 960.0; 85.02 -> 85.00
    # 186.9696 / 921,600 + 0.4862 / 960 = 0.000202875000 + 0.000506458333 = 0.000709333333 -> 0.0007093
    # 0.0007093 x 70.00 = 0.049651; x 1.0397208 = 0.051623177441
    # 1 - 0.05162317744 + 0.00133247622 - 0.00002292889 + 0.00000029592 - 0.00000000306 + 0.00000000003
    #   = 0.949686663 -> 0.94969
    "54B, from 838.5 on": Worked(
        *(Group.PRODUCTS, ("960.0", "85.02"), ("960.0", "85.00")),
        *(("0.000709333333", "0.0007093"), "70.00", "0.049651", "0.051623177441"),
        *("0.949686663", "0.94969"),
    ),
    # 0.00100004 -> 0.0010000; 30.02 -> 30.00
    # 0.001 x 15.00 = 0.015; x 1.012 = 0.01518
    # 1 - 0.01518 + 0.00011521620 - 0.00000058299 + 0.00000000221 - 0.00000000001 = 0.984934635 -> 0.98493
    "54C": Worked(
        *(Group.COEFFICIENT, ("0.00100004", "30.02"), ("", "30.00")),
        *(("0.001000040000", "0.0010000"), "15.00", "0.015", "0.015180000000"),
        *("0.984934635", "0.98493"),
    ),
    # 890.2 -> 890.0; 59.99 -> 60.00
    # 0.6278 / 890.0 = 0.000705393258 -> 0.0007054
    # 0.0007054 x 45.00 = 0.031743; x 1.0253944 = 0.032549094439
    # 1 - 0.03254909444 + 0.00052972177 - 0.00000574732 + 0.00000004677 - 0.00000000030 = 0.967974926 -> 0.96797
    "54D": Worked(
        *(Group.LUBRICANTS, ("890.2", "59.99"), ("890.0", "60.00")),
        *(("0.000705393258", "0.0007054"), "45.00", "0.031743", "0.032549094439"),
        *("0.967974926", "0.96797"),
    ),
}


def coefficient_of(worked: Worked) -> Decimal:
    """The coefficient of the rounded density, by the constants of its range."""
    if worked.group is Group.COEFFICIENT:
        return D(worked.given[0])
    density = D(worked.rounded[0])
    own = [each for each in RANGES[worked.group] if each.holds(density)][-1]
    return own.k0 / density / density + own.k1 / density + own.a


def exp_of(number: Decimal) -> Decimal:
    """The exponential of a small number by its series, as by hand."""
    term = total = D(1)
    for n in range(1, 12):
        term = term * number / n
        total += term
    return total


@pytest.mark.parametrize("case", WORKED)
def test_the_steps_of_a_factor(case: str) -> None:
    worked = WORKED[case]
    if worked.group is not Group.COEFFICIENT:
        assert to_nearest(D(worked.given[0]), D("0.5")) == D(worked.rounded[0])
    assert to_nearest(D(worked.given[1]), D("0.05")) == D(worked.rounded[1])
    alpha = coefficient_of(worked)
    assert round(alpha, 12) == D(worked.coefficient[0])
    assert to_nearest(alpha, D("1e-7")) == D(worked.coefficient[1])
    by, ad = D(worked.rounded[1]) - 15, D(worked.ad)
    assert (by, D(worked.coefficient[1]) * by) == (D(worked.by), ad)
    exponent = ad * (1 + D("0.8") * ad)
    assert round(exponent, 12) == D(worked.exponent)
    factor = exp_of(-exponent)
    assert round(factor, 9) == D(worked.factor)
    assert str(five_figures(factor)) == worked.printed


@pytest.mark.parametrize("case", WORKED)
def test_the_package_gives_what_is_worked_by_hand(case: str) -> None:
    worked = WORKED[case]
    number, temperature = map(D, worked.given)
    if worked.group is Group.COEFFICIENT:
        found = petroleum(worked.group, ANY, temperature, coefficient=number)
    else:
        found = petroleum(worked.group, number, temperature)
    assert str(found.value) == worked.printed


# ---- a density at 15 degrees, and back

# A density at 15 degrees is half of 0.1 kg/m3 off at most, a factor half of 0.00001 or of 0.0001, of the
# density to 0.5 a quarter, and of the coefficient half of its seventh decimal.
TENTH, HALF = D("0.05"), D("0.25")


def off_at_most(group: Group, density: Decimal, temperature: Decimal) -> Decimal:
    """How far an observed density may be from the product of the rounded figures."""
    exact = petroleum(group, density, temperature, Rounding.NONE)
    step = D("0.00005") if exact.value >= 1 - D("0.00005") else D("0.000005")
    of_coefficient = D("0.5e-7") * abs(temperature - 15) * D("1.2")
    of_density = abs(exact.by_density) * (HALF + TENTH) * D("1.01")
    return TENTH * D("1.1") + density * (step + of_coefficient + of_density)


@pytest.mark.parametrize("group", [Group.CRUDE, Group.PRODUCTS, Group.LUBRICANTS])
def test_table_54_turns_table_53_back(group: Group) -> None:
    """From an observed density to that at 15 degrees, and by its factor to the observed one again.

    Without rounding it is the same, and with it within what its steps may do. Beside a border between
    the ranges of products the rounded density may be in the other one: these are left out.
    """
    low, high = DENSITIES[group]
    borders = [each.begin for each in RANGES[group]]
    count = 0
    for at in range(8, 89):
        for temperature in map(D, ("-10", "4.5", "14.95", "15", "22.5", "31.25", "37.8", "60")):
            observed = to_nearest(low + (high - low) * at / 100, D("0.5"))
            exact = at_standard(
                group, observed, temperature, DensityInstrument.DENSITOMETER, Rounding.NONE
            )
            if any(abs(exact.density - border) < 1 for border in borders):
                continue
            back = petroleum(group, exact.density, temperature, Rounding.NONE).value * exact.density
            assert abs(back - observed) < D("1e-9"), (observed, temperature)
            found = at_standard(group, observed, temperature, DensityInstrument.DENSITOMETER)
            assert abs(found.density - exact.density) <= TENTH
            back = petroleum(group, found.density, temperature).value * found.density
            most = off_at_most(group, found.density, temperature)
            assert abs(back - observed) <= most, (observed, temperature, back, most)
            count += 1
    assert count > 500


@pytest.mark.parametrize("group", [Group.CRUDE, Group.PRODUCTS, Group.LUBRICANTS])
def test_table_53_turns_table_54_back(group: Group) -> None:
    """From a density at 15 degrees to the observed one, and to that at 15 degrees again."""
    low, high = DENSITIES[group]
    borders = [each.begin for each in RANGES[group]]
    for at in range(5, 96, 3):
        density = to_nearest(low + (high - low) * at / 100, D("0.5"))
        if any(abs(density - border) < 1 for border in borders):
            continue
        for temperature in map(D, ("-10", "4.5", "22.5", "37.8", "60")):
            read = petroleum(group, density, temperature, Rounding.NONE).value * density
            exact = at_standard(
                group, read, temperature, DensityInstrument.DENSITOMETER, Rounding.NONE
            )
            assert abs(exact.density - density) < D("1e-9"), (density, temperature)
            # the observed density is rounded to 0.5 before, and the one at 15 degrees to 0.1
            found = at_standard(group, read, temperature, DensityInstrument.DENSITOMETER)
            most = abs(exact.by_density) * HALF * D("1.01") + TENTH
            assert abs(found.density - density) <= most, (density, temperature)


def test_the_ends_of_the_tables_are_those_of_the_density_at_15_degrees() -> None:
    """Not those of what was read: warm, it may be below the least density, or that of its temperature."""
    cases = (
        (Group.LUBRICANTS, "789.5", "60", 800, 830),  # 789.5 itself isn't in table 54D
        (Group.PRODUCTS, "750", "100", 800, 823),  # and 750 has no 100 degrees in table 54B
    )
    for group, observed, temperature, low, high in cases:
        found = at_standard(group, D(observed), D(temperature), DensityInstrument.DENSITOMETER)
        assert low < found.density < high, observed
    with pytest.raises(CausedFault) as raised:
        at_standard(Group.LUBRICANTS, D("801"), D("-10"), DensityInstrument.DENSITOMETER)
    assert raised.value.case.cause is VolumeCause.DENSITY_OUTSIDE


def test_at_15_degrees_nothing_is_corrected() -> None:
    for by in DensityInstrument:
        for group in (Group.CRUDE, Group.PRODUCTS, Group.LUBRICANTS):
            assert petroleum(group, D(880), D(15)).value == 1
            assert at_standard(group, D(880), D(15), by).density == 880
