"""Volume correction, densities at 15 degrees, water and roofs, held against mpmath and by hand."""

from __future__ import annotations

import csv
from decimal import Decimal

import mpmath
import pytest

from plantbal.faults import Fault
from plantbal.volumes.__main__ import CHECKS, check_row, main
from plantbal.volumes.batch import batch
from plantbal.volumes.factor import FactorTable, Rounding, five_figures, petroleum
from plantbal.volumes.groups import DENSITIES, RANGES, Group
from plantbal.volumes.liquid import Liquid, MeasuredFigure, Product, Sample
from plantbal.volumes.standard import DensityInstrument, at_standard
from plantbal.volumes.tank import Depth, Gauging, Roof

D = Decimal
# The constants of the tables for 60 degrees Fahrenheit (5A, 5B, 6A to 6D), which were fitted first:
# a degree Celsius has 1.8 of theirs. The product's ranges in kg/m3 at 15 degrees.
FAHRENHEIT = {
    Group.CRUDE: [("341.0957", "0", "0")],
    Group.PRODUCTS: [
        ("192.4571", "0.2438", "0"),
        ("1489.0670", "0", "-0.00186840"),
        ("330.3010", "0", "0"),
        ("103.8720", "0.2701", "0"),
    ],
    Group.LUBRICANTS: [("0", "0.34878", "0")],
}
# The same for 15 degrees Celsius, as tables 53 and 54 print them.
CELSIUS = {
    Group.CRUDE: [("613.9723", "0", "0")],
    Group.PRODUCTS: [
        ("346.4228", "0.4388", "0"),
        ("2680.3206", "0", "-0.00336312"),
        ("594.5418", "0", "0"),
        ("186.9696", "0.4862", "0"),
    ],
    Group.LUBRICANTS: [("0", "0.6278", "0")],
}
FACTORS = [
    # group, density, temperature, which range: the borders 770, 787.5 and 838.5 are among them
    (Group.CRUDE, "850", "25", 0),
    (Group.CRUDE, "610.5", "-18", 0),
    (Group.CRUDE, "1075", "150", 0),
    (Group.PRODUCTS, "740", "20", 0),
    (Group.PRODUCTS, "770", "31.25", 0),
    (Group.PRODUCTS, "770.5", "30", 1),
    (Group.PRODUCTS, "787", "5", 1),
    (Group.PRODUCTS, "787.5", "5", 2),
    (Group.PRODUCTS, "838", "88.5", 2),
    (Group.PRODUCTS, "838.5", "88.5", 3),
    (Group.PRODUCTS, "960", "149.95", 3),
    (Group.LUBRICANTS, "890", "60", 0),
]


def alpha_of(group: Group, place: int, density: mpmath.mpf) -> mpmath.mpf:
    """Return the coefficient, with fifty digits."""
    k0, k1, a = map(mpmath.mpf, CELSIUS[group][place])
    return k0 / density**2 + k1 / density + a


def factor_of(alpha: mpmath.mpf, temperature: str) -> mpmath.mpf:
    """Return the factor of a coefficient, with fifty digits."""
    by = mpmath.mpf(temperature) - 15
    return mpmath.exp(-alpha * by * (1 + mpmath.mpf("0.8") * alpha * by))


def test_constants_are_those_of_the_other_scale() -> None:
    for group, rows in FAHRENHEIT.items():
        for row, own in zip(rows, RANGES[group], strict=True):
            for theirs, ours in zip(row, (own.k0, own.k1, own.a)):
                digits = round(D(theirs) * D("1.8"), -ours.as_tuple().exponent)
                assert digits == ours, f"{group}: {theirs} * 1.8 is not {ours}"


def test_ranges_of_products_nearly_meet() -> None:
    borders = [RANGES[Group.PRODUCTS][at : at + 2] for at in range(3)]
    for low, high in borders:
        there = [each.expansion(high.begin).alpha for each in (low, high)]
        assert abs(there[0] / there[1] - 1) < D("0.004"), f"at {high.begin}: {there}"


@pytest.mark.parametrize(("group", "density", "temperature", "place"), FACTORS)
def test_factors(group: Group, density: str, temperature: str, place: int) -> None:
    with mpmath.workdps(50):
        alpha = alpha_of(group, place, mpmath.mpf(density))
        wanted = factor_of(alpha, temperature)
        found = petroleum(group, D(density), D(temperature), Rounding.NONE)
        off = abs(mpmath.mpf(str(found.value)) - wanted)
        assert off < mpmath.mpf("1e-35"), f"{found.value} is not {wanted}"
        rounded = petroleum(group, D(density), D(temperature))
        steps = mpmath.nint(alpha * 10**7) / 10**7
        five = five_figures(D(mpmath.nstr(factor_of(steps, temperature), 20)))
        assert rounded.value == five, f"{rounded.value} is not {five} by the rounded coefficient"


def half_up(number: mpmath.mpf, places: int) -> mpmath.mpf:
    """A positive number rounded to some decimals, halves away from 0: what was meant is exact."""
    scaled = number * mpmath.mpf(10) ** places
    return mpmath.floor(scaled + mpmath.mpf("0.5")) / mpmath.mpf(10) ** places


def table_54(group: Group, density: str, temperature: str) -> str:
    """A factor by the steps of the procedure of 1980, written a second time, in mpmath."""
    rho = half_up(mpmath.mpf(density) * 2, 0) / 2
    steps = half_up(abs(mpmath.mpf(temperature)) * 20, 0)
    by = steps / 20 * mpmath.sign(mpmath.mpf(temperature)) - 15
    place = 0
    if group is Group.PRODUCTS:
        place = (rho > 770) + (rho >= mpmath.mpf("787.5")) + (rho >= mpmath.mpf("838.5"))
    alpha = half_up(alpha_of(group, int(place), rho), 7)
    factor = mpmath.exp(-alpha * by * (1 + mpmath.mpf("0.8") * alpha * by))
    places = 4 if factor >= 1 else 5
    digits = int(half_up(factor, places) * 10**places + mpmath.mpf("0.5"))
    return f"{digits // 10**places}.{digits % 10**places:0{places}}"


# What that gives, so that a reader may look it up in a copy of the tables.
WORKED = [
    (Group.CRUDE, "865.0", "25.00", "0.99177"),
    (Group.CRUDE, "790.0", "40.00", "0.97523"),
    (Group.CRUDE, "865.0", "5.00", "1.0082"),
    (Group.PRODUCTS, "740.0", "25.00", "0.98770"),
    (Group.PRODUCTS, "780.0", "25.00", "0.98954"),
    (Group.PRODUCTS, "810.0", "25.00", "0.99091"),
    (Group.PRODUCTS, "850.0", "25.00", "0.99167"),
    (Group.PRODUCTS, "960.0", "85.00", "0.94969"),
    (Group.LUBRICANTS, "890.0", "60.00", "0.96797"),
]


def test_worked_values() -> None:
    with mpmath.workdps(50):
        for group, density, temperature, wanted in WORKED:
            found = petroleum(group, D(density), D(temperature)).value
            again = table_54(group, density, temperature)
            assert (str(found), again) == (wanted, wanted), (group, density, temperature)


@pytest.mark.parametrize("group", [Group.CRUDE, Group.PRODUCTS, Group.LUBRICANTS])
def test_a_grid_of_the_tables(group: Group) -> None:
    """To the last digit, also between the steps of density and temperature, and at the borders."""
    low, high = DENSITIES[group]
    with mpmath.workdps(40):
        for at in range(0, 101):
            density = D(low + (high - low) * at / 100).quantize(D("0.01"))
            for temperature in ("-18", "-0.03", "14.974", "15.025", "37.8", "61.125", "94.99"):
                found = petroleum(group, density, D(temperature)).value
                again = table_54(group, str(density), temperature)
                assert str(found) == again, (group, density, temperature)


def table_53(group: Group, observed: str, temperature: str, glass: bool) -> str:
    """A density at 15 degrees by the steps of the procedure, found by halving an interval."""
    rho = half_up(mpmath.mpf(observed) * 2, 0) / 2
    by = half_up(mpmath.mpf(temperature) * 20, 0) / 20 - 15
    read = rho
    if glass:
        read *= 1 - mpmath.mpf("0.000023") * by - mpmath.mpf("0.00000002") * by**2
    low, high = rho * mpmath.mpf("0.8"), rho * mpmath.mpf("1.25")
    for _ in range(90):
        half = (low + high) / 2
        alpha = alpha_of(group, 0 if group is not Group.PRODUCTS else _range_of(half), half)
        factor = mpmath.exp(-alpha * by * (1 + mpmath.mpf("0.8") * alpha * by))
        low, high = (half, high) if half * factor < read else (low, half)
    tenths = int(half_up(low, 1) * 10 + mpmath.mpf("0.5"))
    return f"{tenths // 10}.{tenths % 10}"


def _range_of(rho: mpmath.mpf) -> int:
    return int((rho > 770) + (rho >= mpmath.mpf("787.5")) + (rho >= mpmath.mpf("838.5")))


def test_densities_at_15_by_halving() -> None:
    """Tables 53A, 53B and 53D, by a hydrometer and without one, to their last digit."""
    cases = [(Group.CRUDE, 700, 1000), (Group.PRODUCTS, 680, 740), (Group.PRODUCTS, 850, 1000)]
    cases.append((Group.LUBRICANTS, 850, 950))
    with mpmath.workdps(30):
        for group, low, high in cases:
            for at in range(13):
                observed = str(D(low) + D(high - low) * at / 12)[:6]
                for temperature in ("4.5", "21.37", "38.05"):
                    for by in DensityInstrument:
                        glass = by is DensityInstrument.HYDROMETER
                        found = at_standard(group, D(observed), D(temperature), by).density
                        again = table_53(group, observed, temperature, glass)
                        assert str(found) == again, (group, observed, temperature, by)


def test_the_check_table(capsys: pytest.CaptureFixture[str]) -> None:
    """What a plant compares with its copy, each value computed a second time to its last digit."""
    assert main([]) == 0
    rows = list(csv.reader(capsys.readouterr().out.splitlines()))[1:]
    assert len(rows) == len(CHECKS)
    of_letter = {"A": Group.CRUDE, "B": Group.PRODUCTS, "D": Group.LUBRICANTS}
    with mpmath.workdps(40):
        for table, figure, temperature, factor, hydrometer, densitometer in rows:
            group = of_letter.get(table[2])
            if group is None:
                alpha = half_up(mpmath.mpf(figure), 7)
                again = half_up(factor_of(alpha, temperature), 5)
                assert abs(mpmath.mpf(factor) - again) < 1e-9, (table, figure)
            elif table.startswith("54"):
                assert factor == table_54(group, figure, temperature), (table, figure, temperature)
            else:
                found = [table_53(group, figure, temperature, glass) for glass in (True, False)]
                assert [hydrometer, densitometer] == found, (table, figure, temperature)
    for group, density, temperature, wanted in WORKED:
        table = f"54{group.letter}"
        assert check_row(table, density, temperature) == (
            table,
            density,
            temperature,
            wanted,
            "",
            "",
        )


@pytest.mark.parametrize(
    ("words", "said"),
    [
        (["54E", "740", "25"], "there is no table 54E"),
        (["53C", "740", "25"], "there is no table 53C"),
        (["54B", "7400", "25"], "no liquid of 7400 kg/m3"),
        (["54B", "x", "25"], "aren't two figures"),
        (["54B", "nan", "25"], "aren't two figures"),
        (["54B", "740"], ""),
    ],
)
def test_words_of_the_check_table(
    words: list[str], said: str, capsys: pytest.CaptureFixture[str]
) -> None:
    assert main(words) == 2
    assert said in capsys.readouterr().err


@pytest.mark.parametrize(("group", "density", "temperature", "place"), FACTORS)
def test_derivatives(group: Group, density: str, temperature: str, place: int) -> None:
    with mpmath.workdps(50):
        found = petroleum(group, D(density), D(temperature))
        rho, t = mpmath.mpf(density), mpmath.mpf(temperature)
        by_t = mpmath.diff(lambda x: factor_of(alpha_of(group, place, rho), x), t)
        by_rho = mpmath.diff(lambda x: factor_of(alpha_of(group, place, x), temperature), rho)
        for own, wanted in ((found.by_temperature, by_t), (found.by_density, by_rho)):
            off = abs(mpmath.mpf(str(own)) - wanted)
            assert off < mpmath.mpf("1e-15"), f"{own}, {wanted}"


def test_what_goes_in_is_rounded() -> None:
    base = petroleum(Group.CRUDE, D("850.5"), D("25.05")).value
    for density, temperature in (("850.25", "25.03"), ("850.74", "25.074")):
        found = petroleum(Group.CRUDE, D(density), D(temperature)).value
        assert found == base, f"{density} at {temperature} is 850.5 at 25.05"
        exact = petroleum(Group.CRUDE, D(density), D(temperature), Rounding.NONE).value
        assert exact != base, "and without rounding it isn't"
    assert petroleum(Group.CRUDE, D(850), D(15)).value == 1, "nothing changes at 15 degrees"
    assert petroleum(Group.CRUDE, D(850), D(5)).value == D("1.0085"), "four decimals from 1 on"


@pytest.mark.parametrize(
    ("group", "density", "temperature", "said"),
    [
        (Group.CRUDE, "600", "20", "610.5"),
        (Group.PRODUCTS, "1100", "20", "1075"),
        (Group.PRODUCTS, "740", "96", "95"),
        (Group.PRODUCTS, "800", "126", "125"),
        (Group.CRUDE, "900", "151", "150"),
        (Group.CRUDE, "900", "-18.5", "-18"),
    ],
)
def test_beyond_the_tables(group: Group, density: str, temperature: str, said: str) -> None:
    with pytest.raises(Fault) as raised:
        petroleum(group, D(density), D(temperature))
    assert said in str(raised.value), "the limit of the table is named"


def test_table_c() -> None:
    coefficient = D("0.001")
    found = petroleum(Group.COEFFICIENT, D(700), D(25), Rounding.NONE, coefficient)
    # -0.01 (1 + 0.008) = -0.01008, whose exponential is 0.98997063...
    assert round(found.value, 8) == D("0.98997063"), "the formula with a coefficient of its own"
    with pytest.raises(Fault, match="no coefficient"):
        petroleum(Group.COEFFICIENT, D(700), D(25))


@pytest.mark.parametrize("by", list(DensityInstrument))
@pytest.mark.parametrize(
    ("group", "observed", "temperature"),
    [
        (Group.CRUDE, "850", "30"),
        (Group.PRODUCTS, "730.5", "22.5"),
        (Group.PRODUCTS, "835.5", "22.5"),
        (Group.LUBRICANTS, "880", "-5"),
    ],
)
def test_densities_at_15(
    group: Group, observed: str, temperature: str, by: DensityInstrument
) -> None:
    with mpmath.workdps(50):
        by_t = mpmath.mpf(temperature) - 15
        glass = 1 - mpmath.mpf("0.000023") * by_t - mpmath.mpf("0.00000002") * by_t**2
        read = mpmath.mpf(observed) * (glass if by is DensityInstrument.HYDROMETER else 1)
        found = at_standard(group, D(observed), D(temperature), by, Rounding.NONE)
        rho = mpmath.mpf(str(found.density))
        ranges = RANGES[group]
        place = [at for at, each in enumerate(ranges) if each.holds(found.density)][-1]
        back = rho * factor_of(alpha_of(group, place, rho), temperature)
        assert abs(back - read) < mpmath.mpf("1e-9"), f"{back} is not {read} again"
        near = at_standard(group, D(observed) + D("0.001"), D(temperature), by, Rounding.NONE)
        slope = (near.density - found.density) * 1000
        assert abs(slope / found.by_density - 1) < D("1e-4"), "the error is carried by the slope"
        tenth = at_standard(group, D(observed), D(temperature), by).density
        assert tenth == round(found.density, 1), "the procedure gives it to 0.1 kg/m3"


def test_a_table_of_its_own() -> None:
    table = FactorTable("SLOP", [(D(0), D("1.02")), (D(20), D(1)), (D(50), D("0.97"))])
    assert [table.at(D(t)).value for t in (0, 10, 20, 35)] == [
        D("1.02"),
        D("1.01"),
        D(1),
        D("0.985"),
    ], "linear between the points"
    with pytest.raises(Fault, match="and not to 51"):
        table.at(D(51))


def test_a_tank_by_hand() -> None:
    """A tank of 100 m3 a metre with water, at a temperature, and a roof that floats."""
    table = FactorTable("OIL", [(D(0), D("1.015")), (D(30), D("0.985"))])
    sample = Sample(MeasuredFigure(D(800), D("0.5")))
    liquid = Liquid(sample, Product("OIL", table=table), MeasuredFigure(D(25), D("0.4")))
    depth = Depth(MeasuredFigure(D(5000), D(3)), D(500), D("0.1"))
    water = Depth(MeasuredFigure(D(200), D(2)), D(20), D("0.1"))
    roof = Roof(MeasuredFigure(D(4000), D(50)), D(1000), D(1500))
    found = Gauging(depth, liquid, water, roof).content()
    # 480 m3 of product at a factor of 0.99: 792 kg/m3, 380,160 kg, less 4,000 kg
    assert found.grams == D(376_160_000), "what it holds"
    assert found.standard == D("470.2"), "376,160 kg of 800 kg/m3"
    # level 0.3 m3 and water 0.2 m3 at 792; density 480 * 0.99 * 0.5; 480 * 800 * 0.001 * 0.4; 50
    parts = [D("237.6"), D("158.4"), D("237.6"), D("153.6"), D(50)]
    assert found.variance == sum(part**2 for part in parts) * 10**6, "each error has its part"


@pytest.mark.parametrize(
    ("level", "zone", "grams"),
    [("900", None, "72000"), ("1250", "100", "98000"), ("1600", None, "124000")],
)
def test_a_roof(level: str, zone: str | None, grams: str) -> None:
    """Below, within and above the critical zone, in kg: half of it displaces half."""
    roof = Roof(MeasuredFigure(D(4000)), D(1000), D(1500), D(zone) if zone else None)
    depth = Depth(MeasuredFigure(D(level)), D(level) / 10, D("0.1"))
    content = Gauging(depth, Liquid(Sample(MeasuredFigure(D(800)))), roof=roof).content()
    assert content.grams == D(grams) * 1000, "its mass is subtracted as it floats"
    assert content.variance == (D(zone or 0) * 1000) ** 2, "the zone has its error"


def test_what_is_refused() -> None:
    plain = Liquid(Sample(MeasuredFigure(D(800))))
    deep = Depth(MeasuredFigure(D(1250)), D(125), D("0.1"))
    cases = {
        "critical zone": lambda: Gauging(
            deep, plain, roof=Roof(MeasuredFigure(D(4000)), D(1000), D(1500))
        ).content(),
        "m3 in all": lambda: Gauging(
            deep, plain, water=Depth(MeasuredFigure(D(1300)), D(130), D("0.1"))
        ).content(),
        "no product is named": lambda: batch(
            D(1), Liquid(plain.sample, None, MeasuredFigure(D(20)))
        ),
        "how SLOP expands": lambda: batch(
            D(1), Liquid(plain.sample, Product("SLOP"), MeasuredFigure(D(20)))
        ),
        "by what": lambda: Sample(MeasuredFigure(D(800)), D(20)).at_15(Product("X", Group.CRUDE)),
    }
    for said, call in cases.items():
        with pytest.raises(Fault, match=said):
            call()


def test_a_batch_by_hand() -> None:
    table = FactorTable("OIL", [(D(0), D("1.015")), (D(30), D("0.985"))])
    liquid = Liquid(
        Sample(MeasuredFigure(D(800), D(1))), Product("O", table=table), MeasuredFigure(D(25), D(1))
    )
    found = batch(D(1000), liquid)
    assert found.grams == D(792_000_000), "1,000 m3 at 25 degrees are 990 m3 of 800 kg/m3"
    assert found.standard == D(990)
    assert (found.by_density, found.by_temperature) == (D(990_000) ** 2, D(800_000) ** 2)
