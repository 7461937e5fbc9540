"""The sheets by which volumes become masses: products, their factors, gauges, densities."""

from __future__ import annotations

from dataclasses import replace

from plantbal.workbook.sheetforms import (
    DAY,
    DENSITY,
    FIRST,
    LAST,
    MONTH,
    TANK,
    SheetColumn,
    SheetKind,
    Stage,
)
from plantbal.workbook.units import VOLUMES

_PRODUCT = SheetColumn("product", "what it is called, such as diesel", needed=True)
TEMPERATURE = SheetColumn("temperature", "in degrees Celsius")
TEMPERATURE_SD = SheetColumn(
    "temperature error", "the standard deviation of the temperature: 0.5; that of gauges without it"
)
_DENSITY_SD = SheetColumn("error", "the standard deviation of the density, in kg/m3")
_AT = SheetColumn("at", "the temperature at which the density was taken: 15 degrees without it")
_BY = SheetColumn(
    "by",
    "by what it was taken, at another temperature than 15 degrees",
    words=("hydrometer", "densitometer"),
)
# What a book keeps of them.
KEPT = (
    SheetKind(
        "products",
        "how the volumes of products follow their temperature, and what density they have",
        (
            _PRODUCT,
            SheetColumn(
                "group",
                "whose petroleum tables hold: 53A and 54A of crude oils, B of products, C of "
                "a coefficient, D of lubricants; empty with rows in the sheet factors",
                words=("crude", "products", "coefficient", "lubricants"),
            ),
            SheetColumn("coefficient", "of expansion at 15 degrees, a degree, for table C"),
            SheetColumn(
                "rounding",
                "procedure: as ASTM D1250-80 rounds, without a word; none: all digits",
                words=("procedure", "none"),
            ),
            DENSITY,
            _DENSITY_SD,
            _AT,
            _BY,
        ),
        lambda work: work.measures.read(),
        Stage.PLANT,
        said="product, group (crude, products, coefficient, lubricants), coefficient, rounding,\n"
        "density, error, at, by: how the volume of each follows its temperature",
    ),
    SheetKind(
        "factors",
        "a product's own volume correction factors, in the order of temperatures",
        (
            _PRODUCT,
            replace(TEMPERATURE, needed=True),
            SheetColumn("factor", "what a volume is multiplied by, such as 0.9937", True),
        ),
        lambda work: work.measures.read(),
        Stage.PLANT,
        said="product, temperature, factor: a product's own volume correction factors",
    ),
    SheetKind(
        "gauges",
        "what tanks and streams have in addition to their own rows: product, errors, floating roof",
        (
            SheetColumn("name", "a tank, a stream or its tag", True),
            replace(_PRODUCT, needed=False),
            SheetColumn("temperature error", "the standard deviation of its temperatures: 0.5"),
            SheetColumn("water error", "that of the levels of its free water, in mm"),
            SheetColumn("roof", "the mass of its floating roof: 84 t"),
            SheetColumn("roof error", "the standard deviation of that: 0.2 t"),
            SheetColumn("rests", "the level up to which the roof stands on its legs: 1400 mm"),
            SheetColumn("floats", "the level from which it floats: 1800 mm"),
            SheetColumn("zone error", "of what it displaces between the two; empty refuses them"),
        ),
        lambda work: work.measures.read(),
        Stage.PLANT,
        said="name, product, temperature error, water error, roof, roof error, rests, floats,\n"
        "zone error: products and floating roofs of tanks, products of streams",
    ),
    SheetKind(
        "waters",
        "the tables of free water below the product; without one it is the tank's own table",
        (
            TANK,
            SheetColumn("level", "in mm, or with its unit", needed=True),
            SheetColumn("volume", "the water at this level", needed=True),
            SheetColumn("unit", "of the volumes: m3 without it", words=tuple(VOLUMES)),
        ),
        lambda work: work.measures.read(),
        Stage.PLANT,
        said="tank, level, volume, unit: what free water holds, if not as the tank's table",
    ),
)
# What is of days and of tickets.
OF_DAYS = (
    SheetKind(
        "densities",
        "densities by day, of several days or of a ticket; of a stream, a tank or a product",
        (
            SheetColumn("name", "a stream or its tag, a tank, or a product"),
            SheetColumn("id", "the ticket's number, in place of a name"),
            DAY,
            FIRST,
            LAST,
            MONTH,
            replace(DENSITY, needed=True),
            replace(_DENSITY_SD, needed=True),
            _AT,
            _BY,
        ),
        lambda work: work.measures.read_densities(),
        said="name, day, density, error, at, by: of a stream, tank or product; or with a ticket's\n"
        "id; or first and last, or month; at is the temperature of the sample, by its instrument",
        is_shaped=True,
        is_across=True,
    ),
    SheetKind(
        "temperatures",
        "temperatures of volumes by day, of several days or of a ticket",
        (
            SheetColumn("name", "a stream or its tag, or a tank"),
            SheetColumn("id", "the ticket's number, in place of a name"),
            DAY,
            FIRST,
            LAST,
            MONTH,
            replace(TEMPERATURE, needed=True),
            SheetColumn("error", "the standard deviation, in degrees: 0.5", True),
        ),
        lambda work: work.measures.read_temperatures(),
        said="name, day, temperature, error; or with a ticket's id; or first and last, or month",
        is_shaped=True,
    ),
)
