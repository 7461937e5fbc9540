"""Reads what volumes become masses by: products, their factors, gauges, densities, temperatures."""

from __future__ import annotations

import calendar
import datetime
from collections.abc import Callable, Iterator
from dataclasses import dataclass, field
from decimal import Decimal, localcontext
from enum import Enum
from fractions import Fraction
from typing import TypeVar

from plantbal.sentence import Sentence
from plantbal.volumes.factor import CONTEXT, FactorTable, Rounding
from plantbal.volumes.groups import Group
from plantbal.volumes.liquid import MeasuredFigure, Product, Sample
from plantbal.volumes.standard import DensityInstrument
from plantbal.volumes.tank import Roof
from plantbal.workbook.causes import SheetCause
from plantbal.workbook.dated import Dated, DatedFigures
from plantbal.workbook.plant import PlantReader
from plantbal.workbook.sheets import Cell
from plantbal.workbook.tables import SheetRow, Tables
from plantbal.workbook.units import DENSITIES, GRAMS, VOLUMES
from plantbal.workbook.wide import month_text

T = TypeVar("T")
E = TypeVar("E", bound=Enum)
# Temperatures of any oil in any tank; a figure beyond is in another unit.
_COLDEST, _HOTTEST = -100, 400


@dataclass(frozen=True)
class Gauge:
    """What is known of a tank or a stream beside its row in the plant.

    Attributes
    ----------
    product : str
        The product that it has.
    temperature_sd, water_sd : Decimal or None
        The standard deviations of its temperatures in degrees, and of its free water in mm.
    roof : Roof or None
        Its floating roof.
    """

    product: str
    temperature_sd: Decimal | None = None
    water_sd: Decimal | None = None
    roof: Roof | None = None


@dataclass
class Measures:
    """What volumes become masses by.

    Attributes
    ----------
    products : dict of str to Product
        How each product expands.
    product_densities : dict of str to Sample
        The densities that products have without another.
    gauges : dict of str to Gauge
        Those of tanks and streams.
    waters : dict of str to list of (int, int)
        The tables of free water: levels in mm, volumes in mL.
    densities, temperatures : DatedFigures
        Those of days and of tickets.
    """

    products: dict[str, Product] = field(default_factory=dict)
    product_densities: dict[str, Sample] = field(default_factory=dict)
    gauges: dict[str, Gauge] = field(default_factory=dict)
    waters: dict[str, list[tuple[int, int]]] = field(default_factory=dict)
    densities: DatedFigures[Sample] = field(default_factory=DatedFigures)
    temperatures: DatedFigures[MeasuredFigure] = field(default_factory=DatedFigures)

    def product_of(self, name: str) -> Product | None:
        """Return the product of a tank or stream, if one is named."""
        gauge = self.gauges.get(name)
        return self.products.get(gauge.product) if gauge else None

    def density_on(self, name: str, day: datetime.date) -> Dated[Sample] | None:
        """Return the density of a tank or stream on a day: its own, or that of its product."""
        own = self.densities.on(name, day)
        gauge = self.gauges.get(name)
        if own is None and gauge is not None:
            own = self.densities.on(gauge.product, day)
        return own

    def dated_names(self) -> Iterator[tuple[str, Cell]]:
        """Give the names that have densities or temperatures of days, and where the first is."""
        for name, densities in self.densities.of_names.items():
            yield name, densities[0].cell
        for name, temperatures in self.temperatures.of_names.items():
            yield name, temperatures[0].cell

    def density_of_product(self, name: str) -> Sample | None:
        """Return the density that the product of a tank or stream has without another."""
        gauge = self.gauges.get(name)
        return self.product_densities.get(gauge.product) if gauge else None


class MeasureReader:
    """Reads the sheets products, factors, gauges, waters, densities and temperatures.

    Parameters
    ----------
    tables : Tables
        The tables of the workbook.
    plant : PlantReader
        Its plant.
    found : Measures
        What takes them.
    """

    def __init__(self, tables: Tables, plant: PlantReader, found: Measures) -> None:
        self.tables = tables
        self.reader = tables.reader
        self.plant = plant
        self.found = found

    def read(self) -> None:
        """Read what a book keeps of them: products, factors, gauges and tables of water."""
        self._read_products()
        self._read_factors()
        self._read_gauges()
        self._read_waters()

    # ---- products

    def _read_products(self) -> None:
        """Read how products expand, and the densities that they have without another."""
        for row in self.tables.rows("products"):
            with self.tables.kept():
                name = row.text("product")
                group = self._word(row, "group", Group)
                coefficient = self._number(row, "coefficient")
                rounding = self._word(row, "rounding", Rounding) or Rounding.PROCEDURE
                before = self.found.products.get(name)
                table = before.table if before is not None and group is None else None
                self.found.products[name] = Product(name, group, coefficient, table, rounding)
                if not self.reader.is_missing(row["density"]):
                    self.found.product_densities[name] = self._sample(row)

    def _read_factors(self) -> None:
        """Read the factors of products that have a table of their own."""
        points: dict[str, list[tuple[Decimal, Decimal]]] = {}
        for row in self.tables.rows("factors"):
            with self.tables.kept():
                name = row.text("product")
                temperature = self._temperature(row)
                factor = self.reader.number(row["factor"], "factor")
                own = points.setdefault(name, [])
                if not Decimal("0.5") < factor < Decimal("1.5"):
                    remedy = "it is near 1: what a volume at the temperature is multiplied by"
                    what = SheetCause.NOT_A_FACTOR(factor=factor)
                    raise self.reader.fault(row["factor"], what, remedy, "factor")
                if own and temperature <= own[-1][0]:
                    last = own[-1][0]
                    what = SheetCause.FACTORS_OUT_OF_ORDER(
                        temperature=temperature, name=name, before=last
                    )
                    remedy = "write the temperatures of a product in rising order"
                    raise self.reader.fault(row["temperature"], what, remedy, "temperature")
                own.append((temperature, factor))
        for name, table in points.items():
            known = self.found.products.get(name, Product(name))
            self.found.products[name] = Product(
                name, known.group, known.coefficient, FactorTable(name, table), known.rounding
            )

    # ---- gauges

    def _read_gauges(self) -> None:
        """Read the products, roofs and errors of tanks and streams."""
        for row in self.tables.rows("gauges"):
            name = self._named(row)
            if name is None:
                continue
            with self.tables.kept():
                product = row.text("product")
                if product and product not in self.found.products:
                    what = SheetCause.NO_PRODUCT(name=product)
                    remedy = "write it into the sheet products, or its rows into the sheet factors"
                    raise self.reader.fault(row["product"], what, remedy, "product")
                sds = self._error(row, "temperature error"), self._error(row, "water error")
                self.found.gauges[name] = Gauge(product, *sds, self._roof(row))

    def _roof(self, row: SheetRow) -> Roof | None:
        """Return the floating roof of a row; None without one."""
        if self.reader.is_missing(row["roof"]):
            return None
        mass, sd, zone = (
            self._kilograms(row, head) for head in ("roof", "roof error", "zone error")
        )
        if sd is None or mass is None:
            remedy = "write the error of the roof's mass, such as 0.2 t"
            raise self.reader.fault(row["roof error"], SheetCause.ROOF_WITHOUT_ERROR(), remedy)
        rests, floats = (self._level(row, head) for head in ("rests", "floats"))
        if rests is None or floats is None or rests > floats:
            what = SheetCause.NO_CRITICAL_ZONE()
            remedy = "write the level up to which it rests, and the one from which it floats"
            raise self.reader.fault(row["rests"], what, remedy, "rests")
        divided = self._divided(zone) if zone is not None else None
        return Roof(MeasuredFigure(mass, self._divided(sd)), rests, floats, divided)

    def _read_waters(self) -> None:
        """Read the tables of free water."""
        found: dict[str, list[tuple[int, int]]] = {}
        for row in self.tables.rows("waters"):
            name = self._named(row, "tank")
            if name is None:
                continue
            with self.tables.kept():
                mm = self.reader.level(row["level"])
                unit = self.reader.unit(row["unit"], VOLUMES, "m3")
                number, own = self.reader.split(row["volume"], VOLUMES, "volume")
                exact = Fraction(number) * VOLUMES[own or unit] * 10**6
                ml = self.reader.whole(row["volume"], exact)
                points = found.setdefault(name, [])
                if points and not (mm > points[-1][0] and ml >= points[-1][1]):
                    what = SheetCause.WATERS_OUT_OF_ORDER(mm=mm, name=name, before=points[-1][0])
                    remedy = "write levels and volumes in rising order"
                    raise self.reader.fault(row["level"], what, remedy, "level")
                points.append((mm, ml))
        self.found.waters |= found

    # ---- densities and temperatures

    def read_densities(self) -> None:
        """Read the densities of days and of tickets."""
        self._read_dated("densities", self.found.densities, self._sample, products=True)

    def read_temperatures(self) -> None:
        """Read the temperatures of days and of tickets."""
        self._read_dated("temperatures", self.found.temperatures, self._measured)

    def _read_dated(
        self,
        kind: str,
        into: DatedFigures[T],
        figure: Callable[[SheetRow], T],
        *,
        products: bool = False,
    ) -> None:
        for row in self.tables.rows(kind, facts=True):
            with self.tables.kept():
                cell = row["density" if products else "temperature"]
                dated = Dated(figure(row), cell, *self._days(row))
                if not self.reader.is_missing(row["id"]):
                    same = into.of_tickets.setdefault(row.text("id"), dated)
                    name: str = Sentence("the ticket {id}", id=row.text("id"))
                else:
                    own = self._named(row, products=products)
                    if own is None:
                        continue
                    same, name = into.twin(own, dated) or dated, own
                    if same is dated:
                        into.add(own, dated)
                if same is not dated:
                    other = str(same.cell.place()).rstrip(":")
                    what = SheetCause.DATED_TWICE(name=name, other=other)
                    raise self.reader.fault(cell, what, "leave one of the two out")

    def _sample(self, row: SheetRow) -> Sample:
        """Return a density with its error, and at what temperature and by what it was taken."""
        density = self.reader.density(row["density"])
        if density is None:
            what = SheetCause.DENSITY_MISSING()
            remedy = "write one, such as 862 (kg/m3)"
            raise self.reader.fault(row["density"], what, remedy, "density")
        sd = self._density_error(row)
        if sd is None:
            remedy = "write its standard deviation in kg/m3, such as 0.5"
            what = SheetCause.DENSITY_WITHOUT_ERROR()
            raise self.reader.fault(row["error"], what, remedy, "error")
        at = None if self.reader.is_missing(row["at"]) else self._temperature(row, "at")
        by = self._word(row, "by", DensityInstrument)
        measured = MeasuredFigure(decimal_of_fraction(density / 1000), sd)
        return Sample(measured, at, by, str(row["density"].place()).rstrip(":"))

    def _measured(self, row: SheetRow) -> MeasuredFigure:
        """Return a temperature with its error."""
        sd = self._error(row, "error")
        if sd is None:
            remedy = "write its standard deviation in degrees, such as 0.5"
            what = SheetCause.TEMPERATURE_WITHOUT_ERROR()
            raise self.reader.fault(row["error"], what, remedy, "error")
        return MeasuredFigure(self._temperature(row), sd)

    def _days(self, row: SheetRow) -> tuple[datetime.date | None, datetime.date | None]:
        """Return the first and the last day of a row; None without days."""
        if not self.reader.is_missing(row["month"]):
            return self._month(row)
        first, last = (
            None if self.reader.is_missing(row[head]) else self.reader.day(row[head], head)
            for head in ("first" if self.reader.is_missing(row["day"]) else "day", "last")
        )
        if last is not None and (first is None or last < first):
            what = SheetCause.NO_FIRST_DAY()
            raise self.reader.fault(row["last"], what, "write the first day too", "last")
        return first, last or first

    def _month(self, row: SheetRow) -> tuple[datetime.date, datetime.date]:
        """Return the first and the last day of the month of a row.

        Raises
        ------
        CausedFault
            If it is none, or the row has days too.
        """
        cell = row["month"]
        month = month_text(cell)
        if not month:
            what = SheetCause.NOT_A_MONTH(text=cell.text)
            raise self.reader.fault(cell, what, "write it as 2024-01", "month")
        if any(not self.reader.is_missing(row[head]) for head in ("day", "first", "last")):
            raise self.reader.fault(
                cell, SheetCause.MONTH_AND_DAYS(), "leave one of the two out", "month"
            )
        first = datetime.date.fromisoformat(f"{month}-01")
        return first, first.replace(day=calendar.monthrange(first.year, first.month)[1])

    # ---- cells

    def _named(self, row: SheetRow, head: str = "name", *, products: bool = False) -> str | None:
        """Return the tank or stream of a row by its name or tag, or its product."""
        name = row.text(head)
        if name in self.plant.bad:
            return None
        if name in self.plant.tanks or (products and name in self.found.products):
            return name
        stream = self.plant.named(row[head], head)
        return stream.name if stream is not None else None

    def _word(self, row: SheetRow, head: str, words: type[E]) -> E | None:
        """Return the member of an enum that a cell names; None if it is empty."""
        if self.reader.is_missing(row[head]):
            return None
        text = row.text(head).casefold()
        for word in words:
            if word.value == text:
                return word
        there = ", ".join(word.value for word in words)
        what = SheetCause.NO_SUCH_WORD(text=row.text(head), head=head)
        raise self.reader.fault(
            row[head], what, Sentence("write one of {there}", there=there), head
        )

    def _number(self, row: SheetRow, head: str) -> Decimal | None:
        """Return a number of 0 or more; None if the cell is empty."""
        if self.reader.is_missing(row[head]):
            return None
        found = self.reader.number(row[head], head)
        if found < 0:
            what = SheetCause.BELOW_0(text=row.text(head))
            raise self.reader.fault(row[head], what, "look at it", head)
        return found

    def _error(self, row: SheetRow, head: str) -> Decimal | None:
        """Return a standard deviation; None if the cell is empty."""
        found = self._number(row, head)
        return self._divided(found) if found is not None else None

    def _density_error(self, row: SheetRow) -> Decimal | None:
        """Return the standard deviation of a density in kg/m3; None if the cell is empty."""
        if self.reader.is_missing(row["error"]):
            return None
        number, unit = self.reader.split(row["error"], DENSITIES, "error")
        if number < 0:
            what = SheetCause.BELOW_0(text=row.text("error"))
            raise self.reader.fault(row["error"], what, "look at it", "error")
        return self._divided(
            decimal_of_fraction(Fraction(number) * DENSITIES[unit or "kg/m3"] / 1000)
        )

    def _divided(self, sd: Decimal) -> Decimal:
        """Return a standard deviation, if errors are limits of twice that."""
        return sd / self.reader.divisor

    def _temperature(self, row: SheetRow, head: str = "temperature") -> Decimal:
        return temperature_of(self.tables, row[head], head)

    def _level(self, row: SheetRow, head: str) -> Decimal | None:
        if self.reader.is_missing(row[head]):
            return None
        return Decimal(self.reader.level(row[head], head))

    def _kilograms(self, row: SheetRow, head: str) -> Decimal | None:
        """Return a mass in kg; a plain number is in tonnes."""
        if self.reader.is_missing(row[head]):
            return None
        number, unit = self.reader.split(row[head], GRAMS, head)
        if number < 0:
            what = SheetCause.BELOW_0(text=row.text(head))
            raise self.reader.fault(row[head], what, "look at it", head)
        return decimal_of_fraction(Fraction(number) * GRAMS[unit or "t"] / 1000)


def temperature_of(tables: Tables, cell: Cell, head: str = "temperature") -> Decimal:
    """Return a temperature in degrees Celsius.

    Raises
    ------
    InputFault
        If it is none.
    """
    text = cell.text.strip()
    reader = tables.reader
    if isinstance(cell.value, str) and text.casefold().endswith("c"):
        found = reader.number_of(cell, text[:-1].rstrip("°º ").strip(), head)
    else:
        found = reader.number(cell, head)
    if not _COLDEST <= found <= _HOTTEST:
        remedy = Sentence(
            "write degrees Celsius, from {coldest} to {hottest}", coldest=_COLDEST, hottest=_HOTTEST
        )
        raise reader.fault(cell, SheetCause.NOT_A_TEMPERATURE(text=cell.text), remedy, head)
    return found


def decimal_of_fraction(number: Fraction) -> Decimal:
    """Return a fraction as a decimal number of 40 figures."""
    with localcontext(CONTEXT):
        return Decimal(number.numerator) / Decimal(number.denominator)
