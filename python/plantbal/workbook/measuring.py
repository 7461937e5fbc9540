"""Makes masses of volumes by what a workbook measured: densities, temperatures, water, roofs.

A figure that has a density of its days, a temperature, free water or a floating roof is calculated by
`plantbal.volumes`; any other one as it always was, by the one density of its row.
"""

from __future__ import annotations

import datetime
import math
from collections.abc import Iterator, Sequence
from contextlib import contextmanager
from dataclasses import dataclass, field, replace
from decimal import Decimal
from fractions import Fraction
from pathlib import Path
from typing import TypeVar

from plantbal.causes import CausedFault
from plantbal.faults import Place
from plantbal.schema import schema
from plantbal.sentence import Sentence
from plantbal.volumes.batch import Batch, batch
from plantbal.volumes.liquid import Liquid, MeasuredFigure, Sample
from plantbal.volumes.tank import Content, Depth, Gauging
from plantbal.volumes.trail import Trail, of_batch, of_tank
from plantbal.workbook.causes import SheetCause
from plantbal.workbook.cells import Error
from plantbal.workbook.dated import Dated
from plantbal.workbook.measuresheets import Measures, decimal_of_fraction, temperature_of
from plantbal.workbook.periods import PeriodSheet
from plantbal.workbook.plant import StreamRow, TankRow
from plantbal.workbook.sheets import Cell
from plantbal.workbook.tables import SheetRow, Tables
from plantbal.workbook.units import AMOUNTS, LENGTHS, VOLUMES

T = TypeVar("T")


def _densest() -> int:
    """Return the greatest density that a dip may have in a session, in g/m3."""
    dip = next(row for row in schema().session if row.kind == "dip")
    most = next(column.high for column in dip.columns if column.name == "density")
    assert most is not None, "a density has a range"
    return most


@dataclass(frozen=True)
class Applied:
    """A volume that has become a mass.

    Attributes
    ----------
    volume : Decimal
        The volume in m3.
    liquid : Liquid
        What it is of.
    batch : Batch
        What it weighs.
    density, temperature : Dated or None
        What other figures have in common with it; None for its own.
    cell : Cell
        Where it stands.
    """

    volume: Decimal
    liquid: Liquid
    batch: Batch
    density: Dated[Sample] | None
    temperature: Dated[MeasuredFigure] | None
    cell: Cell

    def variance(self, density: Fraction, temperature: Fraction) -> int:
        """Return the variance by the errors of density and temperature, which count that often."""
        parts = Fraction(self.batch.by_density) * density
        parts += Fraction(self.batch.by_temperature) * temperature
        return math.ceil(parts)


@dataclass(frozen=True)
class Dipped:
    """A dip as a session has it: its density in whole g/m3, and its variance."""

    density: int
    variance: int
    gauging: Gauging
    content: Content
    grams: int


@dataclass
class Measuring:
    """Calculates masses, and keeps how each was calculated.

    Attributes
    ----------
    tables : Tables
        The tables of the workbook.
    periods : PeriodSheet
        The periods that a day may be in.
    found : Measures
        What was read.
    trails : list of Trail
        How each mass was calculated.
    """

    tables: Tables
    periods: PeriodSheet
    found: Measures
    trails: list[Trail] = field(default_factory=list)
    _used: dict[str, int] = field(default_factory=dict)

    # ---- volumes of meters and tickets

    def of_day(
        self, stream: StreamRow, cell: Cell, unit: str, day: datetime.date
    ) -> Applied | None:
        """Return the mass of a day's volume; None if nothing but one density is known of it."""
        density = self.found.density_on(stream.name, day)
        temperature = self.found.temperatures.on(stream.name, day)
        return self._applied(stream, cell, unit, density, temperature)

    def of_ticket(
        self, stream: StreamRow, row: SheetRow, days: Sequence[datetime.date]
    ) -> Applied | None:
        """Return the mass of a ticket's volume; None if nothing but one density is known of it."""
        reader, name = self.tables.reader, row.text("id")
        unit = reader.unit(row["unit"], AMOUNTS, stream.unit or "t")
        own = reader.density(row["density"])
        density = None
        if own is None:
            density = self.found.densities.of_tickets.get(name) or self._one(
                [self.found.density_on(stream.name, day) for day in days], row["amount"]
            )
        temperature = self._own_temperature(stream.name, row)
        temperature = temperature or self.found.temperatures.of_tickets.get(name)
        temperature = temperature or self._one(
            [self.found.temperatures.on(stream.name, day) for day in days], row["amount"]
        )
        return self._applied(stream, row["amount"], unit, density, temperature, own)

    def _one(self, found: Sequence[Dated[T] | None], cell: Cell) -> Dated[T] | None:
        """Return the one figure of several days; None if there is none on any of them."""
        there = list(dict.fromkeys(found, None))
        if len(there) > 1:
            what = SheetCause.SEVERAL_OF_TICKET(text=cell.text)
            remedy = "write the ticket's own, by its id, or in its row"
            raise self.tables.reader.fault(cell, what, remedy)
        return there[0] if there else None

    def _own_temperature(self, name: str, row: SheetRow) -> Dated[MeasuredFigure] | None:
        """Return the temperature in a row of a dip or a ticket; None without one."""
        cell = row["temperature"]
        if self.tables.reader.is_missing(cell):
            return None
        gauge = self.found.gauges.get(name)
        sd = self._own_sd(row, "temperature error")
        if sd is None and gauge is not None:
            sd = gauge.temperature_sd
        if sd is None:
            what = SheetCause.OWN_TEMPERATURE_WITHOUT_ERROR(name=name)
            remedy = "write it into a column temperature error, or into the sheet gauges"
            raise self.tables.reader.fault(cell, what, remedy, "temperature")
        value = temperature_of(self.tables, cell)
        return Dated(MeasuredFigure(value, sd), cell)

    def _own_sd(self, row: SheetRow, head: str) -> Decimal | None:
        """Return a standard deviation in a row, in degrees or mm; None if it is empty."""
        cell, reader = row[head], self.tables.reader
        if reader.is_missing(cell):
            return None
        number = reader.split(cell, LENGTHS, head)
        sd = Fraction(number[0]) * LENGTHS[number[1] or "mm"] / reader.divisor
        if sd < 0:
            raise reader.fault(
                cell, SheetCause.BELOW_0(text=cell.text), "an error is 0 or more", head
            )
        return decimal_of_fraction(sd)

    def _applied(
        self,
        stream: StreamRow,
        cell: Cell,
        unit: str,
        density: Dated[Sample] | None,
        temperature: Dated[MeasuredFigure] | None,
        own: Fraction | None = None,
    ) -> Applied | None:
        number, after = self.tables.reader.split(cell, AMOUNTS, stream.tag)
        unit = after or unit
        if unit not in VOLUMES:
            return None
        self._used[stream.name] = self._used.get(stream.name, 0) + 1
        sample = density.value if density is not None and own is None else None
        if sample is None and own is None:
            sample = self.found.density_of_product(stream.name)
        if sample is None and temperature is None:
            return None
        known = own or stream.density
        if sample is None and known is not None:
            sample = Sample(MeasuredFigure(decimal_of_fraction(known / 1000)))
        if sample is None:
            remedy = "write one into the sheet densities, or into the row of its stream"
            what = SheetCause.NO_DENSITY_OF_VOLUME(text=cell.text, unit=unit)
            raise self.tables.reader.fault(cell, what, remedy)
        product = self.found.product_of(stream.name)
        liquid = Liquid(sample, product, temperature.value if temperature else None)
        volume = decimal_of_fraction(Fraction(number) * VOLUMES[unit])
        with self._at(cell):
            weighed = batch(volume, liquid)
        return Applied(volume, liquid, weighed, density, temperature, cell)

    def grams(self, applied: Applied) -> int:
        """Return the mass in whole grams."""
        return self.tables.reader.whole(applied.cell, Fraction(applied.batch.grams))

    def variance_of_day(self, applied: Applied, day: datetime.date) -> int:
        """Return the variance by density and temperature; of several days, as often as these."""
        return applied.variance(
            self._times(applied.density, day), self._times(applied.temperature, day)
        )

    def _times(self, dated: Dated[T] | None, day: datetime.date) -> Fraction:
        at = day.toordinal()
        spans = [each for each in self.periods.spans_at(day) if each.first <= at <= each.last]
        days = [dated.days_in(each) for each in spans] if dated is not None else []
        return Fraction(max([1, *days]))

    def keep(self, fact: str, applied: Applied, grams: int, variance: int) -> None:
        """Keep how a booked mass was calculated."""
        source = _source(applied.cell)
        booked = grams, variance
        self.trails.append(
            of_batch(fact, applied.volume, applied.liquid, applied.batch, booked, source)
        )

    # ---- tanks

    def of_dip(
        self, tank: TankRow, row: SheetRow, mm: int, error: Error, day: datetime.date
    ) -> Dipped | None:
        """Return a dip by all that was measured; None if nothing but one density is known of it."""
        reader, gauge = self.tables.reader, self.found.gauges.get(tank.name)
        own = reader.density(row["density"])
        density = self.found.density_on(tank.name, day) if own is None else None
        product = self.found.density_of_product(tank.name) if own is None else None
        sample = density.value if density is not None else product
        temperature = self._own_temperature(tank.name, row)
        temperature = temperature or self.found.temperatures.on(tank.name, day)
        has_water = not reader.is_missing(row["water"])
        self._used[tank.name] = self._used.get(tank.name, 0) + 1
        if not (sample or temperature or has_water or (gauge and gauge.roof)):
            return None
        known = own or tank.density
        if sample is None and known is None:
            remedy = "write one, such as 862 (kg/m3), here or in the sheet densities"
            what = SheetCause.DIP_WITHOUT_DENSITY()
            raise reader.fault(row["density"], what, remedy, "density")
        if sample is None:
            assert known is not None
            sample = Sample(MeasuredFigure(decimal_of_fraction(known / 1000)))
        measured = temperature.value if temperature is not None else None
        liquid = Liquid(sample, self.found.product_of(tank.name), measured)
        depth = self._depth(tank.points, mm, decimal_of_fraction(error.mm), row["level"])
        water = self._water(tank, row, error) if has_water else None
        gauging = Gauging(depth, liquid, water, gauge.roof if gauge else None)
        with self._at(row["level"]):
            content = gauging.content()
        return _dipped(gauging, content, tank, mm, error)

    def keep_dip(self, fact: str, dipped: Dipped, cell: Cell) -> None:
        """Keep how the content of a tank was calculated."""
        source = _source(cell)
        booked = dipped.grams, dipped.variance
        self.trails.append(of_tank(fact, dipped.gauging, dipped.content, booked, source))

    def _water(self, tank: TankRow, row: SheetRow, error: Error) -> Depth:
        """Return the free water of a row, by its own table or the tank's."""
        gauge = self.found.gauges.get(tank.name)
        sd = self._own_sd(row, "water error")
        if sd is None:
            sd = gauge.water_sd if gauge is not None else None
        if sd is None:
            sd = decimal_of_fraction(error.mm)
        if not sd:
            what = SheetCause.WATER_WITHOUT_ERROR(name=tank.name)
            remedy = "write it into the column water error of the sheet gauges, in mm"
            raise self.tables.reader.fault(row["water"], what, remedy, "water")
        level = self.tables.reader.level(row["water"], "water")
        points = self.found.waters.get(tank.name) or tank.points
        return self._depth(points, level, sd, row["water"])

    def _depth(self, points: Sequence[tuple[int, int]], mm: int, sd: Decimal, cell: Cell) -> Depth:
        """Return a level with its volume by a table."""
        beside = [
            (below, above) for below, above in zip(points, points[1:]) if below[0] <= mm <= above[0]
        ]
        if not beside:
            ends = (
                Sentence("{points} to {points2} mm", points=points[0][0], points2=points[-1][0])
                if points
                else "no level"
            )
            remedy = "look at the level, or write the table as far as it goes"
            what = SheetCause.OUTSIDE_OF_TABLE(ends=ends, mm=mm)
            raise self.tables.reader.fault(cell, what, remedy)
        slopes = [Fraction(high[1] - low[1], high[0] - low[0]) for low, high in beside]
        (at, ml), slope = beside[0][0], slopes[0]
        volume = (ml + slope * (mm - at)) / 10**6
        steep = decimal_of_fraction(max(slopes) / 10**6)
        return Depth(MeasuredFigure(Decimal(mm), sd), decimal_of_fraction(volume), steep)

    # ---- what is said

    @contextmanager
    def _at(self, cell: Cell) -> Iterator[None]:
        """Give a fault of the block the place of a cell."""
        try:
            yield
        except CausedFault as fault:
            if fault.place != Place():
                raise
            raise fault.at(cell.place(), cell.text) from fault

    def say(self) -> None:
        """Say what was calculated, and which densities and temperatures change nothing."""
        if self.trails:
            count = len(self.trails)
            figures = (
                "1 figure is" if count == 1 else Sentence("{count:,} figures are", count=count)
            )
            note = Sentence(
                "{figures} a mass by a density of its days, a temperature, water or a roof",
                figures=figures,
            )
            self.tables.notes.append(note)
        for name, cell in self.found.dated_names():
            of = [each for each, gauge in self.found.gauges.items() if gauge.product == name]
            if not any(each in self._used for each in [name, *of]):
                place = str(cell.place()).rstrip(":")
                note = Sentence(
                    "{place}: no volume of {name} is here, so this changes nothing",
                    place=place,
                    name=name,
                )
                self.tables.notes.append(note)


def _source(cell: Cell) -> str:
    """Return where a figure stands, without the folder of its workbook."""
    place = cell.place()
    return str(replace(place, file=Path(place.file).name)).rstrip(":")


def _dipped(gauging: Gauging, content: Content, tank: TankRow, mm: int, error: Error) -> Dipped:
    """Return a content as a dip: a density in whole g/m3 which gives it, and its variance."""
    ml = _millilitres(tank.points, mm)
    exact = Fraction(content.grams)
    density = round(exact * 10**6 / ml) if ml else round(content.weight.density.value * 1000)
    density = min(max(density, 1), _densest())
    slope = Fraction(gauging.depth.slope * content.weight.kilograms) * 1000
    by_gauge = max(0, error.variance(0, slope) - math.ceil((slope * error.mm) ** 2))
    rounding = Fraction(ml, 10**6) ** 2 / 12
    variance = math.ceil(Fraction(content.variance) + rounding) + by_gauge
    return Dipped(density, variance, gauging, content, ml * density // 10**6)


def _millilitres(points: Sequence[tuple[int, int]], mm: int) -> int:
    """Return the volume of a level as the program has it: rounded down."""
    for (at, low), (above, high) in zip(points, points[1:]):
        if at <= mm <= above:
            return low + (high - low) * (mm - at) // (above - at)
    raise ValueError(Sentence("{mm} mm are outside the table", mm=mm))
