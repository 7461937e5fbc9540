"""Reads the dips of a workbook: the levels of its tanks at the end of days."""

from __future__ import annotations

import datetime
import difflib
from fractions import Fraction

from plantbal.sentence import Sentence
from plantbal.workbook.causes import SheetCause
from plantbal.workbook.cells import Error
from plantbal.workbook.measuring import Measuring
from plantbal.workbook.plant import PlantReader, TankRow
from plantbal.workbook.sheets import Cell
from plantbal.workbook.tables import SheetRow, Tables


class Dips:
    """Reads the sheet of dips.

    Parameters
    ----------
    tables : Tables
        The tables of the workbook.
    plant : PlantReader
        Its plant.
    measuring : Measuring
        What volumes become masses by.

    Attributes
    ----------
    found : dict of str to dict of date to Cell
        The days of each tank that have a dip, and where it stands.
    """

    def __init__(self, tables: Tables, plant: PlantReader, measuring: Measuring) -> None:
        self.tables = tables
        self.reader = tables.reader
        self.plant = plant
        self.measuring = measuring
        self.found: dict[str, dict[datetime.date, Cell]] = {}

    def read(self) -> None:
        """Read the dips of tanks."""
        for row in self.tables.rows("dips", facts=True):
            day = self.tables.day(row["day"])
            name = row.text("tank")
            if name in self.plant.bad:
                continue
            with self.tables.kept():
                self._dip(row, day, name)

    def _dip(self, row: SheetRow, day: datetime.date | None, name: str) -> None:
        tank = self.plant.tanks.get(name)
        if tank is None:
            near = difflib.get_close_matches(name, self.plant.tanks, n=1)
            remedy = (
                Sentence("did you mean {near}?", near=near[0])
                if near
                else "write it into the sheet tanks"
            )
            raise self.reader.fault(row["tank"], SheetCause.NO_TANK(name=name), remedy, "tank")
        top = tank.points[-1][0] if tank.points else None
        mm = self.reader.level(row["level"], unit=row["unit"], top=top)
        error = self._error(row, tank)
        if day is None:
            return
        days = self.found.setdefault(name, {})
        if day in days:
            other = str(days[day].place()).rstrip(":")
            what = SheetCause.DIP_TWICE(name=name, day=day, other=other)
            raise self.reader.fault(row["level"], what, "leave one of the two out")
        dipped = self.measuring.of_dip(tank, row, mm, error, day)
        if dipped is not None:
            density, variance = dipped.density, dipped.variance
        else:
            exact = self._density(row, tank)
            density = self.reader.whole(row["density"], exact)
            variance = error.variance(0, tank.slope(mm, exact))
        variance = self.tables.bearable(variance, 0, row["level"])
        cells = {"mm": row["level"], "density": row["density"], "day": row["day"]}
        fact = f"{name}_{day}"
        fields = [fact, name, str(day), str(mm), str(density), str(variance)]
        if self.tables.put(["dip", *fields], cells):
            days[day] = row["level"]
            if dipped is not None:
                self.measuring.keep_dip(fact, dipped, row["level"])

    def _density(self, row: SheetRow, tank: TankRow) -> Fraction:
        """Return the one density of a dip in g/m3: its row's, or its tank's."""
        density = self.reader.density(row["density"]) or tank.density
        if density is None:
            remedy = "write one, such as 862 (kg/m3), here or in the sheet tanks"
            what = SheetCause.DIP_WITHOUT_DENSITY()
            raise self.reader.fault(row["density"], what, remedy, "density")
        return density

    def _error(self, row: SheetRow, tank: TankRow) -> Error:
        """Return the error of a dip: its row's, or its tank's."""
        if self.reader.is_missing(row["error"]) and tank.error is not None:
            return tank.error
        if self.reader.is_missing(row["error"]):
            remedy = "write the gauge's, such as `3 mm`, here or in the sheet tanks"
            raise self.reader.fault(row["error"], SheetCause.DIP_WITHOUT_ERROR(), remedy, "error")
        density = self.reader.density(row["density"]) or tank.density
        return self.reader.error(row["error"], density, level=True)
