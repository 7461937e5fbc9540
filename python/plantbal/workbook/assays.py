"""Reads the assays of a workbook: the grades of components, each of a period."""

from __future__ import annotations

import math
from fractions import Fraction

from plantbal.sentence import Sentence
from plantbal.workbook.causes import SheetCause
from plantbal.workbook.plant import PlantReader
from plantbal.workbook.sheets import Cell
from plantbal.workbook.tables import SheetRow, Tables
from plantbal.workbook.units import GRADES


class Assays:
    """Reads the sheet of assays.

    Parameters
    ----------
    tables : Tables
        The tables of the workbook.
    plant : PlantReader
        Its plant.

    Attributes
    ----------
    found : list of (tuple of str, dict of str to Cell)
        The rows of the session, each with the cells of its columns.
    """

    def __init__(self, tables: Tables, plant: PlantReader) -> None:
        self.tables = tables
        self.reader = tables.reader
        self.plant = plant
        self.found: list[tuple[tuple[str, ...], dict[str, Cell]]] = []

    def read(self) -> None:
        """Read the grades of components: rows of a session, with the cells of their columns."""
        for row in self.tables.rows("assays", facts=True):
            name = row.text("stream")
            if name in self.plant.bad:
                continue
            if name not in self.plant.tanks:
                stream = self.plant.named(row["stream"], "stream")
                if stream is None:
                    continue
                name = stream.name
            with self.tables.kept():
                exact = self.reader.grade(row["grade"], row["unit"])
                deviation = self.reader.grade_error(row["error"], exact)
                ppm, variance = self._assay(row, exact, deviation)
                fields = [row.text("component"), name, row.text("period"), str(ppm), str(variance)]
                cells = {"ppm": row["grade"], "variance": row["error"]}
                cells |= {head: row[head] for head in ("component", "stream", "period")}
                self.found.append((("assay", *fields), cells))

    def _assay(self, row: SheetRow, exact: Fraction, deviation: Fraction) -> tuple[int, int]:
        """Return a grade in whole parts per million, and its variance in squares of them.

        Raises
        ------
        InputFault
            If it is below 0 or above 100 %, or if much of what the laboratory found is lost.
        """
        grade, component = row.text("grade"), row.text("component")
        if not 0 <= exact <= GRADES["%"] * 100:
            remedy = "write a grade from 0 to 100 %, or look at its unit"
            raise self.reader.fault(
                row["grade"], SheetCause.NOT_A_GRADE(text=grade), remedy, "grade"
            )
        ppm, variance = round(exact), math.ceil(deviation * deviation)
        if 4 * abs(exact - ppm) > deviation or variance > 2 * deviation * deviation:
            sd, error = math.isqrt(variance), row.text("error")
            what = SheetCause.GRADE_TOO_FINE(text=grade, error=error, ppm=ppm, sd=sd)
            remedy = Sentence(
                "book a thousand times the grade, as of a component {component}_mg: what its "
                "balance calls grams are milligrams then; or write both in whole ppm",
                component=component,
            )
            raise self.reader.fault(row["grade"], what, remedy, "grade")
        return self.reader.whole(row["grade"], exact), variance

    def put(self) -> None:
        """Give the assays to the session, whose periods are there by then."""
        for fields, cells in self.found:
            self.tables.put(fields, cells)
