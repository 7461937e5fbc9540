"""An amount in a row of a sheet: by its own unit and density, or by those of its stream."""

from __future__ import annotations

from fractions import Fraction

from plantbal.workbook.cells import Reader
from plantbal.workbook.plant import StreamRow
from plantbal.workbook.tables import SheetRow
from plantbal.workbook.units import AMOUNTS


def grams_of_row(
    reader: Reader, row: SheetRow, stream: StreamRow
) -> tuple[Fraction | None, int, bool]:
    """Return the density of a row, or of its stream, its grams, and whether they are wet."""
    density = reader.density(row["density"]) or stream.density
    unit = reader.unit(row["unit"], AMOUNTS, stream.unit or "t")
    grams = reader.grams(row["amount"], unit, density, "amount")
    return density, grams, reader.is_wet(row["amount"], unit, "amount")
