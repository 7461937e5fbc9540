"""What a session can't hold of the plant: tags, units, densities, errors of meters and gauges.

It stands in `meters.csv`, a row a stream or tank, with numbers as in English.
"""

from __future__ import annotations

import csv
import io
from collections.abc import Iterable, Mapping
from dataclasses import dataclass
from fractions import Fraction

from plantbal.book.forms import METERS
from plantbal.book.store import Store
from plantbal.sentence import Joined, Phrase, Sentence
from plantbal.workbook.cells import Error, Reader
from plantbal.workbook.plant import PlantReader, StreamRow, TankRow
from plantbal.workbook.sheets import Cell, Sheet, csv_sheet
from plantbal.workbook.units import AMOUNTS, DENSITIES, GRAMS

HEADS = ("name", "tag", "unit", "density", "error")
# A column more if a meter's systematic error is wider than a row of the plant bears.
BASE = "base"
_LONGEST = 60


@dataclass(frozen=True)
class Meter:
    """A row of `meters.csv`: a stream, or a tank.

    Attributes
    ----------
    name, tag, unit : str
        The stream or tank, its tag, and the unit of its figures.
    density : Fraction or None
        Its density in g/m3.
    error : Error or None
        The error of its meter or gauge.
    cell : Cell or None
        Where its name stands.
    base : Error or None
        Its systematic error, if that is wider than a row of the plant bears.
    """

    name: str
    tag: str = ""
    unit: str = ""
    density: Fraction | None = None
    error: Error | None = None
    cell: Cell | None = None
    base: Error | None = None

    def row(self) -> tuple[str, ...]:
        """Return it as a row of the file."""
        density = ""
        if self.density is not None:
            density = exact_decimal(self.density / DENSITIES["kg/m3"]) + " kg/m3"
        return self.name, self.tag, self.unit, density, error_text(self.error)

    def stream(self, kind: str, cell: Cell) -> StreamRow:
        """Return the stream of a kind whose meter it is; the cell is for one without a row."""
        return StreamRow(
            self.name,
            self.tag,
            kind,
            self.unit,
            self.density,
            self.error,
            self.cell or cell,
            self.base,
        )


def exact_decimal(number: Fraction) -> str:
    """Return a fraction that has an end as a decimal number, exactly."""
    places = 0
    while number.denominator != 1 and places < _LONGEST:
        number, places = number * 10, places + 1
    if number.denominator != 1:
        raise ValueError(f"{number} can't be written exactly as a decimal number")
    digits = f"{abs(int(number)):0{places + 1}d}"
    text = digits[:-places] + "." + digits[-places:] if places else digits
    return ("-" if number < 0 else "") + text


def error_text(error: Error | None) -> str:
    """Return an error as a sheet has it: `1.5 % or 10 t`."""
    if error is None:
        return ""
    parts = []
    if error.share:
        parts.append(f"{exact_decimal(error.share * 100)} %")
    if error.mm:
        parts.append(f"{exact_decimal(error.mm)} mm")
    if error.grams or not parts:
        parts.append(f"{exact_decimal(error.grams / GRAMS['t'])} t")
    return " or ".join(parts)


def meters_of(plant: PlantReader) -> list[Meter]:
    """Return the rows of the streams and tanks of a workbook."""
    found = [
        Meter(each.name, each.tag, each.unit, each.density, each.error, base=each.base)
        for each in plant.streams.values()
    ]
    tanks = plant.tanks.values()
    return found + [Meter(each.name, density=each.density, error=each.error) for each in tanks]


def meters_text(meters: Iterable[Meter]) -> str:
    """Return the file of meters."""
    out = io.StringIO()
    writer = csv.writer(out, lineterminator="\n")
    rows = list(meters)
    wide = any(meter.base for meter in rows)
    writer.writerow((*HEADS, BASE) if wide else HEADS)
    for meter in rows:
        writer.writerow((*meter.row(), error_text(meter.base)) if wide else meter.row())
    return out.getvalue()


def changed_meters(before: Mapping[str, Meter], now: Mapping[str, Meter]) -> list[str]:
    """Return how the meters of a book change, a line each: later figures are read by them."""
    lines: list[str] = []
    form = "{head} {old} becomes {new}"
    for name, was in before.items():
        meter = now.get(name, was)
        pairs = zip((*was.row(), error_text(was.base)), (*meter.row(), error_text(meter.base)))
        parts = [
            Sentence(form, head=head, old=old or Phrase("none"), new=new or Phrase("none"))
            for head, (old, new) in zip((*HEADS, BASE), pairs)
            if old != new
        ]
        lines += [Joined(": ", (METERS, name, Joined(", ", parts)))] if parts else []
    return lines


def read_meters(book: Store) -> dict[str, Meter]:
    """Return the meters of a book by the names of their streams and tanks.

    Raises
    ------
    Fault
        If a cell can't be read.
    """
    file, data = str(book.path(METERS)), book.data(METERS)
    sheet = Sheet(file, "meters", []) if data is None else csv_sheet(file, "meters", data)
    reader = Reader("en")
    found = {}
    for cells in list(sheet.rows())[1:]:
        heads = (*HEADS, BASE)
        row = dict(zip(heads, cells))
        row = {head: row.get(head, Cell(sheet, cells[0].line, 0, None)) for head in heads}
        unit = reader.unit(row["unit"], AMOUNTS, "")
        density = reader.density(row["density"])
        error = None
        if not reader.is_missing(row["error"]):
            error = reader.error(row["error"], density, level=True)
        base = None
        if not reader.is_missing(row[BASE]):
            base = reader.error(row[BASE], density, head=BASE)
        name = row["name"].text
        found[name] = Meter(name, row["tag"].text, unit, density, error, row["name"], base)
    return found


def plant_with_meters(
    plant: Iterable[tuple[str, ...]], meters: dict[str, Meter]
) -> tuple[list[StreamRow], list[TankRow]]:
    """Return the streams and tanks of a plant's rows, with what `meters.csv` has of them."""
    nowhere = Cell(Sheet("", "", [], is_csv=True), 0, 0, None)
    streams, tanks = [], {}
    for kind, name, *rest in plant:
        meter = meters.get(name, Meter(name))
        if kind == "stream":
            streams.append(meter.stream(rest[2], nowhere))
        elif kind == "tank":
            tanks[name] = TankRow(name, meter.error, meter.density)
        elif kind == "strap":
            tanks[name].points.append((int(rest[0]), int(rest[1])))
    return streams, list(tanks.values())
