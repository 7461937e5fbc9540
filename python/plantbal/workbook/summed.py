"""How a day's figure was made of the hours of a sheet, or of what a counter showed.

A `SummedCell` is such a figure with the cells that it was made of. A book keeps a row for each in
`summed.csv`: the workbook and its sheet, the cells, how many figures they are, how many hours the day
has, those without a figure that were taken for 0, and the figure in the unit of the sheet.
"""

from __future__ import annotations

import csv
import enum
import io
from collections.abc import Iterable, Sequence
from dataclasses import dataclass, fields, replace
from fractions import Fraction
from pathlib import Path

from plantbal.sentence import Sentence
from plantbal.workbook.sheets import Cell, letters
from plantbal.workbook.units import GRAMS


class SummedBy(enum.Enum):
    """What a day's figure is of."""

    HOURS = "hours"  # their sum
    HOURS_ONE_TWICE = "hours, one twice"  # their sum, and one figure is of an hour that comes twice
    COUNTER = "counter"  # its figure at the day's end less that at its beginning


@dataclass(frozen=True, slots=True)
class DayCells:
    """What a day's figure was made of.

    Attributes
    ----------
    by : SummedBy
        What it is of.
    cells : str
        The cells, as a spreadsheet writes them: ``C3:C26``.
    count : int
        How many figures are in them.
    hours : int
        How many hours the day has.
    missing : tuple of str
        The hours without a figure, which were taken for 0, by their beginnings.
    """

    by: SummedBy
    cells: str
    count: int
    hours: int
    missing: tuple[str, ...] = ()


@dataclass(frozen=True, slots=True)
class SummedCell(Cell):
    """A day's figure, at the place of the first figure that it was made of.

    Attributes
    ----------
    of : DayCells
        What it was made of.
    """

    of: DayCells


@dataclass(frozen=True, slots=True)
class SummedFact:
    """A fact whose figure was made of hours, or of what a counter showed, as a book keeps it.

    Attributes
    ----------
    year : str
        The year of the book in which it is booked; empty outside a book.
    row : int
        The number of its row there.
    fact : str
        Its id.
    by : str
        What its figure is of: ``hours``, ``hours, one twice`` or ``counter``.
    figure, unit : str
        The figure, and its unit.
    cells : str
        The cells that it was made of, in one sheet.
    count, hours : int
        How many figures are in them, and how many hours the day has.
    missing : str
        The hours that were taken for 0, by their beginnings, with spaces between them.
    source : str
        The workbook and its sheet.
    """

    year: str
    row: int
    fact: str
    by: str
    figure: str
    unit: str
    cells: str
    count: int
    hours: int
    missing: str
    source: str

    def texts(self) -> tuple[str, ...]:
        """Return it as a row of the file."""
        return tuple(str(getattr(self, head)) for head in HEADS)

    def wrong(self, grams: int) -> str:
        """Return in what it contradicts itself or what is booked; empty if in nothing."""
        there = self.count + len(self.missing.split())
        if self.by == SummedBy.HOURS_ONE_TWICE.value:
            there += 1
        if self.by != SummedBy.COUNTER.value and there != self.hours:
            form = "{count} figures aren't those of {hours} hours"
            return Sentence(form, count=self.count, hours=self.hours)
        if self.unit in GRAMS:
            found = round(Fraction(self.figure) * GRAMS[self.unit])
            if found != grams:
                form = "the session has {booked:,} g, and this is {found:,} g"
                return Sentence(form, booked=grams, found=found)
        return ""


HEADS = tuple(field.name for field in fields(SummedFact))
_NUMBERS = ("row", "count", "hours")


def cells_text(cells: Sequence[Cell]) -> str:
    """Return cells as a spreadsheet writes them; those below or beside each other are a range."""
    runs: list[list[Cell]] = []
    for cell in cells:
        if runs and _goes_on(runs[-1], cell):
            runs[-1].append(cell)
        else:
            runs.append([cell])
    return " ".join(":".join(map(_name, (run[0], run[-1])[: len(run)])) for run in runs)


def _goes_on(run: list[Cell], cell: Cell) -> bool:
    """Say whether a cell is the next one of a run, in the direction of the run."""
    down, right = cell.line - run[-1].line, cell.column - run[-1].column
    if (down, right) not in ((1, 0), (0, 1)):
        return False
    return len(run) == 1 or (run[0].line == run[-1].line) == (down == 0)


def _name(cell: Cell) -> str:
    return f"{letters(cell.column)}{cell.line}"


def summed_fact(fact: str, cell: SummedCell, unit: str) -> SummedFact:
    """Return how a fact was made of a sheet's figures, before it is booked."""
    of, sheet = cell.of, cell.sheet
    name = Path(sheet.file).name
    source = name if sheet.is_csv else f"{name}!{sheet.name}"
    own = of.by.value, cell.text, unit, of.cells, of.count, of.hours
    return SummedFact("", 0, fact, *own, " ".join(of.missing), source)


def as_booked(found: SummedFact, year: str, row: int, fact: str) -> SummedFact:
    """Return it as that of a row of a book."""
    return replace(found, year=year, row=row, fact=fact)


def summed_text(found: Iterable[SummedFact], *, heads: bool = True) -> str:
    """Return them as a CSV file."""
    out = io.StringIO()
    writer = csv.writer(out, lineterminator="\n")
    if heads:
        writer.writerow(HEADS)
    writer.writerows(each.texts() for each in found)
    return out.getvalue()


def read_summed(text: str) -> list[SummedFact]:
    """Return what such a file has.

    Raises
    ------
    ValueError
        If it is none.
    """
    rows = csv.reader(io.StringIO(text), strict=True)
    try:
        heads: list[str] = next(rows, [])
        if tuple(heads) != HEADS:
            raise ValueError(f"its heads are {','.join(heads)[:200]}")
        return [_of_row(row) for row in rows]
    except (csv.Error, TypeError) as error:
        raise ValueError(str(error)) from error


def _of_row(row: Sequence[str]) -> SummedFact:
    found: dict[str, str | int] = dict(zip(HEADS, row, strict=True))
    for head in _NUMBERS:
        found[head] = int(found[head])
    return SummedFact(**found)  # type: ignore[arg-type]  # the numbers are whole ones now
