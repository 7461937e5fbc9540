"""What was measured of a fact and what was applied to it, so that anybody can calculate it again.

A trail is a row of figures as plain decimal numbers: what was read, each with its standard
deviation, what the tables gave, and the mass in grams. `again` calculates the mass from the others:

    tank    (volume - water volume) * density at 15 * factor - roof
    batch   volume * density at 15 * factor

Volumes are in m3, densities in kg/m3, the roof in kg, temperatures in degrees Celsius, levels in
mm. What a session books is `booked`: of a tank its table at the level times a density in whole
g/m3, which is nearest to the mass.
"""

from __future__ import annotations

import csv
import io
from collections.abc import Iterable, Mapping
from dataclasses import dataclass, replace
from decimal import Decimal, localcontext

from plantbal.volumes.batch import Batch
from plantbal.volumes.factor import CONTEXT
from plantbal.volumes.liquid import Liquid, MeasuredFigure, Weight
from plantbal.volumes.tank import Content, Gauging

_TANK = ("level", "level_sd", "volume", "water", "water_sd", "water_volume", "roof", "roof_sd")
_LIQUID = (
    *("density", "density_sd", "density_at", "density_by", "temperature", "temperature_sd"),
    *("density_15", "density_table", "factor", "factor_table", "standard_volume"),
)
HEADS = ("year", "row", "fact", *_TANK, *_LIQUID, "grams", "booked", "variance", "source")
_FIGURES = Decimal("1e-12")


@dataclass(frozen=True)
class Trail:
    """How a fact was calculated.

    Attributes
    ----------
    fact : str
        The fact's id.
    figures : mapping of str to str
        Its figures by the heads of the file.
    year : str
        The year of the book in which it is booked; empty outside a book.
    row : int
        The number of its row there.
    """

    fact: str
    figures: Mapping[str, str]
    year: str = ""
    row: int = 0

    def booked(self, year: str, row: int, fact: str) -> Trail:
        """Return it as that of a row of a book."""
        return replace(self, year=year, row=row, fact=fact)

    def texts(self) -> tuple[str, ...]:
        """Return it as a row of the file."""
        own = {"year": self.year, "row": str(self.row or ""), "fact": self.fact}
        return tuple(own.get(head, self.figures.get(head, "")) for head in HEADS)

    def again(self) -> Decimal:
        """Reckon the mass in grams from the figures."""
        with localcontext(CONTEXT):
            volume = self._figure("volume") - self._figure("water_volume")
            weight = self._figure("density_15") * self._figure("factor")
            return (volume * weight - self._figure("roof")) * 1000

    def _figure(self, head: str) -> Decimal:
        return Decimal(self.figures.get(head) or 0)


def trails_text(trails: Iterable[Trail], *, heads: bool = True) -> str:
    """Return trails as a CSV file."""
    out = io.StringIO()
    writer = csv.writer(out, lineterminator="\n")
    if heads:
        writer.writerow(HEADS)
    writer.writerows(trail.texts() for trail in trails)
    return out.getvalue()


def read_trails(text: str) -> list[Trail]:
    """Return the trails of such a file."""
    found = []
    for row in csv.DictReader(io.StringIO(text)):
        figures = {head: row.get(head) or "" for head in HEADS[3:]}
        found.append(Trail(row["fact"], figures, row["year"], int(row["row"] or 0)))
    return found


def of_tank(fact: str, of: Gauging, found: Content, booked: tuple[int, int], source: str) -> Trail:
    """Return the trail of a dip; what is booked are its grams and its variance."""
    figures = _measured("level", of.depth.level) | {"volume": trail_number(of.depth.volume)}
    if of.water is not None:
        figures |= _measured("water", of.water.level)
        figures["water_volume"] = trail_number(of.water.volume)
    if of.roof is not None:
        figures |= _measured("roof", found.roof)
    figures |= _of_liquid(of.liquid, found.weight, found.standard)
    return Trail(fact, figures | _ends(found.grams, booked, source))


def of_batch(
    fact: str,
    volume: Decimal,
    of: Liquid,
    found: Batch,
    booked: tuple[int, int],
    source: str,
) -> Trail:
    """Return the trail of a volume; what is booked are its grams and its variance."""
    figures = {"volume": trail_number(volume)} | _of_liquid(of, found.weight, found.standard)
    return Trail(fact, figures | _ends(found.grams, booked, source))


def trail_number(number: Decimal) -> str:
    """Return a number without an exponent, with at most twelve decimals, and no zeros after it."""
    with localcontext(CONTEXT):
        if number.as_tuple().exponent < -12:  # type: ignore[operator]  # no figure is infinite
            number = number.quantize(_FIGURES)
        text = f"{number:f}"
    return text.rstrip("0").rstrip(".") if "." in text else text


def _measured(head: str, of: MeasuredFigure) -> dict[str, str]:
    return {head: trail_number(of.value), f"{head}_sd": trail_number(of.sd)}


def _of_liquid(of: Liquid, weight: Weight, standard: Decimal) -> dict[str, str]:
    sample = of.sample
    figures = _measured("density", sample.density)
    if sample.at is not None:
        figures |= {"density_at": trail_number(sample.at)}
        figures["density_by"] = sample.by.value if sample.by else ""
    if of.temperature is not None:
        figures |= _measured("temperature", of.temperature)
    # The density and the factor have all their digits, so that the mass can be calculated again.
    figures |= {"density_15": f"{weight.density.value:f}", "density_table": weight.density_by}
    figures |= {"factor": f"{weight.factor.value:f}", "factor_table": weight.factor.source}
    return figures | {"standard_volume": trail_number(standard)}


def _ends(grams: Decimal, booked: tuple[int, int], source: str) -> dict[str, str]:
    said = {"grams": trail_number(grams), "booked": str(booked[0]), "variance": str(booked[1])}
    return said | {"source": source}
