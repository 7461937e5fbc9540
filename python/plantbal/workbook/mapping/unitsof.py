"""Which unit the figures of a column have if neither its head nor a row of units says one."""

from __future__ import annotations

from collections.abc import Collection, Iterable
from decimal import Decimal

from plantbal.workbook.mapping import why
from plantbal.workbook.mapping.form import OPEN
from plantbal.workbook.mapping.profile import ColumnProfile, unit_of_title
from plantbal.workbook.units import AMOUNTS, DENSITIES, GRADES, LENGTHS, TEMPERATURES, VOLUMES

# Units that the figures of a column may have; without one a figure has two readings.
UNITS_OF: dict[str, Collection[str]] = {
    "level": LENGTHS,
    "water": LENGTHS,
    "temperature": TEMPERATURES,
    "volume": VOLUMES,
    "amount": AMOUNTS,
    "value": AMOUNTS,
    "density": DENSITIES,
    "grade": GRADES,
    "moisture": GRADES,
    "error": {*AMOUNTS, *LENGTHS, *GRADES},
    "base": AMOUNTS,
}
_MOST_MM = 3_000  # a level of more whole units is in millimetres: no tank has 30 m in cm


def unit_in_titles(titles: Iterable[str], to: str) -> str:
    """Return the one unit that titles say, if figures of such a column may have it."""
    found = {*map(unit_of_title, titles)} - {""}
    fit = [unit for unit in found if unit in UNITS_OF.get(to, ())]
    return fit[0] if len(fit) == 1 and len(found) == 1 else ""


def unit_by_size(column: ColumnProfile, to: str) -> tuple[str | None, str]:
    """Return the unit of figures by their size; `?` if that doesn't decide, None if none is needed."""
    numbers = column.decimals
    least, most = (min(numbers), max(numbers)) if numbers else (Decimal(0), Decimal(0))
    if to == "density" and numbers:
        if least >= 100 and most <= 3_000:
            return "kg/m3", why.as_densities(least, most, "kg/m3")
        if least > Decimal("0.3") and most < 3:
            return "t/m3", why.as_densities(least, most, "t/m3")
    if to == "level" and numbers and all(n == int(n) for n in numbers) and most > _MOST_MM:
        return "mm", why.as_millimetres(most)
    if any(each == 0 for each in numbers) and to == "error" and most == 0:
        return None, ""
    return OPEN, why.no_unit(least, most, list(UNITS_OF[to])[:6])
