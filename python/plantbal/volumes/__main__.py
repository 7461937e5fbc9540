"""Prints factors and densities of the petroleum tables, to be compared with a copy of the standard.

    python3 -m plantbal.volumes                       the check table, as CSV
    python3 -m plantbal.volumes 54B 740 25            a factor: table, density at 15 °C, temperature
    python3 -m plantbal.volumes 54C 0.001 30          table 54C: the coefficient in place of the density
    python3 -m plantbal.volumes 53B 740 25            a density at 15 °C, by a hydrometer and without one

Densities are in kg/m3. Each value is rounded as the procedure of 1980 has it, to the digits that the
standard prints.
"""

from __future__ import annotations

import csv
import io
import re
import sys
from collections.abc import Iterator, Sequence
from decimal import Decimal, InvalidOperation

from plantbal.faults import Fault
from plantbal.files import write_text
from plantbal.statuses import ExitStatus
from plantbal.volumes.factor import petroleum
from plantbal.volumes.groups import Group
from plantbal.volumes.standard import DensityInstrument, at_standard

HEADS = ("table", "density or coefficient", "temperature", "factor", "hydrometer", "densitometer")
_ANY = Decimal(800)  # a density that changes nothing in table 54C
# On both sides of each border between the ranges of products, and at the ends of each table.
CHECKS: tuple[tuple[str, str, str], ...] = (
    *(
        ("54A", density, at)
        for density in ("610.5", "790", "865", "1075")
        for at in ("5", "25", "40")
    ),
    *(
        ("54B", density, at)
        for density in ("653", "740", "770", "770.5", "780", "787", "787.5", "810", "838", "838.5")
        for at in ("5", "25", "85")
    ),
    *(("54B", density, at) for density in ("850", "960", "1075") for at in ("5", "25", "85")),
    *(("54C", coefficient, "30") for coefficient in ("0.000486", "0.001", "0.001674")),
    *(("54D", density, at) for density in ("800", "890", "1164") for at in ("5", "60", "100")),
    *(("53A", observed, "30") for observed in ("700", "850", "1000")),
    *(("53B", observed, "25") for observed in ("680", "740", "845", "960")),
    *(("53D", observed, "40") for observed in ("850", "880", "950")),
)


def check_row(table: str, figure: str, temperature: str) -> tuple[str, ...]:
    """Return a row of the check table.

    Raises
    ------
    ValueError
        If there is no such table, or a figure is none.
    Fault
        If the table doesn't go so far.
    """
    match = re.fullmatch("(5[34])([ABCD])", table)
    if match is None or table == "53C":
        raise ValueError(f"there is no table {table}: write 54A, 54B, 54C, 54D, 53A, 53B or 53D")
    group = next(each for each in Group if each.letter == match[2])
    try:
        number, at = Decimal(figure), Decimal(temperature)
    except InvalidOperation:
        raise ValueError(f"{figure} and {temperature} aren't two figures") from None
    if not number.is_finite() or not at.is_finite():
        raise ValueError(f"{figure} and {temperature} aren't two figures")
    if match[1] == "53":
        found = [str(at_standard(group, number, at, by).density) for by in DensityInstrument]
        return table, figure, temperature, "", *found
    if group is Group.COEFFICIENT:
        factor = petroleum(group, _ANY, at, coefficient=number)
    else:
        factor = petroleum(group, number, at)
    return table, figure, temperature, str(factor.value), "", ""


def rows(words: Sequence[str]) -> Iterator[tuple[str, ...]]:
    """Give the row that is asked for, or the whole check table."""
    for each in [tuple(words)] if words else CHECKS:
        table, figure, temperature = each
        yield check_row(table, figure, temperature)


def main(words: Sequence[str]) -> int:
    """Print the rows, with their heads."""
    if len(words) not in (0, 3):
        print(__doc__)
        return ExitStatus.USAGE
    try:
        found = list(rows(words))
    except (ValueError, Fault) as error:
        print(f"plantbal.volumes: {error}", file=sys.stderr)
        return ExitStatus.USAGE
    out = io.StringIO()
    csv.writer(out, lineterminator="\n").writerows([HEADS, *found])
    write_text("-", out.getvalue())
    return ExitStatus.GOOD


if __name__ == "__main__":
    sys.exit(main(sys.argv[1:]))
