"""A sheet of readings that has the levels of tanks beside them, as a sheet of each.

A mapping says of such a column what it has of which tank: `T101 level`, `T101 temperature`. Its days
are those of the readings, or have a column of their own before the first of the tanks.
"""

from __future__ import annotations

from collections.abc import Mapping
from dataclasses import replace

from plantbal.workbook.mapping.form import DAY_OF_MONTH, HOUR, SITE, TIME, SheetMapping
from plantbal.workbook.sheets import Sheet
from plantbal.workbook.wide import OF_TANKS

_DAYS = ("day", DAY_OF_MONTH)
_OF_BOTH = (TIME, HOUR, SITE)


def sheet_parts(own: SheetMapping) -> list[SheetMapping]:
    """Return what a mapping says of a sheet, for readings and for levels beside them each."""
    keys = list(own.columns)
    tanks = [key for key, to in own.columns.items() if is_of_tank(to)]
    if own.kind != "readings" or not any(own.columns[key].endswith(" level") for key in tanks):
        return [own]
    before = keys[: keys.index(tanks[0])]
    days = [key for key in keys if own.columns[key] in _DAYS]
    last = next((key for key in reversed(before) if key in days), *days[:1])
    readings = {key: to for key, to in own.columns.items() if key not in tanks + days[1:]}
    dips = {key: own.columns[key] for key in keys if key in tanks or key == last}
    dips |= {key: to for key, to in own.columns.items() if to in _OF_BOTH and key in before}
    return [
        replace(own, columns=_others(own, readings), units=_without(own.units, tanks)),
        replace(
            own,
            kind="dips",
            columns=_others(own, dips),
            unit="",
            units={key: unit for key, unit in own.units.items() if key in tanks},
            counters={},
        ),
    ]


def is_of_tank(to: str) -> bool:
    """Say whether a column has something of a tank, as `T101 level` says."""
    name, _, of = to.rpartition(" ")
    return bool(name) and of in OF_TANKS


def _others(own: SheetMapping, columns: Mapping[str, str]) -> dict[str, str]:
    """Return columns in their order, with those of the other part as not read."""
    return {key: columns.get(key, "") for key in own.columns}


def _without(units: Mapping[str, str], keys: list[str]) -> dict[str, str]:
    return {key: unit for key, unit in units.items() if key not in keys}


def without_empty(sheet: Sheet) -> Sheet:
    """Return a part of a sheet without the rows in which the other part alone has something."""
    kept = [each for each in sheet.lines if any(value is not None for value in each[1])]
    gone = {line: False for line, values in sheet.lines if all(v is None for v in values)}
    return replace(sheet, lines=kept, taken={**sheet.taken, **gone})
