"""Tables in memory as the sheets of a workbook."""

from __future__ import annotations

import datetime
from collections.abc import Mapping
from decimal import Decimal
from math import isfinite
from numbers import Integral
from typing import TYPE_CHECKING, Any

from plantbal.faults import InputFault, Place
from plantbal.workbook.sheets import Held, Sheet, Value, without_end

if TYPE_CHECKING:
    import pandas


def sheets_of_frames(frames: Mapping[str, pandas.DataFrame]) -> list[Sheet]:
    """Return tables as sheets: the heads in line 1, and each row in a line after it.

    A float is the shortest decimal number that it stands for. Days in an index are a first column.

    Raises
    ------
    InputFault
        If one isn't a table, holds what no cell may, or all hold more than `plantbal.limits` has.
    """
    held = Held()
    return [_sheet(str(name), frame, held) for name, frame in frames.items()]


def _sheet(name: str, frame: pandas.DataFrame, held: Held) -> Sheet:
    """Return a table as a sheet."""
    import pandas

    if not hasattr(frame, "columns"):
        what = f"{name} is of type {type(frame).__name__}"
        raise InputFault(what, remedy="give a pandas.DataFrame")
    if not isinstance(frame.index, pandas.RangeIndex) and frame.index.dtype.kind not in "iu":
        frame = frame.reset_index(names=frame.index.name or "day")
    sheet = Sheet(name, name, [], is_csv=True)
    heads = [str(head) for head in frame.columns]
    columns = [frame.iloc[:, number].astype(object).tolist() for number in range(len(heads))]
    lines: list[list[Any]] = [heads, *map(list, zip(*columns))]
    for line, given in enumerate(lines, 1):
        values = [
            _value(value, sheet.place(line, column, heads[column - 1]))
            for column, value in enumerate(given, 1)
        ]
        if any(value is not None for value in values):
            held.take(sheet, line, values)
            sheet.lines.append((line, without_end(values)))
    return sheet


def _value(value: Any, place: Place) -> Value:
    """Return a value of a table as a cell has it."""
    import pandas

    if value is None or pandas.api.types.is_scalar(value) and pandas.isna(value):
        return None
    if isinstance(value, str):
        return value.strip() or None
    if isinstance(value, pandas.Timestamp):
        value = value.to_pydatetime(warn=False)
    if isinstance(value, datetime.datetime):
        return value.replace(tzinfo=None)  # midnight of its own zone begins a day there
    if isinstance(value, datetime.date):
        return datetime.datetime.combine(value, datetime.time())
    if isinstance(value, (bool, Decimal)):
        return value
    if isinstance(value, Integral):
        return Decimal(int(value))
    if isinstance(value, float) and isfinite(value):
        return Decimal(repr(float(value)))
    what = f"it is {value!r}, of type {type(value).__name__}"
    raise InputFault(what, place=place, text=repr(value), remedy="give a number, a day or a text")
