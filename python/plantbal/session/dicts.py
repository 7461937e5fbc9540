"""Rows of a session as dicts, as a web service has them: the keys are the names of the columns."""

from __future__ import annotations

import datetime
from collections.abc import Mapping

from plantbal.faults import InputFault, Place
from plantbal.schema import schema


def fields_of(row: Mapping[str, object], number: int) -> tuple[str, ...]:
    """Return the fields of a row.

    Parameters
    ----------
    row : mapping of str to object
        Under ``kind`` its kind, and under the name of each column, as ``plantbal.schema`` has them,
        a text, a whole number or a day.
    number : int
        The place of the row, counted from 1.

    Raises
    ------
    InputFault
        If it has other keys than a row of its kind, or a value that isn't exact.
    """
    place = Place(row=str(number))
    kind = row.get("kind")
    forms = list(dict.fromkeys(each.names for each in schema().session if each.kind == kind))
    if not forms:
        kinds = ", ".join(dict.fromkeys(each.kind for each in schema().session))
        raise InputFault(f"there is no kind {kind!r}", place=place, remedy=f"use one of {kinds}")
    keys = set(row) - {"kind"}
    for names in forms:
        if keys == set(names):
            return (str(kind), *(_text(row[name], name, place) for name in names))
    said = "; or ".join(", ".join(names) or "nothing more" for names in forms)
    what = f"its keys aren't those of a row {kind}"
    raise InputFault(what, place=place, remedy=f"beside kind it has {said}")


def _text(value: object, name: str, place: Place) -> str:
    """Return a value as the program reads it."""
    if isinstance(value, str):
        return value
    if isinstance(value, int) and not isinstance(value, bool):
        return str(value)
    if isinstance(value, datetime.date) and not isinstance(value, datetime.datetime):
        return value.isoformat()
    what = f"{name} is {value!r}, of type {type(value).__name__}"
    raise InputFault(what, place=place, remedy="use a text, a whole number or a day")
