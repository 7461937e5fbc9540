"""Texts that a spreadsheet shows and never computes: the one guard of each workbook and table.

A spreadsheet takes a text that begins with an equals sign for a formula, and in a CSV file also one
that begins with a plus, a minus or an at sign. Names, reasons and paths are strangers' texts. In a
workbook each is stored as a text. In a CSV file, which has no types, such a text gets an apostrophe
in front, which spreadsheets take as the mark of a text; numbers stay as they are.
"""

from __future__ import annotations

import csv
import io
import re
from collections.abc import Iterable, Sequence
from typing import TYPE_CHECKING, Any

if TYPE_CHECKING:
    import pandas

_COMPUTED = ("=", "+", "-", "@", "\t", "\r", "\n")
_NUMBER = re.compile(r"[+-]?(?:[0-9]+(?:[.,][0-9]*)?|[.,][0-9]+)(?:[eE][+-]?[0-9]+)?")
# What the XML of a workbook can't have, and half a pair of UTF-16.
_UNSHOWN = re.compile("[\x00-\x08\x0b\x0c\x0e-\x1f\x7f\ud800-\udfff\ufffe\uffff]")


def is_computed(text: str) -> bool:
    """Return whether a spreadsheet would take a text for a formula."""
    return text.startswith(_COMPUTED) and not _NUMBER.fullmatch(text)


def inert(text: str) -> str:
    """Return a text as it stands in a CSV file that a spreadsheet may open."""
    return f"'{text}" if is_computed(text) else text


def csv_text(rows: Iterable[Sequence[str]]) -> str:
    """Return rows of texts as a CSV file that a spreadsheet may open."""
    out = io.StringIO()
    csv.writer(out, lineterminator="\n").writerows(map(inert, row) for row in rows)
    return out.getvalue()


def inert_frame(frame: pandas.DataFrame) -> pandas.DataFrame:
    """Return a table with its texts as they stand in a CSV file, its index and heads too."""
    found = frame.rename(index=_inert_value, columns=_inert_value)
    for place, kind in enumerate(found.dtypes):
        if kind == object or str(kind) in ("string", "category"):
            values = [_inert_value(value) for value in found.iloc[:, place]]
            found.isetitem(place, values)
    return found


def _inert_value(value: Any) -> Any:
    return inert(value) if isinstance(value, str) else value


def printable(value: Any) -> Any:
    """Return a value for a workbook: of a text what can't stand there is written out, as \\x1b."""
    if not isinstance(value, str):
        return value
    return _UNSHOWN.sub(lambda found: ascii(found.group())[1:-1], value)


def store(cell: Any, value: Any) -> None:
    """Store a value in a cell of a workbook, a text as a text whatever it begins with."""
    cell.value = printable(value)
    keep_text(cell)


def keep_text(cell: Any) -> None:
    """Make a text of what a cell of a workbook has taken for a formula or for an error."""
    if isinstance(cell.value, str):
        cell.data_type = "s"
        cell.quotePrefix = is_computed(cell.value)  # it stays a text if somebody edits it
