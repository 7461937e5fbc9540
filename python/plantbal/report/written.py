"""Tables of an output as files: a database of SQLite, and a workbook."""

from __future__ import annotations

from collections.abc import Callable, Mapping
from itertools import chain
from numbers import Integral
from pathlib import Path
from typing import TYPE_CHECKING, Any

from plantbal.faults import ToolMissing
from plantbal.files import replacing
from plantbal.inert import keep_text, printable
from plantbal.report.frames import INT64, need_pandas, texts_of

if TYPE_CHECKING:
    import pandas

# A spreadsheet keeps fifteen digits of a number.
_MOST_OF_A_SHEET = 10**15


def write_sqlite(tables: Mapping[str, pandas.DataFrame], path: str | Path) -> None:
    """Write a database of SQLite with one table a kind, whole or not at all."""
    import sqlite3
    from contextlib import closing

    with replacing(path) as made, closing(sqlite3.connect(made)) as base:
        for name, table in tables.items():
            flat = table.copy()
            for column in flat.columns:
                if any(isinstance(v, int) and v not in INT64 for v in flat[column]):
                    flat[column] = texts_of(flat[column])
            flat.to_sql(name, base, index=False)
        base.commit()


def write_xlsx(tables: Callable[[], Mapping[str, pandas.DataFrame]], path: str | Path) -> None:
    """Write a workbook with one table per sheet, whole or not at all.

    Parameters
    ----------
    tables : callable
        Makes the tables; it is called if a workbook can be written here.
    path : str or Path
        The workbook.

    Raises
    ------
    ToolMissing
        If openpyxl isn't there.
    """
    need_pandas()
    import pandas

    try:
        import openpyxl  # noqa: F401
    except ImportError as error:
        raise ToolMissing("openpyxl", "python3-openpyxl") from error
    found = tables() or {"empty": pandas.DataFrame()}
    with replacing(path) as made:
        with pandas.ExcelWriter(made, engine="openpyxl") as book:
            for name, table in found.items():
                flat = _flat(table)
                flat.to_excel(book, sheet_name=name, index=False, freeze_panes=(1, 0))
                for cell in chain.from_iterable(book.sheets[name].iter_rows()):
                    keep_text(cell)
                _widen(book.sheets[name], flat)


def _flat(table: pandas.DataFrame) -> pandas.DataFrame:
    """Return a table as a sheet can have it: long numbers as texts, texts that are printable."""
    flat = table.copy()
    for column in flat.columns:
        if any(isinstance(v, Integral) and abs(int(v)) >= _MOST_OF_A_SHEET for v in flat[column]):
            flat[column] = texts_of(flat[column])
        elif flat[column].dtype == object:
            flat[column] = [printable(value) for value in flat[column]]
    return flat


def _widen(sheet: Any, table: pandas.DataFrame) -> None:
    """Make the columns of a sheet as wide as their texts, up to a limit."""
    from openpyxl.utils import get_column_letter

    for number, name in enumerate(table.columns, 1):
        texts = [str(name), *map(str, table[name].head(200))]
        sheet.column_dimensions[get_column_letter(number)].width = min(40, 2 + max(map(len, texts)))
