"""What is typed into the grid as a workbook: the same sheets, so that the same rules read it."""

from __future__ import annotations

import csv
import io
import json
from collections.abc import Mapping, Sequence

from django.core.files.base import ContentFile
from django.utils.translation import get_language
from django.utils.translation import gettext as _

from plantbal.faults import Fault

MOST_CELLS, LONGEST = 6_000, 60
# The columns of each sheet that the grid writes.
SHEETS: Mapping[str, tuple[str, ...]] = {
    "dips": ("tank", "day", "level", "density", "error"),
    "tickets": ("id", "stream", "first", "last", "amount", "unit", "error"),
    "assays": ("component", "stream", "period", "grade", "unit", "error"),
    "estimates": ("stream", "day", "last", "amount", "unit", "error"),
}
KINDS = ("readings", *SHEETS)
_LOCALES = {"de": "de", "es": "es"}


def typing_locale() -> str:
    """Return whose numbers a person types: as the language of the page writes them."""
    return _LOCALES.get((get_language() or "en")[:2], "en_US")


def cells_of(text: str) -> list[dict[str, str]]:
    """Return the cells or rows of a form of the grid.

    Raises
    ------
    Fault
        If it is none, or longer than any grid.
    """
    try:
        found = json.loads(text)
    except (ValueError, RecursionError) as error:
        raise Fault(_("this grid can't be read"), remedy=_("reload the page")) from error
    if not isinstance(found, list) or len(found) > MOST_CELLS:
        raise Fault(_("this is more than the grid holds"), remedy=_("drop a workbook instead"))
    for each in found:
        is_row = isinstance(each, dict) and len(each) <= 12
        if not is_row or not all(_is_text(key) and _is_text(each[key]) for key in each):
            raise Fault(_("a cell is longer than any figure"), remedy=_("shorten it"))
    return [{key: value.strip() for key, value in each.items()} for each in found]


def _is_text(value: object) -> bool:
    return isinstance(value, str) and len(value) <= LONGEST and value.isprintable()


def parted(
    kind: str, rows: Sequence[Mapping[str, str]]
) -> tuple[list[Mapping[str, str]], list[list[str]]]:
    """Return the rows with a figure, and the names and days of the cells that were cleared.

    Raises
    ------
    Fault
        If nothing was typed and nothing cleared.
    """
    if not rows:
        raise Fault(_("nothing was typed"), remedy=_("type a figure, or leave the page"))
    figure = {"readings": "amount", "dips": "level"}.get(kind)
    if figure is None:
        return list(rows), []
    typed = [row for row in rows if row.get(figure)]
    name = "name" if kind == "readings" else "tank"
    return typed, [[row.get(name, ""), row.get("day", "")] for row in rows if not row.get(figure)]


def file_of(kind: str, rows: Sequence[Mapping[str, str]]) -> ContentFile:
    """Return the sheet of what was typed."""
    table = _readings(rows) if kind == "readings" else _table(SHEETS[kind], rows)
    out = io.StringIO()
    csv.writer(out, lineterminator="\n").writerows(table)
    return ContentFile(out.getvalue().encode("utf-8"), name=f"{kind}.csv")


def _table(heads: Sequence[str], rows: Sequence[Mapping[str, str]]) -> list[list[str]]:
    """Return a sheet with a row for each row that was typed, without columns that are empty."""
    used = [head for head in heads if any(row.get(head) for row in rows)]
    return [used, *([row.get(head, "") for head in used] for row in rows)]


def _readings(cells: Sequence[Mapping[str, str]]) -> list[list[str]]:
    """Return a sheet of readings with a column for each meter and a row for each day."""
    names = list(dict.fromkeys(cell.get("name", "") for cell in cells))
    days = sorted({cell.get("day", "") for cell in cells})
    values = {(cell.get("day"), cell.get("name")): cell.get("amount", "") for cell in cells}
    return [["day", *names], *([day, *(values.get((day, n), "") for n in names)] for day in days)]
