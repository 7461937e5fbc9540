"""The table of the sheets of a plant's workbook in docs/PYTHON.md, made from the list of sheets."""

from __future__ import annotations

import sys

from gate.checkout import TOP

from .guide import between
from .sources import Sources

PAGE = "docs/PYTHON.md"
MARK = "<!-- sheets: made by .ci/documents write from the list of sheets -->"


def rows() -> list[str]:
    """Return the table, a row for each kind of sheet in the order in which they are read."""
    sys.path.insert(0, str(TOP / "python"))
    from plantbal.workbook.sheetkinds import SHEETS

    found = [
        "| sheet | what it is for | its columns, bold if it needs them | without |",
        "|---|---|---|---|",
    ]
    for kind in SHEETS.values():
        heads = ", ".join(f"**{each.head}**" if each.needed else each.head for each in kind.columns)
        found.append(f"| `{kind.word}` | {kind.about} | {heads or kind.said} | {kind.without} |")
    return found


def document(sources: Sources) -> str:
    """Return the page with its table."""
    return between(sources.text(PAGE), MARK, rows(), PAGE)
