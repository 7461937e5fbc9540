"""The sheets of a workbook turned into those of their kinds, as its mapping says; none is left out in silence.

A cell keeps its row and its column, so what is said of it names the cell of the workbook. What a
mapping doesn't name is never passed over: a sheet without a place in it is a fault, and so are,
later, a column or a row of figures that no reader takes.
"""

from __future__ import annotations

from collections.abc import Sequence
from dataclasses import replace
from decimal import Decimal

from plantbal.sentence import Sentence, phrase
from plantbal.workbook.mapping.finding import sheet_mapping, unmapped
from plantbal.workbook.mapping.form import WorkbookMapping
from plantbal.workbook.mapping.heads import MappedHeads
from plantbal.workbook.mapping.mapped import Line, Mapped
from plantbal.workbook.mapping.parts import sheet_parts, without_empty
from plantbal.workbook.mapping.rows import MappedRows
from plantbal.workbook.sheets import Sheet, Value


def applied(mapping: WorkbookMapping, sheets: Sequence[Sheet]) -> list[Sheet]:
    """Return the sheets of a workbook as a mapping says.

    Raises
    ------
    InputFault
        If the mapping doesn't fit the workbook.
    """
    found, counters = [], dict[str, str]()
    for sheet in sheets:
        own = sheet_mapping(mapping, sheet)
        if own is None:
            found.append(unmapped(sheet))
        elif not own.kind or (own.plant and own.plant != mapping.plant):
            why = (
                "as the mapping says"
                if not own.kind
                else Sentence("it is of the plant {plant}", plant=own.plant)
            )
            sheet.notes.append(Sentence("the sheet is skipped: {why}", why=phrase(why)))
            found.append(replace(sheet, word="about"))
        else:
            parts = [Mapped(mapping, part, sheet) for part in sheet_parts(own)]
            for each in parts:
                turned = _turned(each)
                found.append(turned if len(parts) == 1 else without_empty(turned))
                counters |= each.counters
    return [*found, *_settings(mapping, counters, sheets)]


def _turned(mapped: Mapped) -> Sheet:
    """Return a sheet as one of its kind."""
    lines: list[Line] = []
    across = None
    if mapped.lines:
        heads = MappedHeads(mapped)
        across = heads.across
        lines = [*heads.above(), *heads.lines(), *MappedRows(mapped, heads).lines()]
    else:
        mapped.notes.append("the sheet is empty")
    return replace(
        mapped.given,
        word=mapped.own.kind,
        locale=mapped.own.locale,
        lines=lines,
        taken=mapped.taken,
        notes=[*mapped.given.notes, *mapped.notes],
        across=across,
    )


def _settings(
    mapping: WorkbookMapping, counters: dict[str, str], sheets: Sequence[Sheet]
) -> list[Sheet]:
    """Return the settings and counters of a mapping as a sheet; none if it has none."""
    rows: list[list[Value]] = [[name, value, None] for name, value in mapping.settings.items()]
    rows += [["counter", Decimal(figure), tag] for tag, figure in counters.items()]
    if not rows or not sheets:
        return []
    heads: list[Value] = ["setting", "value", "for"]
    lines: list[Line] = list(enumerate([heads, *rows], 1))
    return [Sheet(sheets[0].file, "settings of the mapping", lines, word="settings")]
