"""Which figures of a sheet of readings may be a counter's: added up, they would be no flow."""

from __future__ import annotations

from collections.abc import Mapping

from plantbal.workbook.mapping.form import OPEN
from plantbal.workbook.mapping.known import KnownPlant
from plantbal.workbook.mapping.profile import SheetProfile, rises
from plantbal.workbook.mapping.vocabulary import is_counter
from plantbal.workbook.mapping.why import counter_asked


def maybe_counters(
    profile: SheetProfile, known: KnownPlant, columns: Mapping[str, str]
) -> dict[str, str]:
    """Return the columns whose figures only rise, as those of a counter, and what speaks for it."""
    found: dict[str, str] = {}
    texts = [profile.sheet.name, *profile.titles]
    for column in profile.columns:
        if not known.meter(column.head) or columns.get(column.key) in ("", OPEN):
            continue
        said = next((text for text in [column.head, *texts] if is_counter(text)), "")
        if rises(column.decimals, noisy=not said):
            found[column.key] = counter_asked(said)
    return found
