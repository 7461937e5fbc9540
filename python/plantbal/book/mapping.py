"""How the workbooks of a book are read: the mapping that it keeps, with locale and words.

It is written when the book is made, or when a workbook is added with another mapping, by the same
action as the rows: the journal has its digest.
"""

from __future__ import annotations

from plantbal.book.forms import MAPPING
from plantbal.book.store import Action, Store
from plantbal.workbook.mapping.form import WorkbookMapping, mapping_text, parse_mapping
from plantbal.workbook.options import ReadingOptions


def mapping_of(book: Store) -> WorkbookMapping | None:
    """Return the mapping that a book keeps, or None."""
    text = book.text(MAPPING)
    return parse_mapping(str(book.path(MAPPING)), text) if text else None


def put_reading(book: Store, reading: ReadingOptions, action: Action) -> bool:
    """Have an action keep how a workbook is read, and return whether that changes what is kept."""
    mapping = reading.as_mapping()
    if mapping == (mapping_of(book) or WorkbookMapping()):
        return False
    action.written[MAPPING] = mapping_text(mapping, {}, "How the workbooks of this book are read.")
    return True
