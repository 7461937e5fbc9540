"""Reasons as they were typed, beside those that the rows of a session have in Latin letters.

The book's journal has them. A reason is found by the number of its row, so two that are written alike
in Latin letters aren't taken for each other; if that doesn't decide, the row's alone is shown.
"""

from __future__ import annotations

from dataclasses import replace

from plantbal.book.reasons import in_ascii
from plantbal.book.opening import read_book
from plantbal.page.statement import PageContents, ShownEdit, Statement

# The rows that an action has added, and its reasons as typed by those of rows.
_Lines = list[tuple[list[range], dict[str, str]]]


def with_typed(page: PageContents, folder: str | None) -> PageContents:
    """Return what a page shows, its edits with the reasons as they were typed.

    Parameters
    ----------
    page : PageContents
        What it shows.
    folder : str or None
        The book's folder; None if none is named.

    Raises
    ------
    Fault
        If there is no book, or one of its files was changed.
    """
    if folder is None or not any(each.edits for each in page.statements):
        return page
    lines: _Lines = []
    with read_book(folder) as book:
        for line in book.journal():
            parts = {in_ascii(part): part for part in {line.why, *line.why.split("; ")}}
            if line.added and not line.why.isascii():
                lines.append(([*line.added.values()], parts))
    return replace(page, statements=[_with_typed(each, lines) for each in page.statements])


def _with_typed(statement: Statement, lines: _Lines) -> Statement:
    edits = [replace(each, typed=_typed(each, lines)) for each in statement.edits]
    return replace(statement, edits=edits)


def _typed(edit: ShownEdit, lines: _Lines) -> str:
    """Return the one reason that was typed for an edit; empty if it is that of the row, or unsure."""
    found = {
        parts[edit.reason]
        for rows, parts in lines
        if edit.reason in parts and any(edit.record in each for each in rows)
    }
    only = found.pop() if len(found) == 1 else ""
    return "" if only == edit.reason else only
