"""A book that is only read: opened by its folder, with its files tested."""

from __future__ import annotations

from collections.abc import Iterator
from contextlib import contextmanager
from pathlib import Path

from plantbal.book.store import Store


@contextmanager
def read_book(folder: str | Path) -> Iterator[Store]:
    """Open a book that is only read: no command writes to it as long as it is open.

    Parameters
    ----------
    folder : str or Path
        The book's folder.

    Raises
    ------
    Fault
        If there is no book, another command is at work in it, or a file was changed.
    """
    book = Store(folder)
    with book.opened(reading=True):
        yield book
