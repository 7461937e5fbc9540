"""A copy of a book in a folder that goes away: what an action would do is seen by doing it there.

The files are copied while the book is open for reading, so that the copy is of one moment; what a
stopped command has left to do is copied too. Only the files of a book are, and no link is followed.
"""

from __future__ import annotations

import shutil
import tempfile
from collections.abc import Iterator
from contextlib import contextmanager
from pathlib import Path

from plantbal.book.forms import CHECKS, PENDING, there
from plantbal.book.owners import check_links
from plantbal.book.store import Store


@contextmanager
def copied(book: Store) -> Iterator[Path]:
    """Give the folder of a copy of a book, which is removed in the end.

    Raises
    ------
    Fault
        If there is no book, or a file of it was changed or is a link.
    """
    with tempfile.TemporaryDirectory(prefix="plantbal-trial-") as made:
        folder = Path(made)
        with book.opened(reading=True):
            names = [*there(book.folder), CHECKS, PENDING]
            check_links(book.folder, names)
            for name in names:
                source = book.folder / name
                if source.is_file():
                    (folder / name).parent.mkdir(parents=True, exist_ok=True)
                    shutil.copyfile(source, folder / name)
        yield folder
