"""An action that waits: it is written down as a whole in `.pending` before any file is changed.

What stands there is judged before it is believed: it names only files of the forms of a book's,
which are no links, and was left by somebody who may write into the book.
"""

from __future__ import annotations

import json
import stat
from collections.abc import Sequence
from dataclasses import dataclass
from pathlib import Path
from typing import Any

from plantbal import limits
from plantbal.book.forms import PENDING, is_own
from plantbal.book.owners import is_trusted, link_in, may_have_left, owner_said
from plantbal.faults import InputFault, Place, unread
from plantbal.sentence import Sentence, phrase


@dataclass(frozen=True)
class PendingFile:
    """What an action does to a file.

    Attributes
    ----------
    file : str
        The file, within the book's folder.
    start : int or None
        The bytes that the file has before; None if it is written as a whole.
    data : bytes
        What comes after these, or the whole.
    """

    file: str
    start: int | None
    data: bytes

    def whole(self, there: bytes, path: Path) -> bytes:
        """Return what the file has in the end.

        Parameters
        ----------
        there : bytes
            What it has now: before this entry, or after it.
        path : Path
            The file, for what is said.

        Raises
        ------
        InputFault
            If it has something else.
        """
        if self.start is None:
            return self.data
        whole = there[: self.start] + self.data
        if len(there) != self.start and there != whole:
            rows = self.data.count(b"\n")
            what = Sentence("another program has changed it, and {rows:,} rows wait", rows=rows)
            form = "put it back as it was with {count:,} bytes; {path} has the rows"
            remedy = Sentence(form, count=self.start, path=str(path.parent / PENDING))
            raise InputFault(what, place=Place(file=str(path)), remedy=remedy)
        return whole


def pending_text(entries: Sequence[PendingFile]) -> bytes:
    """Return the text of `.pending`."""
    items = [
        {"file": each.file, "from": each.start, "text": each.data.decode("utf-8")}
        for each in entries
    ]
    return json.dumps(items).encode("ascii")


def read_pending(folder: Path) -> list[PendingFile]:
    """Return what waits in a book's folder; nothing if no action does.

    Raises
    ------
    InputFault
        If no command of this book has written it.
    """
    path = folder / PENDING
    try:
        found = path.lstat()
    except FileNotFoundError:
        return []
    except OSError as error:
        raise unread(path, error) from error
    if not stat.S_ISREG(found.st_mode):
        raise _foreign(path, "it is a link, a folder or a device, not a file")
    if not may_have_left(folder, found):
        raise _foreign(path, Sentence("it belongs to {owner}", owner=owner_said(found.st_uid)))
    if found.st_size > limits.PENDING_BYTES:
        form = "it has more than {count:,} bytes"
        raise _foreign(path, Sentence(form, count=limits.PENDING_BYTES))
    try:
        items = json.loads(path.read_bytes())
    except OSError as error:
        raise unread(path, error) from error
    except (ValueError, RecursionError):
        raise _foreign(path, "it isn't what a command writes") from None
    return _entries(folder, items)


def _entries(folder: Path, items: Any) -> list[PendingFile]:
    """Return the entries of JSON.

    Raises
    ------
    InputFault
        If it isn't of their form, or names another file than one of the book's.
    """
    path = folder / PENDING
    if not isinstance(items, list) or not items:
        raise _foreign(path, "it isn't what a command writes")
    entries = []
    for item in items:
        if not isinstance(item, dict) or set(item) != {"file", "from", "text"}:
            raise _foreign(path, "it isn't what a command writes")
        name, start, text = item["file"], item["from"], item["text"]
        whole = start is None or (type(start) is int and start >= 0)
        if not whole or not isinstance(name, str) or not isinstance(text, str):
            raise _foreign(path, "it isn't what a command writes")
        if not is_own(name):
            form = "it names {name!r}, which isn't a file of a book"
            raise _foreign(path, Sentence(form, name=name))
        if link_in(folder, name) is not None and not is_trusted(folder):
            form = "it names {name}, where a link leads elsewhere"
            raise _foreign(path, Sentence(form, name=name))
        try:
            entries.append(PendingFile(name, start, text.encode("utf-8")))
        except UnicodeEncodeError:
            raise _foreign(path, "it isn't what a command writes") from None
    return entries


def _foreign(path: Path, why: str) -> InputFault:
    """Return what is to be said of a `.pending` that isn't believed."""
    form = "an action waits that no command of this book can have left: {why}"
    return InputFault(
        Sentence(form, why=phrase(why)),
        place=Place(file=str(path)),
        remedy="nothing of it is done; if you don't know where it is from, ask whoever gave you "
        "the book, and move this file away",
    )


def left_said(path: Path, started: bool) -> Sentence:
    """Return what is to be said of an action that waits in a file, of which something is done or nothing."""
    form = (
        "the action waits in {path}: the next command that writes to the book does it; part of it "
        "is done, so it can't be dropped, but amended after that"
        if started
        else "the action waits in {path}: the next command that writes to the book does it; to drop "
        "it, remove that file before"
    )
    return Sentence(form, path=str(path))
