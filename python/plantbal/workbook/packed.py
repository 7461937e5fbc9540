"""What packed workbooks have in common: their size, how they are refused, what is said of them."""

from __future__ import annotations

import io
import zipfile
from collections.abc import Iterable, Iterator
from contextlib import contextmanager
from enum import unique

from plantbal import limits
from plantbal.causes import Causes, CausedFault
from plantbal.faults import InputFault, Place
from plantbal.sentence import Sentence

_SAID = 5  # rows, columns or cells of a kind that a note names


@unique
class PackedCause(Causes):
    """Why a packed workbook can't be read."""

    UNREADABLE = "this workbook can't be read ({error})"


@contextmanager
def readable(name: str) -> Iterator[None]:
    """Say of whatever a reader raises that the workbook can't be read."""
    try:
        yield
    except InputFault:
        raise
    except Exception as error:  # a reader raises whatever its parts raise
        said = str(error)[:200] or type(error).__name__
        raise CausedFault(
            PackedCause.UNREADABLE(error=said),
            place=Place(file=name),
            remedy="open it and save it again",
        ) from error


def check_size(name: str, data: bytes) -> None:
    """Refuse a workbook that is too large once it is unpacked; zipfile unpacks no more than this."""
    with zipfile.ZipFile(io.BytesIO(data)) as packed:
        size = sum(entry.file_size for entry in packed.infolist())
    if size > limits.UNPACKED_BYTES:
        raise InputFault(
            Sentence(
                "this workbook has {size:,} bytes once it is unpacked, and at most "
                "{unpacked_bytes:,} are read",
                size=size,
                unpacked_bytes=limits.UNPACKED_BYTES,
            ),
            place=Place(file=name),
            remedy="take out sheets and pictures that aren't the plant's",
        )


# What is said of what a reader of the workbook doesn't see, or sees struck: of one, of a few, of many.
_UNSEEN = {
    "row": (
        "row {names} is hidden, and read",
        "rows {names} are hidden, and read",
        "rows {names} and {count:,} more are hidden, and read",
    ),
    "column": (
        "column {names} is hidden, and read",
        "columns {names} are hidden, and read",
        "columns {names} and {count:,} more are hidden, and read",
    ),
    "cell": (
        "cell {names} is struck through, and read",
        "cells {names} are struck through, and read",
        "cells {names} and {count:,} more are struck through, and read",
    ),
    "unseen": (
        "cell {names} is shown without its figure, and read",
        "cells {names} are shown without their figures, and read",
        "cells {names} and {count:,} more are shown without their figures, and read",
    ),
}


def hidden_notes(
    is_hidden: bool,
    rows: Iterable[int],
    columns: Iterable[str],
    struck: Iterable[str],
    unseen: Iterable[str] = (),
) -> Iterator[str]:
    """Give what is to be said of what a reader of the workbook doesn't see, or sees struck."""
    if is_hidden:
        yield "the sheet is hidden, and is read"
    for what, some in (
        ("row", map(str, rows)),
        ("column", columns),
        ("cell", struck),
        ("unseen", unseen),
    ):
        names = list(some)
        if names:
            one, few, many = _UNSEEN[what]
            form = one if len(names) == 1 else few if len(names) <= _SAID else many
            shown = ", ".join(names[:_SAID])
            yield Sentence(form, names=shown, count=len(names) - _SAID)
