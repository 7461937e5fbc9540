"""The books of the plants, for the pages: each opened as `plantbal.Book`, and what was read kept.

A page of a book that hasn't changed needn't read its files again. What was made of a book is kept
beside the *mark* of its files: name, inode, size and times of each. Every command replaces a file
by a rename, so another file has another mark.
"""

from __future__ import annotations

import threading
from collections import OrderedDict
from collections.abc import Callable, Iterator, Mapping
from pathlib import Path
from typing import Any, TypeVar

from django.conf import settings
from django.http import HttpRequest
from django.utils.translation import gettext as _

from plantbal.book.actions import Withheld
from plantbal.book.expected import BookVersion
from plantbal.book.forms import CHECKS, PENDING, there
from plantbal.book.library import Book
from plantbal.book.looking import BookMonth, Contents, MonthFacts
from plantbal.book.results import ReportState
from plantbal.faults import Fault
from plantbal.program import RunSettings
from plantbal.schema import schema
from plantbal_office.plants.models import Plant

Made = TypeVar("Made")
# How much is kept of each kind: a year's facts take some 40 MB.
_MOST = {"contents": 12, "facts": 3, "page": 12, "status": 12, "picture": 12}

Mark = tuple[tuple[str, int, int, int, int], ...]


class LatestMade:
    """What was made of books, the latest of each kind."""

    def __init__(self) -> None:
        self._lock = threading.Lock()
        self._made: dict[str, OrderedDict[tuple[object, ...], tuple[Mark, Any]]] = {}

    def of(
        self, folder: Path, kind: str, key: tuple[object, ...], make: Callable[[], Made]
    ) -> Made:
        """Return what is made of a book, as it was made before if no file has changed since."""
        mark = mark_of(folder)
        full = (str(folder), *key)
        with self._lock:
            shelf = self._made.setdefault(kind, OrderedDict())
            found = shelf.get(full)
            if found is not None and found[0] == mark:
                shelf.move_to_end(full)
                made: Made = found[1]
                return made
        made = make()
        if mark_of(folder) == mark:
            with self._lock:
                shelf[full] = mark, made
                shelf.move_to_end(full)
                while len(shelf) > _MOST.get(kind, 8):
                    shelf.popitem(last=False)
        return made


KEPT = LatestMade()


def mark_of(folder: Path) -> Mark:
    """Return the mark of a book's files."""
    return tuple(_marks(folder))


def _marks(folder: Path) -> Iterator[tuple[str, int, int, int, int]]:
    for name in (*there(folder), CHECKS, PENDING):
        try:
            found = (folder / name).stat()
        except OSError:
            continue
        yield name, found.st_ino, found.st_size, found.st_mtime_ns, found.st_ctime_ns


def who_of(request: HttpRequest) -> str:
    """Return whose name a journal gets for what a request does."""
    return request.user.get_username() if settings.PLANTBAL_NAMES_PEOPLE else ""


def given_by(request: HttpRequest) -> tuple[str, str] | None:
    """Return the text that somebody has signed and its signature, if a form has both files.

    Raises
    ------
    Fault
        If it has one of them alone.
    """
    record, signature = _text_of(request, "record"), _text_of(request, "signature")
    if bool(record) != bool(signature):
        remedy = _(
            "download the text to be signed, sign it with the command shown, and send both files"
        )
        raise Fault(_("this book requires a signature"), remedy=remedy)
    return (record, signature) if signature else None


def _text_of(request: HttpRequest, name: str) -> str:
    """Return the text of a small file of a form; nothing without one."""
    found = request.FILES.get(name)
    if found is None:
        return ""
    if found.size > 1 << 16:
        raise Fault(_("this isn't a signature"), remedy=_("send the file that ssh-keygen wrote"))
    found.seek(0)
    return str(found.read().decode("ascii", "replace"))


def book_of(request: HttpRequest, *, expected: bool = False) -> Book:
    """Return the book of the plant that a request names.

    What wants an approval by its rules is submitted, with the signature that the form has; or the
    text to be signed is given, if the form asks for it.

    Parameters
    ----------
    request : HttpRequest
        The request.
    expected : bool
        Whether the book has to be as the form of the request says that it was shown.
    """
    version = BookVersion.read(request.POST.get("version", "")) if expected else None
    if expected and version is None:
        version = BookVersion(0, "")
    return Book(
        request.plant.folder,
        who=who_of(request),
        program=settings.PLANTBAL_PROGRAM,
        expected=version,
        given=given_by(request),
        withheld=(Withheld.TO_SIGN if request.POST.get("answer") == "text" else Withheld.SUBMITTED),
    )


def plain_book(plant: Plant) -> Book:
    """Return the book of a plant, to look at."""
    return Book(plant.folder, program=settings.PLANTBAL_PROGRAM)


def book_contents(plant: Plant) -> Contents:
    """Return what is there in the book of a plant."""
    return KEPT.of(Path(plant.folder), "contents", (), plain_book(plant).contents)


def period_facts(plant: Plant, period: str) -> MonthFacts:
    """Return the facts of a period."""
    make = lambda: plain_book(plant).facts(period)  # noqa: E731
    return KEPT.of(Path(plant.folder), "facts", (period,), make)


def run_settings(eliminate: int | None = None, *, tests: bool | None = None) -> RunSettings:
    """Return how the program is run for a page; what isn't given is as in the last report."""
    return RunSettings(tests, eliminate, program=settings.PLANTBAL_PROGRAM)


def rounds_given(words: Mapping[str, str]) -> int | None:
    """Return how many suspects a form or an address has taken out; None if it doesn't say that."""
    text = words.get("eliminate", "")
    return int(text) if text in map(str, range(schema().limits["most_rounds"] + 1)) else None


def last_rounds(plant: Plant, month: BookMonth) -> int:
    """Return with how many rounds of elimination the last report of a month was made."""
    if month.report is ReportState.MISSING:
        return 0
    make = lambda: plain_book(plant).kept(month.name).rounds  # noqa: E731
    return KEPT.of(Path(plant.folder), "rounds", (month.name,), make)
