"""The files of a workbook that came by a form: where they are put, and what they may be called.

They are kept in the desk's folder for files until they are booked, and for a week at most.
"""

from __future__ import annotations

import re
import shutil
import tempfile
from collections.abc import Iterator, Sequence
from contextlib import contextmanager
from datetime import timedelta
from pathlib import Path, PurePosixPath
from uuid import UUID

from django.conf import settings
from django.core.files.uploadedfile import UploadedFile
from django.http import HttpRequest
from django.utils import timezone
from django.utils.translation import gettext as _
from django.utils.translation import gettext_lazy

from plantbal.book.library import Book
from plantbal.book.library.base import day_or_none
from plantbal.book.reading import Tabled
from plantbal.faults import Fault, InputFault, Place
from plantbal.workbook.mapping.form import WorkbookMapping
from plantbal.workbook.options import ReadingOptions
from plantbal.workbook.sheets import read_workbook
from plantbal_office.enter.models import Drop

LOCALES = [
    ("", gettext_lazy("1,234.5 and 2024-04-30")),
    ("de", gettext_lazy("German: 1.234,5 and 30.04.2024")),
    ("en_GB", gettext_lazy("British: 1,234.5 and 30/04/2024")),
    ("en_US", gettext_lazy("American: 1,234.5 and 04/30/2024")),
    ("es", gettext_lazy("Spanish: 1.234,5 and 30/04/2024")),
    ("fr", gettext_lazy("French: 1 234,5 and 30/04/2024")),
    ("de_CH", gettext_lazy("Swiss: 1’234.5 and 30.04.2024")),
]
ENDINGS = (".xlsx", ".xlsm", ".ods", ".csv", ".txt", ".tsv")
TABLES = (".csv", ".txt", ".tsv")
MOST_FILES = 60
LONGEST_NAME = 100
KEPT = timedelta(days=7)
# Where workbooks are while they are looked at: a person knows nothing of these folders.
_FOLDERS = re.compile(r"/\S*?/(?:plantbal-drop-[^/]+|drops/[0-9a-f-]{36})/")


def options_of(locale: str) -> ReadingOptions:
    """Return how a workbook is read."""
    return ReadingOptions(locale if locale in dict(LOCALES) else "")


def files_in(request: HttpRequest) -> list[UploadedFile]:
    """Return the files of a form.

    Raises
    ------
    Fault
        If there are too many, or one can't be a workbook.
    """
    found = list(request.FILES.getlist("workbook"))
    if len(found) > MOST_FILES:
        what = _("these are {count} files").format(count=len(found))
        raise Fault(what, remedy=_("drop at most {most}").format(most=MOST_FILES))
    for file in found:
        checked_name(file.name or "")
    return found


def checked_name(name: str) -> str:
    """Return the name of a file without its folders.

    Raises
    ------
    Fault
        If no workbook is called so.
    """
    name = PurePosixPath(name.replace("\\", "/")).name
    place = Place(file=name[:40])
    if len(name) > LONGEST_NAME or not name.isprintable() or name.startswith("."):
        what = _("this file name is too long, or has characters that a file name can't have")
        raise InputFault(what, place=place, remedy=_("rename the file"))
    if not name.lower().endswith(ENDINGS):
        what = _("this isn't a workbook that can be read")
        remedy = _("save it as .xlsx or .ods, or its sheets as .csv")
        raise InputFault(what, place=place, remedy=remedy)
    return name


def workbooks_of(files: Sequence[UploadedFile], name: str) -> list[tuple[str, list[UploadedFile]]]:
    """Return which workbooks some files are: each xlsx is one, and so are all tables together.

    Returns
    -------
    list of (str, list of UploadedFile)
        The name of each, and its files; a lone table has its own name unless it is called
        otherwise.
    """
    tables = [file for file in files if file.name.lower().endswith(TABLES)]
    found = [(checked_name(file.name), [file]) for file in files if file not in tables]
    cleaned = PurePosixPath(name.strip().replace("\\", "/")).name[:LONGEST_NAME]
    cleaned = "".join(each for each in cleaned if each.isprintable()).lstrip(".")
    if len(tables) == 1 and not cleaned:
        found.append((checked_name(tables[0].name), tables))
    elif tables:
        found.append((cleaned or "workbook", tables))
    return found


def write_workbook_files(folder: Path, name: str, files: Sequence[UploadedFile]) -> Path:
    """Write the files of a workbook into a folder, and return the workbook.

    Raises
    ------
    Fault
        If two of them have one name.
    """
    names = [checked_name(file.name) for file in files]
    if len({each.lower() for each in names}) < len(names):
        raise Fault(_("two of these files have the same name"), remedy=_("rename one of them"))
    folder.mkdir(parents=True, exist_ok=True)
    if len(files) == 1 and names[0] == name:
        place = folder / name
        _copy(files[0], place)
        return place
    inner = folder / name
    inner.mkdir(exist_ok=True)
    for file, each in zip(files, names):
        _copy(file, inner / each)
    return inner


def _copy(file: UploadedFile, place: Path) -> None:
    with open(place, "xb") as out:
        for part in file.chunks():
            out.write(part)


def one_workbook(request: HttpRequest) -> tuple[str, list[UploadedFile]]:
    """Return the one workbook that came by a form: its name, and its files.

    Raises
    ------
    Fault
        If there is none, or there are several.
    """
    found = workbooks_of(files_in(request), request.POST.get("called", ""))
    if len(found) != 1:
        what = _("no workbook was chosen") if not found else _("these are several workbooks")
        raise Fault(what, remedy=_("choose the plant's workbook, or all its CSV files"))
    return found[0]


@contextmanager
def dropped(request: HttpRequest) -> Iterator[Path | None]:
    """Give the workbook that came by a form, in a folder that goes away in the end, or None.

    Raises
    ------
    Fault
        If there are several.
    """
    if not files_in(request):
        yield None
        return
    found = one_workbook(request)
    with tempfile.TemporaryDirectory(prefix="plantbal-drop-") as made:
        yield write_workbook_files(Path(made), *found)


def without_folders(text: str) -> str:
    """Return what is said of a workbook without the folder in which the desk keeps it."""
    return _FOLDERS.sub("", text)


def folder_of(drop: Drop) -> Path:
    """Return the folder of a workbook that waits."""
    return Path(settings.MEDIA_ROOT) / "drops" / str(drop.pk)


def path_of(drop: Drop) -> Path:
    """Return a workbook that waits.

    Raises
    ------
    Fault
        If its files are gone.
    """
    path = folder_of(drop) / drop.name
    if not path.exists():
        raise Fault(_("the files of this workbook are gone"), remedy=_("drop it again"))
    return path


def tabled_of(drop: Drop) -> Tabled:
    """Return what was typed into the grid: its sheets are ours, whatever mapping the book has.

    Raises
    ------
    Fault
        If its files are gone.
    """
    days = [(name, day_or_none(day)) for name, day in drop.cleared]
    cleared = tuple((name, day) for name, day in days if day is not None)
    folder = folder_of(drop) / drop.name
    sheets = read_workbook(path_of(drop)) if folder.exists() or not cleared else []
    return Tabled(drop.name, sheets, cleared)


def typed_reading(book: Book, locale: str) -> ReadingOptions:
    """Return how what was typed is read: of the book's mapping what its words and errors are."""
    mapping = book.mapping() or WorkbookMapping()
    return ReadingOptions(locale, mapping.missing, (), mapping.limits)


def keep_drop(
    request: HttpRequest,
    name: str,
    files: Sequence[UploadedFile],
    locale: str,
    batch: UUID | None = None,
) -> Drop:
    """Keep a workbook until it is booked; that of a new plant until its book is begun."""
    plant = getattr(request, "plant", None)
    drop = Drop(person=request.user, plant=plant, name=name, locale=locale, batch=batch)
    try:
        write_workbook_files(folder_of(drop), name, files)
    except BaseException:
        shutil.rmtree(folder_of(drop), ignore_errors=True)
        raise
    drop.save(force_insert=True)
    return drop


def forget(drop: Drop) -> None:
    """Forget a workbook, with its files."""
    shutil.rmtree(folder_of(drop), ignore_errors=True)
    drop.delete()


def tidy() -> None:
    """Forget what has waited for too long."""
    for drop in Drop.objects.filter(made__lt=timezone.now() - KEPT):
        forget(drop)
