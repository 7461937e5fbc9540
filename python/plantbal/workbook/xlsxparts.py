"""The small parts of a workbook of Excel: which sheets it has, how its cells are shown, its texts.

An xlsx file is an archive of XML. The part of the workbook names its sheets and the day from which
days are counted, that of the styles has the form of each style, and that of the texts has the texts
that cells share.
"""

from __future__ import annotations

import datetime
import posixpath
import zipfile
from collections.abc import Iterator
from dataclasses import dataclass
from enum import unique
from typing import TYPE_CHECKING

from plantbal.causes import Causes, CausedFault
from plantbal.faults import ToolMissing
from plantbal.workbook.cellforms import Form, cell_form
from plantbal.workbook.sheets import EPOCH, EPOCH_1904
from plantbal.workbook.xmlwalk import SoughtElement, walk

if TYPE_CHECKING:
    from xml.etree.ElementTree import Element

SPACE = "http://schemas.openxmlformats.org/spreadsheetml/2006/main}"
MAIN = "{" + SPACE
_OFFICE = "{http://schemas.openxmlformats.org/officeDocument/2006/relationships}"
_TYPES = "{http://schemas.openxmlformats.org/package/2006/content-types}"
_LINKS = "{http://schemas.openxmlformats.org/package/2006/relationships}"
_SHEETML = "application/vnd.openxmlformats-officedocument.spreadsheetml."
# The types of a workbook: a plain one, one with macros, and the templates of both.
_BOOKS = (
    f"{_SHEETML}sheet.main+xml",
    "application/vnd.ms-excel.sheet.macroEnabled.main+xml",
    f"{_SHEETML}template.main+xml",
    "application/vnd.ms-excel.template.macroEnabled.main+xml",
)
_STRINGS = f"{_SHEETML}sharedStrings+xml"
_STYLES, _BOOK = "xl/styles.xml", "xl/workbook.xml"
_FALSE = ("0", "false", "f")
TRUE = ("1", "true")
_SAVE_AGAIN = "open it in a spreadsheet and save it again"


@unique
class XlsxCause(Causes):
    """Why a workbook of Excel can't be read."""

    STRICT = "this is a Strict Open XML workbook"
    TWO_PARTS = "this workbook has two parts with the name {name}"
    NO_PART = "the part of the sheet {name!r} isn't in this workbook"
    BEYOND_SHEET = "there is a cell in row {row:,}, column {column:,}"


@dataclass(frozen=True, slots=True)
class Style:
    """How a cell of a style is shown.

    Attributes
    ----------
    form : Form
        How its number is shown.
    is_struck : bool
        Whether it is struck through.
    is_date, is_span : bool
        Whether its number is a day or a time, and whether it is a span of time.
    """

    form: Form
    is_struck: bool = False
    is_date: bool = False
    is_span: bool = False


@dataclass(frozen=True, slots=True)
class Part:
    """A sheet of a workbook: its name, whether it is hidden, and the member that has it."""

    name: str
    is_hidden: bool
    member: str


@dataclass(frozen=True)
class Parts:
    """What the small parts of a workbook say.

    Attributes
    ----------
    sheets : tuple of Part
        Its sheets, without charts.
    epoch : date
        The day from which days are counted.
    styles : tuple of Style
        The styles by their numbers.
    texts : list of str
        The texts that cells share, by their numbers.
    """

    sheets: tuple[Part, ...]
    epoch: datetime.date
    styles: tuple[Style, ...]
    texts: list[str]


def small_parts(archive: zipfile.ZipFile) -> Parts:
    """Return what the small parts of a workbook say.

    Raises
    ------
    CausedFault
        If it is of another form, or a part that it names isn't there.
    ToolMissing
        If openpyxl or defusedxml isn't installed.
    """
    _check_once(archive)
    types = {
        each.get("ContentType", ""): each.get("PartName", "").lstrip("/")
        for each in reversed(_tree(archive, "[Content_Types].xml").findall(f"{_TYPES}Override"))
    }
    member = next((types[each] for each in _BOOKS if each in types), _BOOK)
    book = _tree(archive, member)
    if book.tag != f"{MAIN}workbook":
        raise CausedFault(XlsxCause.STRICT(), remedy="save it as Excel Workbook (*.xlsx)")
    settings = book.find(f"{MAIN}workbookPr")
    is_1904 = settings is not None and settings.get("date1904") in TRUE
    styles = _styles(_tree(archive, _STYLES)) if _STYLES in archive.namelist() else []
    return Parts(
        tuple(_sheets(archive, member, book)),
        EPOCH_1904 if is_1904 else EPOCH,
        tuple(styles) or (Style(cell_form("General")),),
        _texts(archive, types[_STRINGS]) if _STRINGS in types else [],
    )


def _check_once(archive: zipfile.ZipFile) -> None:
    """Refuse an archive with two parts of a name: programs read one of them, and not the same."""
    seen: set[str] = set()
    for name in archive.namelist():
        if name.casefold() in seen:
            raise CausedFault(XlsxCause.TWO_PARTS(name=name), remedy=_SAVE_AGAIN)
        seen.add(name.casefold())


def _tree(archive: zipfile.ZipFile, member: str) -> Element:
    """Return a small part as a tree; entities are refused."""
    try:
        from defusedxml.ElementTree import fromstring
    except ImportError as error:
        raise ToolMissing("defusedxml", "python3-defusedxml") from error
    root: Element = fromstring(archive.read(member))
    return root


def _sheets(archive: zipfile.ZipFile, member: str, book: Element) -> Iterator[Part]:
    """Give the sheets of a workbook in their order."""
    folder, name = posixpath.split(member)
    links = _tree(archive, f"{folder}/_rels/{name}.rels".lstrip("/"))
    targets = {each.get("Id", ""): each for each in links.iter(f"{_LINKS}Relationship")}
    names = {name.casefold(): name for name in archive.namelist()}
    for sheet in book.iterfind(f"{MAIN}sheets/{MAIN}sheet"):
        number = sheet.get(f"{_OFFICE}id", "")
        if not number:
            continue  # old files with macros have such
        link = targets[number]
        target = link.get("Target", "")
        own = target[1:] if target.startswith("/") else posixpath.join(folder, target)
        found = names.get(posixpath.normpath(own).casefold())
        name = sheet.get("name", "")
        if found is None:
            raise CausedFault(XlsxCause.NO_PART(name=name), remedy=_SAVE_AGAIN)
        if "chartsheet" not in link.get("Type", ""):
            yield Part(name, sheet.get("state", "visible") != "visible", found)


def _styles(root: Element) -> Iterator[Style]:
    """Give the styles of cells in the order of their numbers."""
    try:
        from openpyxl.styles.numbers import BUILTIN_FORMATS, is_date_format, is_timedelta_format
    except ImportError as error:
        raise ToolMissing("openpyxl", "python3-openpyxl") from error
    own = {
        int(each.get("numFmtId", "0")): each.get("formatCode", "")
        for each in root.iterfind(f"{MAIN}numFmts/{MAIN}numFmt")
    }
    struck = [_is_struck(font) for font in root.iterfind(f"{MAIN}fonts/{MAIN}font")]
    for style in root.iterfind(f"{MAIN}cellXfs/{MAIN}xf"):
        number, font = int(style.get("numFmtId", "0")), int(style.get("fontId", "0"))
        form = own.get(number, BUILTIN_FORMATS.get(number))
        yield Style(
            cell_form(form or "General"),
            struck[font] if 0 <= font < len(struck) else False,
            is_date_format(form),
            is_timedelta_format(form),
        )


def _is_struck(font: Element) -> bool:
    strike = font.find(f"{MAIN}strike")
    return strike is not None and strike.get("val", "1") not in _FALSE


# ---- texts


def rich_text(pieces: list[str]) -> dict[str, SoughtElement]:
    """Return where the pieces of a text are within its element: by themselves, or in runs.

    What says how a text is read aloud, in Japanese, is in no such place.
    """
    text = SoughtElement(take=pieces.append)
    return {f"{SPACE}t": text, f"{SPACE}r": SoughtElement({f"{SPACE}t": text})}


def _texts(archive: zipfile.ZipFile, member: str) -> list[str]:
    """Return the texts that the cells of a workbook share."""
    found: list[str] = []
    pieces: list[str] = []

    def end() -> None:
        found.append("".join(pieces).replace("x005F_", ""))
        pieces.clear()

    shared = SoughtElement({f"{SPACE}si": SoughtElement(rich_text(pieces), end=end)})
    with archive.open(member) as source:
        walk(source, SoughtElement({f"{SPACE}sst": shared}))
    return found
