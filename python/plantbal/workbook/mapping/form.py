"""A mapping as a file of TOML: what it holds, how it is read, and how it is written with evidence.

A person reads the file and changes it. A `?` in it is a question that nobody has answered yet, and a
workbook isn't read by a mapping with such.
"""

from __future__ import annotations

import difflib
import json
import re
import tomllib
from collections.abc import Callable, Iterator, Mapping
from dataclasses import dataclass, field, fields, replace
from pathlib import Path
from typing import Any

from plantbal import limits
from plantbal.faults import Fault, InputFault, Place, decoded, read_bytes
from plantbal.sentence import Joined, Phrase, Sentence, counted, phrase
from plantbal.workbook.hourheads import NamedBy
from plantbal.workbook.locales import check_locale
from plantbal.workbook.sheetkinds import SHEETS

OPEN = "?"
FORM = 1
# What a column may be beside the heads of its kind.
DAY_OF_MONTH, TIME, HOUR, SITE = "day of month", "time", "hour", "plant"
# Where the year of months stands: in two digits of their own heads, or in the name of the sheet.
HEAD, NAME = "head", "name"
# That the figure of an hour which comes twice is of both.
BOTH = "both"
_LONG = ("day", "tag", "value", "unit")
_SHEET_TABLES = ("columns", "units", "given", "counters")


@dataclass(frozen=True)
class SheetMapping:
    """How a sheet is read.

    Attributes
    ----------
    name : str
        Its name; `*` stands for whatever is different each month.
    kind : str
        Which sheet of a plant's workbook it is; empty if it is skipped.
    plant : str
        Which plant it is of, if the workbook has several.
    locale : str
        Whose numbers and days it has, if others than the workbook.
    heads : int
        The row of its heads, if none of its columns is told by its head; 0 otherwise.
    month : str
        The month whose days it has by their numbers: ``2024-01``, or ``name`` for the sheet's name.
    columns : dict of str to str
        What each head is, or ``column B``; empty for one that isn't read.
    unit : str
        The unit of the figures below all heads that aren't in `columns`.
    units : dict of str to str
        The unit of the figures below a head.
    down : tuple of str
        The heads below which an empty cell has what stands above it.
    totals : tuple of str
        What rows begin with that are skipped.
    year : str
        The year of months that are heads without one: ``2024``, ``name`` for the sheet's name, or
        ``head`` if each has two digits of it.
    given : dict of str to str
        What holds in each row of a column of its kind that the sheet doesn't have.
    counters : dict of str to str
        The figure at which the counter of a head begins again at 0; empty if it is none.
    hours : str
        What names the hours of a day that are heads: ``begin``, ``end`` or ``count``; empty without such.
    twice : str
        ``both`` if the figure of an hour that comes twice, and has one column, is of both hours.
    """

    name: str
    kind: str
    plant: str = ""
    locale: str = ""
    heads: int = 0
    month: str = ""
    columns: Mapping[str, str] = field(default_factory=dict)
    unit: str = ""
    units: Mapping[str, str] = field(default_factory=dict)
    down: tuple[str, ...] = ()
    totals: tuple[str, ...] = ()
    year: str = ""
    given: Mapping[str, str] = field(default_factory=dict)
    counters: Mapping[str, str] = field(default_factory=dict)
    hours: str = ""
    twice: str = ""


@dataclass(frozen=True)
class WorkbookMapping:
    """How a workbook is read.

    Attributes
    ----------
    locale : str
        Whose numbers and days it has.
    missing, skip : tuple of str
        Further words for a missing figure; heads of columns that are left out.
    limits : bool
        Whether errors are limits that hold 95 times in 100.
    plant : str
        Which plant is read, if the workbook has several.
    names : dict of str to str
        What streams, tanks and units are called in the workbook, and what in the book.
    words : dict of str to str
        Words for kinds and tests, and what they mean.
    settings : dict of str to str
        What a sheet settings would say: `zone`, `day begins`, `stamps` and so on.
    sheets : tuple of SheetMapping
        Its sheets.
    """

    locale: str = ""
    missing: tuple[str, ...] = ()
    skip: tuple[str, ...] = ()
    limits: bool = False
    plant: str = ""
    names: Mapping[str, str] = field(default_factory=dict)
    words: Mapping[str, str] = field(default_factory=dict)
    settings: Mapping[str, str] = field(default_factory=dict)
    sheets: tuple[SheetMapping, ...] = ()


# ---- reading


def read_mapping(path: str | Path) -> WorkbookMapping:
    """Return the mapping of a file.

    Raises
    ------
    InputFault
        If it can't be read, isn't a mapping, or has a `?` still.
    """
    name, data = read_bytes(path, limits.MAPPING_BYTES)
    return parse_mapping(name, decoded(name, data))


def parse_mapping(name: str, text: str) -> WorkbookMapping:
    """Return the mapping of a text; `name` is that of its file, for what is said."""
    place = Place(file=name)
    try:
        told = tomllib.loads(text)
    except (tomllib.TOMLDecodeError, RecursionError) as error:
        remedy = "correct it, or let plantbal-desk map write it again"
        raise InputFault(
            Sentence("this isn't TOML: {error}", error=error), place=place, remedy=remedy
        ) from error
    return _MappingReading(name, text).mapping(told)


class _MappingReading:
    """Takes a mapping from what TOML gives, with the line of what is wrong."""

    def __init__(self, name: str, text: str) -> None:
        self.name = name
        self.lines = text.splitlines()

    def mapping(self, told: dict[str, Any]) -> WorkbookMapping:
        """Return the mapping."""
        if told.pop("form", FORM) != FORM:
            raise self.fault(
                "form",
                Sentence("this is a mapping of the form {number}", number=told.get("form")),
                "write 1",
            )
        sheets = told.pop("sheet", [])
        if not isinstance(sheets, list) or not all(isinstance(each, dict) for each in sheets):
            raise self.fault("sheet", "this isn't a list of sheets", "write [[sheet]] over each")
        found = WorkbookMapping(**self.checked(told, WorkbookMapping, Phrase("the mapping")))
        made = tuple(map(self.sheet, sheets))
        self._check_open()
        self._locale(found.locale)
        names = list(found.names.values())
        for name in dict.fromkeys(names):
            if names.count(name) > 1 and name != "env":
                both = [each for each, to in found.names.items() if to == name]
                what = Sentence(
                    "{both} would both be {name}", both=Joined(" and ", map(repr, both)), name=name
                )
                raise self.fault(both[1], what, "give each a name of its own in [names]")
        return replace(found, sheets=made)

    def sheet(self, told: dict[str, Any]) -> SheetMapping:
        """Return a sheet."""
        for key in ("name", "kind"):
            if key not in told:
                raise self.fault(
                    "[[sheet]]",
                    Sentence("a sheet has no {key}", key=key),
                    Sentence("write {key} = ..", key=key),
                )
        found = SheetMapping(
            **self.checked(told, SheetMapping, Sentence("the sheet {told!r}", told=told["name"]))
        )
        if found.kind and found.kind != OPEN and found.kind not in SHEETS:
            what = Sentence("there is no kind of sheet {kind!r}", kind=found.kind)
            ask = "write one of {sheets}, or nothing to skip the sheet"
            raise self.fault(found.kind, what, Sentence(ask, sheets=Joined(", ", SHEETS)))
        self._check_hours(found)
        self._check_columns(found)
        self._locale(found.locale)
        if found.month and not re.fullmatch(r"name|\?|[0-9]{4}-(0[1-9]|1[0-2])", found.month):
            remedy = "write it as 2024-01, or name if the sheet's name says it"
            raise self.fault(
                "month", Sentence("{month!r} isn't a month", month=found.month), remedy
            )
        if found.year and not re.fullmatch(r"name|head|\?|20[0-9]{2}", found.year):
            remedy = "write it as 2024, name if the sheet's name says it, or head if the heads do"
            raise self.fault("year", Sentence("{year!r} isn't a year", year=found.year), remedy)
        for head, figure in found.counters.items():
            if figure not in ("", OPEN) and not re.fullmatch("[1-9][0-9]{0,17}", figure):
                what = Sentence(
                    "{figure!r} isn't a figure at which a counter begins again", figure=figure
                )
                raise self.fault(head, what, "write a whole number, such as 1000000")
        for head in found.given:
            known = (
                {each.head for each in SHEETS[found.kind].columns}
                if found.kind in SHEETS
                else {head}
            )
            if head not in known | ({"tag"} if found.hours else set()):
                what = Sentence(
                    "the sheet {kind} has no column {head!r}", kind=found.kind, head=head
                )
                raise self.fault(
                    head,
                    what,
                    Sentence("it has {heads}", heads=Joined(", ", SHEETS[found.kind].heads)),
                )
        return found

    def _check_hours(self, found: SheetMapping) -> None:
        """Refuse what can't be said of the hours of a day across."""
        words = [each.value for each in NamedBy]
        if found.hours and found.hours not in (OPEN, *words):
            what = Sentence("{hours!r} doesn't name hours", hours=found.hours)
            ask = "write one of {words}, or nothing without such heads"
            raise self.fault("hours", what, Sentence(ask, words=Joined(", ", words)))
        if found.hours and found.kind not in ("readings", OPEN):
            what = Sentence("a sheet {kind!r} has no hours of a day across", kind=found.kind)
            raise self.fault("hours", what, "leave hours out")
        if found.twice and (found.twice != BOTH or not found.hours):
            remedy = 'write "both" if the figure of one column is of both hours, or leave it out'
            raise self.fault(
                "twice",
                Sentence("{twice!r} doesn't say of which hour a figure is", twice=found.twice),
                remedy,
            )

    def _check_columns(self, found: SheetMapping) -> None:
        if not found.kind or found.kind == OPEN:
            return
        kind = SHEETS[found.kind]
        known = {column.head for column in kind.columns} | {DAY_OF_MONTH, TIME, HOUR, SITE}
        for head, column in found.columns.items():
            if not column or column == OPEN or column in known or not kind.columns:
                continue
            if kind.is_across and column not in COLUMN_NAMES:
                continue  # the name of a tank, perhaps with what of it stands there
            near = difflib.get_close_matches(column, known, n=1)
            remedy = (
                Sentence("did you mean {near}?", near=near[0])
                if near
                else Sentence("the columns are {heads}", heads=Joined(", ", kind.heads))
            )
            what = Sentence(
                "the sheet {kind} has no column {column!r}", kind=found.kind, column=column
            )
            raise self.fault(head, what, remedy)

    def checked(self, told: dict[str, Any], form: type, what: str) -> dict[str, Any]:
        """Return the values of a table by the fields of a class."""
        known = {each.name: each for each in fields(form)}
        found = {}
        for key, value in told.items():
            if key not in known or key == "sheets":
                near = difflib.get_close_matches(key, known, n=1)
                remedy = (
                    Sentence("did you mean {near}?", near=near[0])
                    if near
                    else Sentence("it may have {known}", known=Joined(", ", known))
                )
                raise self.fault(
                    key, Sentence("{what} has no key {key!r}", what=what, key=key), remedy
                )
            found[key] = self._value(key, value, str(known[key].type), what)
        return found

    def _value(self, key: str, value: Any, form: str, what: str) -> Any:
        sort = form.split("[")[0]
        if not _FORMS[sort](value):
            remedy = Sentence("write it as {said}", said=phrase(_SAID[sort]))
            raise self.fault(
                key, Sentence("{key} of {what} is of another form", key=key, what=what), remedy
            )
        return tuple(value) if isinstance(value, list) else value

    def _locale(self, locale: str) -> None:
        try:
            check_locale(locale)
        except Fault as fault:
            raise self.fault("locale", fault.what, fault.remedy) from fault

    def _check_open(self) -> None:
        """Refuse a mapping in which a question is open."""
        open_ = [at for at, line in enumerate(self.lines, 1) if re.search(r'=\s*"\?"', line)]
        if open_:
            lines = ", ".join(map(str, open_[:8])) + (" .." if len(open_) > 8 else "")
            one = '1 question is open: a "?" is in the lines {lines}'
            many = '{count} questions are open: a "?" is in the lines {lines}'
            raise InputFault(
                counted(len(open_), one, many, lines=lines),
                place=Place(file=self.name, line=open_[0]),
                remedy="write in its place what is right; the remark beside it says what may be",
            )

    def fault(self, near: str, what: str, remedy: str = "") -> InputFault:
        """Return a fault at the first line with a text."""
        shown = json.dumps(near, ensure_ascii=False).strip('"')
        line = next((at for at, text in enumerate(self.lines, 1) if shown and shown in text), None)
        return InputFault(what, place=Place(file=self.name, line=line), text=near, remedy=remedy)


def _is_texts(value: Any) -> bool:
    return isinstance(value, list) and all(isinstance(each, str) for each in value)


def _is_pairs(value: Any) -> bool:
    return isinstance(value, dict) and all(isinstance(each, str) for each in value.values())


def _is_count(value: Any) -> bool:
    return isinstance(value, int) and not isinstance(value, bool) and 0 <= value <= limits.ROWS


_FORMS: dict[str, Callable[[Any], bool]] = {
    "str": lambda value: isinstance(value, str),
    "bool": lambda value: isinstance(value, bool),
    "int": _is_count,
    "tuple": _is_texts,
    "Mapping": _is_pairs,
}
_SAID = {
    "str": '"a text"',
    "bool": "true or false",
    "int": "a number of a row",
    "tuple": '["a text", "another"]',
    "Mapping": '"a text" = "another"',
}
COLUMN_NAMES = frozenset(
    column.head for kind in SHEETS.values() for column in kind.columns
) | frozenset(_LONG)


# ---- writing

# What is said of a value: by its key, and within tables by the sheet's place and the head.
Path_ = tuple[str | int, ...]


def mapping_text(mapping: WorkbookMapping, evidence: Mapping[Path_, str], head: str = "") -> str:
    """Return the file of a mapping, with the evidence of each value beside it."""
    lines = [*(f"# {_plain(line)}" for line in head.splitlines()), f"form = {FORM}"]
    lines += _pairs_of(mapping, evidence, ())
    for key in ("names", "words", "settings"):
        lines += _table(key, getattr(mapping, key), evidence, (key,))
    for at, sheet in enumerate(mapping.sheets):
        lines += ["", "[[sheet]]", *_pairs_of(sheet, evidence, ("sheet", at))]
        for key in _SHEET_TABLES:
            lines += _table(f"sheet.{key}", getattr(sheet, key), evidence, ("sheet", at, key))
    return "\n".join(lines) + "\n"


def _pairs_of(form: Any, evidence: Mapping[Path_, str], path: Path_) -> Iterator[str]:
    """Give the lines of the values of a table that aren't tables themselves."""
    for each in fields(form):
        value = getattr(form, each.name)
        if each.name in ("sheets", "names", "words", "settings", *_SHEET_TABLES):
            continue
        if (
            value == each.default
            and each.name not in ("locale", "kind")
            and ((*path, each.name) not in evidence)
        ):
            continue
        if each.name == "locale" and path and not value:
            continue
        yield _line(each.name, value, evidence.get((*path, each.name), ""))


def _table(
    name: str, values: Mapping[str, str], evidence: Mapping[Path_, str], path: Path_
) -> Iterator[str]:
    if values:
        yield f"[{name}]" if path[0] == "sheet" else f"\n[{name}]"
    for key, value in values.items():
        yield _line(toml_text(key), value, evidence.get((*path, key), ""))


def _line(key: str, value: Any, said: str) -> str:
    if isinstance(value, bool):
        text = "true" if value else "false"
    elif isinstance(value, tuple):
        text = f"[{', '.join(map(toml_text, value))}]"
    else:
        text = toml_text(value) if isinstance(value, str) else str(value)
    return f"{key} = {text}" + (f"  # {_plain(said)}" if said else "")


def toml_text(text: str) -> str:
    """Return a text as TOML has it."""
    return json.dumps(text, ensure_ascii=False).replace("\x7f", "\\u007f")


def _plain(text: str) -> str:
    """Return a text as a remark of TOML has it: in a line, and without marks that control."""
    return "".join(each if each.isprintable() else " " for each in text)[:300]
