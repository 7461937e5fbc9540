"""The queries of a database: where it is, which query gives which sheet, and where to push.

They are in a TOML file that a person writes:

    [source]
    url = "postgresql://reader@historian.example/plant"   # or sqlite:///lims.db, or another
    password = "env HISTORIAN_PASSWORD"                   # or "file /etc/plantbal/historian"

    [settings]                       # as the sheet settings of a workbook
    zone = "Europe/Berlin"
    "day begins" = "06:00"

    [[query]]
    sheet = "readings"               # the columns have the heads of that sheet
    sql = "SELECT stamp AS day, tag, value, unit, quality, changed FROM history
           WHERE stamp >= :begin AND stamp < :end"
    quality = "quality"              # the column of the quality, and what its codes mean
    good = ["Good", 192]
    bad = ["Bad", 0]
    changed = "changed"              # the column that says when the source changed the row
    vanished = "ask"                 # what was pulled and no longer exists; or "strike", "keep"

    [limits]
    rows = 2000000

    [push]
    schema = "plantbal"              # the tables plantbal_pushes and plantbal_figures are there
"""

from __future__ import annotations

import re
import tomllib
from collections.abc import Mapping, Sequence
from dataclasses import dataclass, field
from pathlib import Path
from typing import Any

from plantbal import limits
from plantbal.book.vanished import Vanished
from plantbal.faults import InputFault, Place, read_text
from plantbal.workbook.sheetkinds import SHEETS

_NAME = re.compile(r"[A-Za-z_][A-Za-z0-9_ $-]{0,62}")
_KEYS = ("sheet", "sql", "quality", "good", "bad", "changed", "vanished")
# The kinds of facts that the rows of a sheet are.
_FACTS = {"readings": "reading", "estimates": "reading", "dips": "dip", "tickets": "transfer"}
_SECTIONS = ("source", "settings", "query", "limits", "push")
# The sheets of facts that a query may give; the plant is that of the book.
QUERIED = (
    *("readings", "dips", "tickets", "estimates", "moistures", "densities", "temperatures"),
    *("assays", "periods"),
)


@dataclass(frozen=True)
class Query:
    """A query and the sheet that it gives.

    Attributes
    ----------
    sheet : str
        The kind of sheet.
    sql : str
        The query, with its parameters as ``:first`` and such.
    quality : str
        The column with the codes of quality; empty if there is none.
    good, bad : frozenset of str
        The codes of figures that are taken, and of those that are missing.
    changed : str
        The column that says when the source changed the row last; empty if there is none.
    vanished : Vanished
        What becomes of a fact that was pulled by it and no longer exists.
    """

    sheet: str
    sql: str
    quality: str = ""
    good: frozenset[str] = frozenset()
    bad: frozenset[str] = frozenset()
    changed: str = ""
    vanished: Vanished = Vanished.ASK

    @property
    def kind(self) -> str:
        """The kind of the facts that it gives; empty if it gives none itself."""
        return _FACTS.get(self.sheet, "")


@dataclass(frozen=True)
class Most:
    """How much is read, and how long it may take."""

    rows: int = limits.QUERY_ROWS
    seconds: int = limits.QUERY_SECONDS
    megabytes: int = limits.QUERY_MEGABYTES


@dataclass(frozen=True)
class Push:
    """Where booked figures go: a schema, and the names of both tables."""

    schema: str = ""
    pushes: str = "plantbal_pushes"
    figures: str = "plantbal_figures"


@dataclass(frozen=True)
class Queries:
    """What a file of queries says.

    Attributes
    ----------
    file : str
        The file.
    url : str
        Where the database is, without a password.
    password : str
        Where its password is: ``env NAME`` or ``file PATH``; empty for none, or a `.pgpass`.
    settings : mapping of str to str
        The settings of a workbook.
    all : sequence of Query
        The queries.
    most : Most
        The limits.
    push : Push or None
        Where booked figures go.
    """

    file: str
    url: str
    password: str = ""
    settings: Mapping[str, str] = field(default_factory=dict)
    all: Sequence[Query] = ()
    most: Most = Most()
    push: Push | None = None


def read_queries(path: str | Path) -> Queries:
    """Return what a file of queries says.

    Raises
    ------
    InputFault
        If it is none, or something of it is wrong.
    """
    source, text = read_text(path, limits.MAPPING_BYTES)
    try:
        found = tomllib.loads(text)
    except tomllib.TOMLDecodeError as error:
        place = Place(file=source)
        remedy = "docs/PYTHON.md has one, under databases"
        raise InputFault(f"this isn't TOML: {error}", place=place, remedy=remedy) from error
    return _Reader(source).queries(found)


class _Reader:
    """Reads the tables of a file of queries, and says what is wrong with them."""

    def __init__(self, file: str) -> None:
        self.file = file

    def fault(self, what: str, remedy: str, text: str = "") -> InputFault:
        """Return a fault of this file."""
        return InputFault(what, place=Place(file=self.file), text=text, remedy=remedy)

    def queries(self, found: dict[str, Any]) -> Queries:
        """Return the queries that the tables of a file say."""
        self._known(found, _SECTIONS, "the file")
        source = self._table(found, "source")
        self._known(source, ("url", "password"), "[source]")
        url = self._text(source, "url", "[source]")
        password = self._text(source, "password", "[source]", "")
        if password and password.partition(" ")[0] not in ("env", "file"):
            remedy = 'write "env NAME", or "file PATH" of a file that only you can read'
            raise self.fault("[source] password isn't the place of a password", remedy)
        settings = {name: str(value) for name, value in self._table(found, "settings").items()}
        queries = found.get("query", [])
        if not isinstance(queries, list) or not all(isinstance(each, dict) for each in queries):
            raise self.fault("query isn't a list of tables", "write [[query]] over each")
        every = tuple(self._query(each, at) for at, each in enumerate(queries, 1))
        self._check_kinds(every)
        return Queries(
            self.file,
            url,
            password,
            settings,
            every,
            self._most(self._table(found, "limits")),
            self._push(self._table(found, "push")) if "push" in found else None,
        )

    def _query(self, found: dict[str, Any], at: int) -> Query:
        where = f"query {at}"
        self._known(found, _KEYS, where)
        sheet = self._text(found, "sheet", where)
        if sheet not in QUERIED:
            assert set(QUERIED) <= set(SHEETS)
            raise self.fault(
                f"{where}: {sheet!r} isn't a sheet of facts", f"use one of {', '.join(QUERIED)}"
            )
        quality = self._text(found, "quality", where, "")
        good, bad = (self._codes(found.get(name, []), where, name) for name in ("good", "bad"))
        if quality and not good:
            raise self.fault(
                f"{where} has a column of quality, and no good codes",
                'write good = ["Good"], and the codes of missing figures as bad',
            )
        if good & bad:
            both = ", ".join(sorted(good & bad))
            raise self.fault(f"{where}: {both} is good and bad", "leave one of the two out")
        changed, sql = self._text(found, "changed", where, ""), self._text(found, "sql", where)
        return Query(sheet, sql, quality, good, bad, changed, self._vanished(found, where))

    def _vanished(self, found: dict[str, Any], where: str) -> Vanished:
        """Return what becomes of facts that vanish."""
        text = self._text(found, "vanished", where, Vanished.ASK.value)
        for each in Vanished:
            if each.value == text:
                return each
        words = ", ".join(each.value for each in Vanished)
        raise self.fault(f"{where}: vanished is {text!r}", f"write one of {words}", text)

    def _check_kinds(self, queries: Sequence[Query]) -> None:
        """Refuse two queries of facts of a kind that vanish in two ways."""
        first: dict[str, Query] = {}
        for each in queries:
            if each.kind and first.setdefault(each.kind, each).vanished is not each.vanished:
                sheets = f"{first[each.kind].sheet} and {each.sheet}"
                what = f"two queries of {sheets} differ in what becomes of facts that vanish"
                raise self.fault(what, "write the same vanished in both")

    def _codes(self, found: Any, where: str, name: str) -> frozenset[str]:
        if not isinstance(found, list) or not all(isinstance(each, str | int) for each in found):
            raise self.fault(f"{where}: {name} isn't a list of codes", 'write ["Good", 192]')
        return frozenset(str(each).casefold() for each in found)

    def _most(self, found: dict[str, Any]) -> Most:
        own = Most()
        ranges = {"rows": own.rows, "seconds": own.seconds * 10, "megabytes": own.megabytes * 4}
        self._known(found, tuple(ranges), "[limits]")
        for name, value in found.items():
            if isinstance(value, bool) or not isinstance(value, int) or value < 1:
                raise self.fault(f"[limits] {name} isn't a whole number above 0", "write one")
            if value > ranges[name]:
                remedy = f"write at most {ranges[name]:,}, and ask for fewer days at once"
                raise self.fault(f"[limits] {name} is {value:,}", remedy)
        return Most(**{**vars(own), **found})

    def _push(self, found: dict[str, Any]) -> Push:
        self._known(found, ("schema", "pushes", "figures"), "[push]")
        own = {name: self._text(found, name, "[push]") for name in found}
        for name, value in own.items():
            if not _NAME.fullmatch(value):
                what = f"[push] {name} {value!r} isn't a name of a table"
                raise self.fault(what, "letters, digits and _, at most 63", value)
        return Push(**own)

    def _known(self, found: Mapping[str, Any], names: Sequence[str], where: str) -> None:
        for name in found:
            if name not in names:
                raise self.fault(f"{where} has {name!r}", f"it may have {', '.join(names)}", name)

    def _table(self, found: Mapping[str, Any], name: str) -> dict[str, Any]:
        own = found.get(name, {})
        if not isinstance(own, dict):
            raise self.fault(f"{name} isn't a table", f"write [{name}] over it")
        return own

    def _text(
        self, found: Mapping[str, Any], name: str, where: str, without: str | None = None
    ) -> str:
        value = found.get(name, without)
        if not isinstance(value, str) or (without is None and not value.strip()):
            raise self.fault(f"{where} has no {name}", f'write {name} = "..."')
        return value
