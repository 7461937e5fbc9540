"""The rows of a session and of an output as data: kinds, columns, types, ranges, keys and words.

They are read from ``schema.json``, which is made from the definitions of the program.
"""

from __future__ import annotations

import json
from collections.abc import Mapping
from dataclasses import dataclass, field
from functools import lru_cache
from pkgutil import get_data
from typing import Any


def text() -> str:
    """Return the file of the schema; the package may be within a zip."""
    data = get_data("plantbal", "schema.json")
    assert data is not None  # it is beside this file
    return data.decode("utf-8")


@dataclass(frozen=True, slots=True)
class Column:
    """A column of a row.

    Attributes
    ----------
    name : str
        What it is called; in JSON lines its key.
    type : str
        ``name``, ``reason``, ``number`` (whole), ``date``, ``word``, ``names`` (with a space
        between) or ``parts`` (signs with names, with a space between).
    label : str
        What the guide calls it, of a row of a session.
    low, high : int or None
        The range of a number, both ends included.
    words : tuple of str
        The words of a word column.
    optional : bool
        Whether it may be empty.
    about : str
        What it is, in a few words.
    """

    name: str
    type: str
    label: str = ""
    low: int | None = None
    high: int | None = None
    words: tuple[str, ...] = ()
    optional: bool = False
    about: str = ""


@dataclass(frozen=True, slots=True)
class Row:
    """A kind of row.

    Attributes
    ----------
    kind : str
        Its first field; in JSON lines the value of ``row``.
    columns : tuple of Column
        The columns after the kind, in order.
    tail : tuple of Column
        Columns that may come after these, over and over.
    variant : str
        Which one of several rows of the kind it is, such as ``metered``; empty if there is one.
    by : str
        What writes it: ``run``, ``check`` or ``make``; empty for a row of a session.
    without : tuple of str
        The columns that an older form of the row hasn't.
    about, example : str
        What it says, and a row of the kind.
    names : tuple of str
        The names of the columns.
    word : int
        The place of the column whose word chooses among the rows of a kind, counted from 1; 0 if
        there is none.
    """

    kind: str
    columns: tuple[Column, ...]
    tail: tuple[Column, ...] = ()
    variant: str = ""
    by: str = ""
    without: tuple[str, ...] = ()
    about: str = ""
    example: str = ""
    names: tuple[str, ...] = field(init=False, default=())
    word: int = field(init=False, default=0)

    def __post_init__(self) -> None:
        object.__setattr__(self, "names", tuple(column.name for column in self.columns))
        places = (at for at, column in enumerate(self.columns, 1) if column.type == "word")
        object.__setattr__(self, "word", next(places, 0))

    @property
    def version(self) -> int:
        """The version of sessions from which on there are such rows."""
        return 2 if self.kind in ("version", "boundary") or "since" in self.names else 1

    def takes(self, count: int) -> bool:
        """Say whether a row of the kind may have that many fields after its kind."""
        more = count - len(self.columns)
        return more == 0 or (more > 0 and bool(self.tail) and more % len(self.tail) == 0)

    def columns_for(self, count: int) -> tuple[Column, ...]:
        """Return the columns of that many fields, those of the tail as often as they come."""
        if count <= len(self.columns) or not self.tail:
            return self.columns
        return self.columns + self.tail * ((count - len(self.columns)) // len(self.tail))

    @property
    def older(self) -> tuple[str, ...]:
        """The names of the columns of the older form."""
        return tuple(name for name in self.names if name not in self.without)

    @property
    def pattern(self) -> str:
        """The row as the guide writes it, such as ``unit,NAME``."""
        labels = [[it.label or it.name for it in part] for part in (self.columns, self.tail)]
        tail = "".join(f",{label}" for label in labels[1])
        return ",".join([self.kind, *labels[0]]) + (f"[{tail}]..." if tail else "")

    def column(self, name: str) -> Column:
        """Return the column of a name."""
        return self.columns[self.names.index(name)]


@dataclass(frozen=True, slots=True)
class Code:
    """A code with its word: why a row is refused, which test a block fails, why a row can't be
    read.

    Attributes
    ----------
    code : int
        The number, from 1.
    word : str
        The word that stands beside it.
    about : str
        When it comes.
    example, remedy : str
        A row that gets it, and what to do about it; of refusals alone.
    """

    code: int
    word: str
    about: str = ""
    example: str = ""
    remedy: str = ""


@dataclass(frozen=True)
class Schema:
    """All rows and codes.

    Attributes
    ----------
    limits : mapping of str to int
        The limits of a plant, a book and a run.
    session : tuple of Row
        The rows of a session.
    output : mapping of str to Row
        The rows of an output, by their kind.
    refusals, tests, unreadable : mapping of int to Code
        Why a row of a session is refused; which test of a check a block fails; why a row of a
        report can't be read.
    """

    limits: Mapping[str, int]
    session: tuple[Row, ...]
    output: Mapping[str, Row]
    refusals: Mapping[int, Code]
    tests: Mapping[int, Code]
    unreadable: Mapping[int, Code]

    def row(self, kind: str, variant: str = "") -> Row:
        """Return the row of a session of a kind and a variant; without dates of service."""
        for row in self.session:
            if (row.kind, row.variant) == (kind, variant):
                return row
        raise KeyError(f"{kind} {variant}".strip())


def _column(data: dict[str, Any]) -> Column:
    return Column(
        name=data["name"],
        type=data["type"],
        label=data.get("label", ""),
        low=data.get("from"),
        high=data.get("to"),
        words=tuple(data.get("words", ())),
        optional=data.get("optional", False),
        about=data.get("about", ""),
    )


def _row(data: dict[str, Any]) -> Row:
    return Row(
        kind=data["kind"],
        columns=tuple(_column(column) for column in data["columns"]),
        tail=tuple(_column(column) for column in data.get("tail", ())),
        variant=data.get("variant", ""),
        by=data.get("by", ""),
        without=tuple(data.get("without", ())),
        about=data.get("about", ""),
        example=data.get("example", ""),
    )


def _codes(data: list[dict[str, Any]]) -> dict[int, Code]:
    return {item["code"]: Code(**item) for item in data}


@lru_cache(maxsize=1)
def schema() -> Schema:
    """Return the rows and codes that the program has."""
    data = json.loads(text())
    return Schema(
        limits=data["limits"],
        session=tuple(_row(row) for row in data["session"]),
        output={row["kind"]: _row(row) for row in data["output"]},
        refusals=_codes(data["refusals"]),
        tests=_codes(data["tests"]),
        unreadable=_codes(data["unreadable"]),
    )
