"""What a book hands over, written to tables of a database: as a whole, and once.

Two tables are there before: one with a row a push, whose key is the id of what is handed over, and
one with its figures. Both are written in one transaction, which begins with the row of the push. If
the database has that id already, nothing is written: so a push that was stopped is pushed again,
and is there once whatever became of the first.
"""

from __future__ import annotations

import datetime
from dataclasses import astuple, dataclass
from typing import TYPE_CHECKING, Any

from plantbal.book.handing import Handed
from plantbal.database.connect import connected
from plantbal.database.queries import Queries, Push
from plantbal.faults import InputFault, Place

if TYPE_CHECKING:
    from plantbal.book.library import Book

_PUSHES = {
    "id": "CHAR(64) NOT NULL PRIMARY KEY",
    "period": "VARCHAR(32) NOT NULL",
    "first_day": "DATE NOT NULL",
    "last_day": "DATE NOT NULL",
    "closed": "SMALLINT NOT NULL",
    "posting": "VARCHAR(64) NOT NULL",
    "pushed_at": "TIMESTAMP NOT NULL",
    "figures": "INTEGER NOT NULL",
}
_FIGURES = {
    "push_id": "CHAR(64) NOT NULL",
    "line": "INTEGER NOT NULL",
    "kind": "VARCHAR(16) NOT NULL",
    "name": "VARCHAR(32) NOT NULL",
    "what": "VARCHAR(64) NOT NULL",
    "source": "VARCHAR(160) NOT NULL",
    "target": "VARCHAR(160) NOT NULL",
    "product": "VARCHAR(160) NOT NULL",
    "product_group": "VARCHAR(160) NOT NULL",
    "grams": "BIGINT NOT NULL",
    "measured_grams": "BIGINT",
}
# These know how to leave a row alone whose key is there already.
_ON_CONFLICT = ("postgresql", "sqlite")


@dataclass(frozen=True)
class Pushed:
    """What a push did.

    Attributes
    ----------
    handed : Handed
        What was handed over.
    is_new : bool
        Whether it was written now; else the database had it already.
    """

    handed: Handed
    is_new: bool


def push(book: Book, queries: Queries, period: str) -> Pushed:
    """Write what is handed over of a period, unless it is there.

    Parameters
    ----------
    book : Book
        The book.
    queries : Queries
        Where it goes.
    period : str
        The period.

    Raises
    ------
    Fault
        If the period has no report of its present facts, or the database doesn't take it.
    """
    to = _push_of(queries)
    handed = book.handed(period)
    with connected(queries, writing=True) as connection:
        is_new = _write(connection, to, handed)
    return Pushed(handed, is_new)


def _push_of(queries: Queries) -> Push:
    if queries.push is None:
        remedy = "write [push] into it, with the schema of the tables if they are in one"
        raise InputFault(
            "nothing says where to push", place=Place(file=queries.file), remedy=remedy
        )
    return queries.push


def _write(connection: Any, to: Push, handed: Handed) -> bool:
    """Write the row of a push and its figures, and return whether it was new."""
    import sqlalchemy

    pushes, figures = _table(to, to.pushes, _PUSHES), _table(to, to.figures, _FIGURES)
    row = {
        "id": handed.id,
        "period": handed.period,
        "first_day": handed.first,
        "last_day": handed.last,
        "closed": int(handed.closed),
        "posting": handed.posting,
        "pushed_at": datetime.datetime.now(datetime.timezone.utc).replace(tzinfo=None),
        "figures": len(handed.figures),
    }
    dialect = connection.dialect.name
    if dialect in _ON_CONFLICT:
        insert = getattr(sqlalchemy.dialects, dialect).insert
        statement = insert(pushes).values(row).on_conflict_do_nothing(index_elements=["id"])
        if not connection.execute(statement).rowcount:
            return False
    else:
        asked = sqlalchemy.select(pushes.c.id).where(pushes.c.id == handed.id)
        if connection.execute(asked).first():
            return False
        connection.execute(sqlalchemy.insert(pushes).values(row))
    names = list(_FIGURES)
    rows = [
        dict(zip(names, (handed.id, at, *astuple(figure))))
        for at, figure in enumerate(handed.figures, 1)
    ]
    connection.execute(sqlalchemy.insert(figures), rows)
    return True


def _table(to: Push, name: str, columns: dict[str, str]) -> Any:
    """Return a table whose names are quoted."""
    import sqlalchemy
    from sqlalchemy.sql import quoted_name

    types = {"DATE": sqlalchemy.Date, "TIMESTAMP": sqlalchemy.DateTime}
    own = [
        sqlalchemy.column(quoted_name(each, True), types.get(kind.split()[0]))
        for each, kind in columns.items()
    ]
    schema = quoted_name(to.schema, True) if to.schema else None
    return sqlalchemy.table(quoted_name(name, True), *own, schema=schema)


def tables_sql(queries: Queries) -> str:
    """Return the statements that make both tables, for who has the right to."""
    to = _push_of(queries)
    prefix = f'"{to.schema}".' if to.schema else ""
    key = 'PRIMARY KEY ("push_id", "line"), FOREIGN KEY ("push_id") REFERENCES '
    keys = {to.figures: f'{key}{prefix}"{to.pushes}" ("id")'}
    statements = []
    for name, columns in ((to.pushes, _PUSHES), (to.figures, _FIGURES)):
        lines = [f'"{each}" {kind}' for each, kind in columns.items()]
        lines += [keys[name]] if name in keys else []
        body = ",\n    ".join(lines)
        statements.append(f'CREATE TABLE {prefix}"{name}" (\n    {body}\n);\n')
    return "".join(statements)
