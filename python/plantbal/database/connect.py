"""A database that is reached through SQLAlchemy, within limits of time, rows and bytes.

Queries run in a transaction that is read only, so that no query can change the source.
Names of tables are quoted by the dialect. The driver gets the password as a parameter of its own;
without one libpq looks into `.pgpass`.
"""

from __future__ import annotations

import re
import sqlite3
import sys
from collections.abc import Iterator
from contextlib import contextmanager
from pathlib import Path
from typing import Any

from plantbal.database import oracle
from plantbal.database.queries import Queries
from plantbal.database.secret import Password, password_of
from plantbal.faults import InputFault, Place, ToolMissing

# The packages of Debian that have the drivers, by the names of dialects.
_PACKAGES = {
    "postgresql": "python3-psycopg2",
    "mssql": "python3-pyodbc",
    "oracle": "python3-oracledb",
    "odbc": "python3-pyodbc",
    "mysql": "python3-mysqldb",
}
_CONNECT_SECONDS = 15
_LONGEST = 300  # characters of what a driver says
# Where a connection's words may have a password of their own.
_PASSWORDS = re.compile(r"(?i)((?:password|pwd)\s*=\s*)(?:\{[^}]*\}|[^\s;&]+)")
# What in a url's own words is a password, or its place.
_HAS_PASSWORD = re.compile(r"(?i)pass(?:word|wd)?|\bpwd\b")


@contextmanager
def connected(queries: Queries, *, writing: bool = False) -> Iterator[Any]:
    """Give a connection in one transaction, which is committed in the end if it is to write.

    Parameters
    ----------
    queries : Queries
        Where the database is.
    writing : bool
        Whether it is written to; else the transaction is read only, and rolled back.

    Raises
    ------
    Fault
        If it can't be reached, or a statement fails; what the driver says is in it, without a
        password.
    """
    try:
        import sqlalchemy
    except ImportError as error:
        raise ToolMissing("sqlalchemy", "python3-sqlalchemy") from error
    password = password_of(queries.password)
    said = ""
    try:
        engine = _engine(queries, password, writing)
        try:
            with engine.connect() as connection:
                _limit(connection, queries, writing)
                connection.commit()
                with connection.begin() as transaction:
                    _begin(connection, writing)
                    yield connection
                    if not writing:
                        transaction.rollback()
        finally:
            engine.dispose()
    except sqlalchemy.exc.SQLAlchemyError as error:
        said = _said(error, password)
    if said:
        # The driver's exception is dropped here: its traceback has the connection's parameters.
        raise InputFault(said, place=Place(file=queries.file), remedy=_REMEDY)


_REMEDY = "look at the url, the query and the rights of its user"


def _said(error: Exception, password: Password) -> str:
    """Return what a driver says of a failure in one line, without a password."""
    said = str(getattr(error, "orig", None) or error).strip().split("\n")[0]
    said = _PASSWORDS.sub(r"\1***", password.hidden_in(said))
    return f"the database says: {said[:_LONGEST]}"


def _engine(queries: Queries, password: Password, writing: bool) -> Any:
    """Return an engine with one connection.

    Raises
    ------
    Fault
        If the url isn't one or has a password, or there is no driver.
    """
    import sqlalchemy
    from sqlalchemy.pool import NullPool

    place = Place(file=queries.file)
    try:
        url = sqlalchemy.engine.make_url(queries.url)
        dialect = url.get_backend_name()
    except (sqlalchemy.exc.ArgumentError, ValueError):
        remedy = 'write it as "postgresql://USER@HOST/DATABASE", or "sqlite:///FILE"'
        raise InputFault(
            "[source] url isn't the address of a database", place=place, remedy=remedy
        ) from None
    words = [*url.query, *(f"{each}" for each in url.query.values())]
    if url.password is not None or any(_HAS_PASSWORD.search(word) for word in words):
        remedy = 'take it out, change it, and write password = "env NAME" or "file PATH"'
        raise InputFault("[source] url has a password", place=place, remedy=remedy)
    try:
        given = _arguments(queries, url, password, writing)
        return sqlalchemy.create_engine(
            url, poolclass=NullPool, hide_parameters=True, future=True, **given
        )
    except ImportError:
        package = _PACKAGES.get(dialect, f"a driver for {dialect}")
        raise ToolMissing(f"driver for {dialect}", package) from None
    except sqlalchemy.exc.NoSuchModuleError:
        remedy = f"use one of sqlite, {', '.join(_PACKAGES)}"
        raise InputFault(f"there is no database {dialect!r}", place=place, remedy=remedy) from None


def _arguments(queries: Queries, url: Any, password: Password, writing: bool) -> dict[str, Any]:
    """Return what the engine of a dialect is given beside its url.

    Raises
    ------
    ImportError
        If there is no driver.
    """
    from plantbal.database import odbc

    dialect = url.get_backend_name()
    if dialect == "sqlite":
        return _sqlite(queries, url)
    words: dict[str, Any] = {"password": password.reveal()} if password else {}
    if dialect == "postgresql":
        words |= {"connect_timeout": _CONNECT_SECONDS, "application_name": "plantbal"}
    if dialect == odbc.NAME:
        words |= {"timeout": _CONNECT_SECONDS, "readonly": not writing}
        words |= {"password": odbc.in_braces(password.reveal())} if password else {}
    given: dict[str, Any] = {"connect_args": words} if words else {}
    if dialect == "oracle":
        given["module"] = oracle.driver()
    return given


def _sqlite(queries: Queries, url: Any) -> dict[str, Any]:
    """Return how a file of SQLite is opened: it has to be there, and is read only if it is read."""
    path = Path(url.database or "")
    if not path.is_absolute():
        path = Path(queries.file).parent / path
    if not path.is_file():
        place = Place(file=str(path))
        raise InputFault("there is no such database", place=place, remedy="check its name")

    # Without an isolation level of its own the driver begins no transaction by itself.
    def creator() -> sqlite3.Connection:
        return sqlite3.connect(path, timeout=_CONNECT_SECONDS, isolation_level=None)

    return {"creator": creator}


def _limit(connection: Any, queries: Queries, writing: bool) -> None:
    """Set the limits of a session: how long a statement may take, and that nothing is written."""
    dialect, seconds = connection.dialect.name, queries.most.seconds
    zone = queries.settings.get("zone", "")
    if dialect == "postgresql":
        import sqlalchemy

        for name, value in (
            ("statement_timeout", f"{seconds}s"),
            ("lock_timeout", f"{seconds}s"),
            ("timezone", zone or "UTC"),
            ("default_transaction_read_only", "off" if writing else "on"),
        ):
            of = {"name": name, "value": value}
            connection.execute(sqlalchemy.text("SELECT set_config(:name, :value, false)"), of)
    elif dialect == "sqlite":
        raw = connection.connection.dbapi_connection
        _stop_after(raw, seconds)
        if not writing:
            connection.exec_driver_sql("PRAGMA query_only = on")
    else:
        if dialect == "odbc":
            _limit_odbc(connection, seconds)
        if not writing:
            print(_NOT_LIMITED.format(dialect=dialect), file=sys.stderr)


def _limit_odbc(connection: Any, seconds: int) -> None:
    """Have a driver of ODBC cancel a statement after some seconds, if it can."""
    try:
        connection.connection.dbapi_connection.timeout = seconds
    except connection.dialect.dbapi.Error:
        print(_NOT_TIMED, file=sys.stderr)


def _begin(connection: Any, writing: bool) -> None:
    """Begin the transaction: one that reads sees all tables as they are at one moment."""
    if connection.dialect.name == "postgresql" and not writing:
        connection.exec_driver_sql("SET TRANSACTION ISOLATION LEVEL REPEATABLE READ, READ ONLY")
    elif connection.dialect.name == "sqlite":
        connection.exec_driver_sql("BEGIN IMMEDIATE" if writing else "BEGIN")


_NOT_TIMED = "plantbal: this driver of ODBC has no limit of time: [limits] seconds isn't kept"
_NOT_LIMITED = "plantbal: a transaction of {dialect} isn't read only: give its user no other right"


def _stop_after(raw: Any, seconds: int) -> None:
    """Have a connection of SQLite cancel whatever it does after some seconds."""
    import time

    end = time.monotonic() + seconds
    raw.set_progress_handler(lambda: int(time.monotonic() > end), 100_000)
