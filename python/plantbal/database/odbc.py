"""Databases that are reached by ODBC alone, such as many historians: a dialect of SQLAlchemy.

SQLAlchemy has no dialect for any source whatever, and a query of a person needs none: it is carried
out as it is written. So this one knows what each database does, and nothing of a certain one.
"""

from __future__ import annotations

from sqlalchemy.connectors.pyodbc import PyODBCConnector
from sqlalchemy.dialects import registry
from sqlalchemy.engine.default import DefaultDialect

NAME = "odbc"


class OdbcDialect(PyODBCConnector, DefaultDialect):  # type: ignore[misc]
    """What SQLAlchemy knows of a source of ODBC."""

    name = NAME
    supports_statement_cache = True
    default_paramstyle = "qmark"


def in_braces(password: str) -> str:
    """Return a password as a connection's words have it, whatever marks are in it."""
    return "{" + password.replace("}", "}}") + "}"


registry.register(NAME, __name__, OdbcDialect.__name__)
