"""The driver of Oracle that Debian has, as the dialect of SQLAlchemy 1.4 wants it.

That dialect speaks to a module cx_Oracle, which Debian doesn't have any more. Its successor has the
same calls and numbers its versions anew, which the dialect takes for one that is too old.
"""

from __future__ import annotations

from types import ModuleType
from typing import Any

# The last version of cx_Oracle, whose calls the module has.
_SAME_AS = "8.3.0"


def driver() -> Any:
    """Return the module, under the version that the dialect knows.

    Raises
    ------
    ImportError
        If it isn't there.
    """
    import oracledb

    found = ModuleType("cx_Oracle")
    found.__dict__.update(vars(oracledb))
    found.__dict__["version"] = _SAME_AS
    return found
