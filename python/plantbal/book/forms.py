"""The files of a book: what each is called, and which names can be none of them.

A name of a period has letters, digits, `_`, `.` and `-`. So nothing that the book names itself can
meet the report of a period: earlier reports have a folder of their own, the report of a window has
a `+` in its name, and a file that isn't finished has a `~`.
"""

from __future__ import annotations

import re
from collections.abc import Iterable
from pathlib import Path

PLANT = "plant.csv"
METERS = "meters.csv"
ACCOUNTS = "accounts.csv"
MAPPING = "mapping.toml"
MEASURES = "measures.csv"
MEASURED = "measured.csv"
SUMMED = "summed.csv"
JOURNAL = "journal.csv"
REPORTS = "reports"
EARLIER = f"{REPORTS}/earlier"
POSTED = "posted"
RULES = "rules.toml"
SIGNERS = "allowed_signers"
REVOKED = "revoked_keys"
APPROVALS = "approvals"
CHECKS = ".checks"
PENDING = ".pending"
LOCK = ".lock"

_YEAR = r"[0-9]{4}[A-Za-z0-9_-]{0,28}"
_NAME = r"[A-Za-z0-9_.-]{1,32}"
_OWN = re.compile(
    rf"(?:plant|meters|accounts|measures|measured|summed|journal|{_YEAR})\.csv|mapping\.toml"
    rf"|{POSTED}/{_NAME}\.[0-9]+\.csv"
    rf"|{REPORTS}/{_NAME}(?:\+{_NAME})?\.csv|{EARLIER}/{_NAME}\.[0-9]+\.csv"
    rf"|rules\.toml|{SIGNERS}|{REVOKED}|{APPROVALS}/[1-9][0-9]{{0,8}}\.(?:txt|sig|tsr|json)"
)
# Windows were called `may2_to_may3.csv` once, and an earlier report `2024-04.1.csv`.
_OLD_REPORT = re.compile(rf"{REPORTS}/(?:{_NAME}_to_{_NAME}|{_NAME}\.[0-9]+)\.csv")
# What a command of an older version has left if it was stopped.
_OLD_BEGUN = re.compile(rf"\.(?:plant|meters|journal|\.pending|{_YEAR})\.[a-z0-9_]{{8}}(?:\.csv)?")


def is_year(name: str) -> bool:
    """Say whether a name is that of a year: four digits, and up to 28 more letters and digits."""
    return re.fullmatch(_YEAR, name) is not None


def is_year_file(name: str) -> bool:
    """Say whether a name is that of a year's file, but for the files that every book has."""
    return name.endswith(".csv") and is_year(name.removesuffix(".csv"))


def is_own(name: str) -> bool:
    """Say whether a name is of the form of a file that a command writes into a book."""
    return (_OWN.fullmatch(name) or _OLD_REPORT.fullmatch(name)) is not None


def year_file(year: str) -> str:
    """Return the name of a year's file."""
    return f"{year}.csv"


def report_file(period: str) -> str:
    """Return the name of a period's report."""
    return f"{REPORTS}/{period}.csv"


def window_file(first: str, last: str) -> str:
    """Return the name of the report of a window."""
    return f"{REPORTS}/{first}+{last}.csv"


def old_window_file(first: str, last: str) -> str:
    """Return the name that older versions gave to the report of a window."""
    return f"{REPORTS}/{first}_to_{last}.csv"


def earlier_file(period: str, number: int) -> str:
    """Return the name of an earlier report of a period."""
    return f"{EARLIER}/{period}.{number}.csv"


def old_earlier_file(period: str, number: int) -> str:
    """Return the name that older versions gave to an earlier report of a period."""
    return f"{REPORTS}/{period}.{number}.csv"


def posted_file(period: str, number: int) -> str:
    """Return the name of what was posted of a period, the first time or a later one."""
    return f"{POSTED}/{period}.{number}.csv"


def approval_file(number: int, kind: str) -> str:
    """Return the name of what an action of a number has of approvals.

    Parameters
    ----------
    number : int
        The action's place in the journal.
    kind : str
        ``txt`` its record, ``sig`` the signature of that, ``tsr`` the time stamp of the signature,
        ``json`` the action that it submits.
    """
    return f"{APPROVALS}/{number}.{kind}"


def begun_file(path: Path) -> Path:
    """Return where a file is written before it takes the place of another."""
    return path.with_name(f".{path.name}~")


def is_begun(inner: str, name: str) -> bool:
    """Say whether a file was begun by a command that was stopped.

    Parameters
    ----------
    inner : str
        Its folder within the book; empty for the book's own.
    name : str
        Its name there.
    """
    if name.startswith(".") and name.endswith("~"):
        own = f"{inner}/{name[1:-1]}".removeprefix("/")
        return is_own(own) or own in (CHECKS, PENDING)
    return not inner and _OLD_BEGUN.fullmatch(name) is not None


def there(folder: Path) -> Iterable[str]:
    """Give the names of the files in a folder that are of the forms of a book's."""
    for inner in ("", REPORTS, EARLIER, POSTED, APPROVALS):
        for path in sorted((folder / inner).glob("*")):
            name = f"{inner}/{path.name}" if inner else path.name
            if is_own(name):
                yield name
