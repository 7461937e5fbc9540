"""Passwords: from the environment or a file that only its owner can read, and into no sentence.

A password is never a word of a command and never in the queries, where it would stay. It goes from
here to the driver alone. What a driver says of a connection that fails is said without it, and the
driver's own exception, whose traceback has its parameters, is dropped.
"""

from __future__ import annotations

import os
import stat
from dataclasses import dataclass, field
from pathlib import Path

from plantbal import limits
from plantbal.faults import Fault, InputFault, Place, read_text


@dataclass(frozen=True)
class Password:
    """A password, which is shown nowhere."""

    _text: str = field(default="", repr=False)

    def __bool__(self) -> bool:
        return bool(self._text)

    def reveal(self) -> str:
        """Return it, for the driver."""
        return self._text

    def hidden_in(self, said: str) -> str:
        """Return a text without it."""
        return said.replace(self._text, "***") if self._text else said


def password_of(place: str) -> Password:
    """Return the password that is at a place.

    Parameters
    ----------
    place : str
        ``env NAME`` or ``file PATH``; empty if there is none.

    Raises
    ------
    Fault
        If it isn't there, or others can read the file.
    """
    if not place:
        return Password()
    kind, _, name = place.partition(" ")
    if kind == "env":
        found = os.environ.get(name.strip(), "")
        if not found:
            what = f"there is no password in the environment's {name.strip()}"
            raise Fault(what, text=name, remedy=f"set {name.strip()}, or use a file or .pgpass")
        return Password(found)
    path = Path(name.strip()).expanduser()
    _check_is_own(path)
    return Password(read_text(path, limits.PASSWORD_BYTES)[1].rstrip("\r\n"))


def _check_is_own(path: Path) -> None:
    """Refuse a file that others can read, or that is another user's.

    Raises
    ------
    InputFault
        If it is so.
    """
    place = Place(file=str(path))
    try:
        found = path.stat()
    except OSError as error:
        what = f"it can't be read: {error.strerror}"
        raise InputFault(what, place=place, remedy="check its name") from error
    if found.st_uid not in (os.getuid(), 0):
        raise InputFault("it is another user's", place=place, remedy="own the file")
    if stat.S_IMODE(found.st_mode) & 0o077:
        remedy = f"chmod 600 {path}"
        raise InputFault("others can read this password", place=place, remedy=remedy)
