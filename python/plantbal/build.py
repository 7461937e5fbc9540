"""Which build a program is: the program names no version, so others have to."""

from __future__ import annotations

import hashlib
from dataclasses import dataclass
from pathlib import Path

from plantbal.faults import read_bytes

# Where an installed program has its build record, and a checkout its program and its version.
RECORD = Path("..", "share", "plantbal", "BUILD")
BUILT = Path("crates", "plantbal", "out", "plantbal")
VERSION = "VERSION"
UNKNOWN = "unknown"


@dataclass(frozen=True, slots=True)
class Build:
    """What is known of a program.

    Attributes
    ----------
    sha256 : str
        Its digest.
    version, commit : str
        Its version, and the commit that it was built from; ``unknown`` if nothing says them.
    source : str
        Where these two are from.
    """

    sha256: str
    version: str = UNKNOWN
    commit: str = UNKNOWN
    source: str = "nowhere: no build record has the program's SHA-256"


def build_of(program: Path) -> Build:
    """Return what is known of a program.

    Raises
    ------
    InputFault
        If it can't be read.
    """
    digest = hashlib.sha256(read_bytes(program)[1]).hexdigest()
    lines = _text(program.parent / RECORD).splitlines()
    record = dict(line.split(": ", 1) for line in lines if ": " in line)
    if digest in record.values():
        version, commit = record.get("version", UNKNOWN), record.get("commit", UNKNOWN)
        return Build(digest, version, commit, "the build record installed with the program")
    top = program.parents[min(3, len(program.parents) - 1)]
    version = _text(top / VERSION).strip() if program == top / BUILT else ""
    if version:
        source = "the file VERSION of the program's checkout, as it was at this time"
        return Build(digest, version, source=source)
    return Build(digest)


def _text(path: Path) -> str:
    """Return the text of a file, or nothing if it can't be read."""
    try:
        return path.read_text(encoding="utf-8", errors="replace")
    except OSError:
        return ""
