"""No program is believed: each report is judged by its own numbers before it is kept.

The judge is `checker.py`, which knows nothing of the program. What it finds is said by the block,
the test, the place, and the two numbers that differ.
"""

from __future__ import annotations

import hashlib
from pathlib import Path

from plantbal import checker
from plantbal.faults import Fault, InputFault, Place, unread
from plantbal.program import find_program


def require_believed(
    report: bytes, source: str, program: str | Path | None = None, remedy: str = ""
) -> None:
    """Refuse a report that doesn't agree with itself.

    Parameters
    ----------
    report : bytes
        What the program wrote. If it has no block, there is nothing to judge.
    source : str
        What it is called in what is said.
    program : str or Path, optional
        The program that wrote it, as `find_program` takes it; it is named in what is said.
    remedy : str
        What to do about it, if it isn't known which program wrote it.

    Raises
    ------
    InputFault
        If the test of a block fails, or a row can't be read.
    """
    for row in checker.findings(report):
        if row[0] == "yes":
            continue
        if row[0] == "no":
            what = _failed(*row[1:])
        else:
            _, number, _, word = row
            what = f"its row {int(number):,} can't be read ({word})"
        raise InputFault(
            what,
            place=Place(file=source),
            text=row[0],
            remedy=remedy
            or f"nothing of it is kept: {_writer(program)} wrote a report that doesn't pass "
            "the check; use the plantbal that is installed with this package, and if it is that, "
            "try another machine",
        )


def _failed(period: str, round_: str, code: str, test: str, place: str, *numbers: str) -> str:
    """Return which test of a block failed, and where."""
    said = f"the block of {period}, round {round_}, fails the test {test} ({code})"
    at = f" at {place}" if place else ""
    stated, found = numbers
    return f"{said}{at}: {stated} is stated, and {found} is found"


def _writer(program: str | Path | None) -> str:
    """Return the program and its digest, in words."""
    try:
        return f"{find_program(program)} (SHA-256 {program_digest(program)})"
    except Fault:
        return "the program"


def program_digest(program: str | Path | None = None) -> str:
    """Return the SHA-256 of the program that is called.

    Parameters
    ----------
    program : str or Path, optional
        The program, as `find_program` takes it.

    Raises
    ------
    Fault
        If there is none, or it can't be read.
    """
    path = find_program(program)
    try:
        with path.open("rb") as file:
            return hashlib.file_digest(file, "sha256").hexdigest()
    except OSError as error:
        raise unread(path, error) from error
