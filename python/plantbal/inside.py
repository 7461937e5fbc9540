"""Runs and checks in this process, if the library is there and the words ask for one of them."""

from __future__ import annotations

from collections.abc import Sequence
from dataclasses import dataclass, replace


@dataclass(frozen=True)
class RunWords:
    """What the words of a run ask for, as numbers."""

    gap: int = 10
    sweeps: int = 5000
    eliminate: int = 0
    tests: bool = False
    json: bool = False


def read_run(words: Sequence[str]) -> RunWords | None:
    """Return what the words of a run ask for, or None if they are others."""
    asked, left = RunWords(), list(words)
    if not left or left.pop(0) != "run":
        return None
    while left:
        match left:
            case ["--tests", *left]:
                asked = replace(asked, tests=True)
            case ["--format", ("csv" | "json") as form, *left]:
                asked = replace(asked, json=form == "json")
            case [("--gap" | "--sweeps" | "--eliminate") as word, number, *left] if _is_whole(
                number
            ):
                asked = replace(asked, **{word[2:]: int(number)})
            case _:
                return None
    return asked


def _is_whole(word: str) -> bool:
    """Return whether a word is a number as the program reads it."""
    return word.isascii() and word.isdigit() and len(word) < 10


def answer(words: Sequence[str], data: bytes) -> tuple[int, bytes] | None:
    """Return the status and the output of a run or a check, or None if the program is to answer.

    Raises
    ------
    ProgramFault
        If it ends with another status than 0 or 1.
    """
    asked = None if list(words) == ["check"] else read_run(words)
    if asked is None and list(words) != ["check"]:
        return None
    try:
        from plantbal import _native
    except ImportError:
        return None
    if not _native.is_there():
        return None
    if asked is None:
        return _native.check(data)
    return _native.run(
        data,
        gap=asked.gap,
        sweeps=asked.sweeps,
        eliminate=asked.eliminate,
        tests=asked.tests,
        json=asked.json,
    )
