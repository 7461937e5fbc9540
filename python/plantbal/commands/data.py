"""What a command says as JSON: one object, of the same shape for each command.

Its items are the ``command``, the ``status`` that it ends with, what it ``found`` (its result as it
is, each item under the name that Python has for it, or null), the lines that it ``said`` without
this word, and the ``fault`` that stopped it, or null.

A whole number of more than 2^53 - 1 is a text of its digits, since most readers of JSON have floats
only; so is a Decimal. A day is written as 2024-04-30, a word of an enum as its name in small letters.
"""

from __future__ import annotations

import argparse
import datetime
import io
import json
from collections.abc import Callable, Mapping
from contextlib import redirect_stdout
from dataclasses import fields, is_dataclass
from decimal import Decimal
from enum import Enum
from fractions import Fraction
from pathlib import Path
from typing import Any, Protocol, runtime_checkable

from plantbal.faults import Fault
from plantbal.files import write_text
from plantbal.plain import escaped

_EXACT = (1 << 53) - 1  # the greatest number up to which floats have all whole ones


@runtime_checkable
class HasData(Protocol):
    """A result that says itself what is written of it."""

    def as_data(self) -> Mapping[str, Any]:
        """Return its values by their names."""


def add_json(parser: argparse.ArgumentParser) -> None:
    """Add the word that asks for JSON."""
    parser.add_argument("--json", action="store_true", help="write the same as JSON")


def data_of(value: Any) -> Any:
    """Return a result as values that JSON has.

    Raises
    ------
    TypeError
        If something in it is of no kind that is known here.
    """
    if value is None or isinstance(value, (bool, str)):
        return value
    if isinstance(value, Enum):
        return value.name.lower()
    if isinstance(value, int):
        return value if abs(value) <= _EXACT else str(value)
    if isinstance(value, float):
        return value if value - value == 0 else None
    if isinstance(value, (Decimal, Fraction, Path, datetime.date)):
        return str(value)
    if isinstance(value, HasData):
        return data_of(value.as_data())
    if is_dataclass(value) and not isinstance(value, type):
        return {each.name: data_of(getattr(value, each.name)) for each in fields(value)}
    if isinstance(value, Mapping):
        return {str(data_of(key)): data_of(each) for key, each in value.items()}
    if isinstance(value, (set, frozenset)):
        return sorted(map(data_of, value), key=str)
    if isinstance(value, (list, tuple)):
        return [data_of(each) for each in value]
    raise TypeError(f"{type(value).__name__} isn't written as JSON")


def answer_with_json(work: Callable[[argparse.Namespace], int], options: argparse.Namespace) -> int:
    """Do the work of a command, and write what comes of it as JSON if that is asked for.

    Parameters
    ----------
    work : callable
        Does the work, puts what it finds into `options.found`, prints, and returns the status.
    options : Namespace
        The words of the command; `prog` is what it is called.
    """
    options.found = None
    if not options.json:
        return work(options)
    said = io.TextIOWrapper(io.BytesIO(), "utf-8", "surrogateescape", "\n", write_through=True)
    stopped: Fault | None = None
    try:
        with redirect_stdout(said):
            status = work(options)
    except Fault as fault:
        stopped, status = fault, fault.ends
    lines = said.detach().getvalue().decode("utf-8", "replace")  # type: ignore[attr-defined]
    found = {
        "command": options.prog.removeprefix("plantbal-desk "),
        "status": int(status),
        "found": data_of(options.found),
        "said": lines.splitlines(),
        "fault": stopped.as_dict() if stopped else None,
    }
    write_text("-", escaped(json.dumps(found, indent=1, ensure_ascii=False)) + "\n")
    if stopped:
        raise stopped
    return status
