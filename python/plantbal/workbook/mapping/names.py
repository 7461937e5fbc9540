"""Names of streams, tanks and units as a session has them: letters, digits, `_`, `-` and `.`."""

from __future__ import annotations

import re
from collections.abc import Iterable

from plantbal.faults import ToolMissing
from plantbal.schema import schema

_MOST = schema().limits["most_name"]
_NAME = re.compile(rf"[A-Za-z0-9_.-]{{1,{_MOST}}}")
_GERMAN = str.maketrans({"ä": "ae", "ö": "oe", "ü": "ue", "Ä": "Ae", "Ö": "Oe", "Ü": "Ue"})


def is_name(text: str) -> bool:
    """Say whether a text is a name."""
    return _NAME.fullmatch(text) is not None


def unused_name(text: str, taken: Iterable[str] = ()) -> str:
    """Return a name for a text, another than those that are taken.

    Raises
    ------
    ToolMissing
        If Unidecode isn't installed.
    """
    try:
        from unidecode import unidecode
    except ImportError as error:
        raise ToolMissing("unidecode", "python3-unidecode") from error
    plain = re.sub(r"[^A-Za-z0-9_.-]+", "_", unidecode(text.translate(_GERMAN))).strip("_")
    plain = (plain or "X")[:_MOST]
    others, count, found = set(taken), 1, plain
    while found in others:
        count += 1
        found = f"{plain[:_MOST - 4]}_{count}"
    return found
