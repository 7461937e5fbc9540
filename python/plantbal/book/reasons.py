"""Reasons as rows of a session have them: in ASCII, whatever language they are typed in.

The journal keeps a reason as it was typed; its row has it in Latin letters without accents, German
umlauts with an e.
"""

from __future__ import annotations

from plantbal.faults import ToolMissing

_GERMAN = str.maketrans({"ä": "ae", "ö": "oe", "ü": "ue", "Ä": "Ae", "Ö": "Oe", "Ü": "Ue"})


def in_ascii(reason: str) -> str:
    """Return a reason as a row of a session has it.

    Raises
    ------
    ToolMissing
        If Unidecode isn't installed, and the reason isn't in ASCII.
    """
    if reason.isascii():
        return reason
    try:
        from unidecode import unidecode
    except ImportError as error:
        raise ToolMissing("unidecode", "python3-unidecode") from error
    return str(unidecode(reason.translate(_GERMAN))).rstrip(" ")
