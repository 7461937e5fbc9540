"""Where a file was changed: by the digests of its parts, and by the digit that is put back."""

from __future__ import annotations

import hashlib
import re
from collections.abc import Sequence

LINES = 50  # of a part
# Bytes of which digests are made at most to find a digit, a few seconds: in a long text the last
# digits aren't tried, since that takes a time that grows as the square of its length.
_MOST_BYTES = 1 << 31


def digest(data: bytes) -> str:
    """Return the SHA-256 of bytes, as hexadecimal digits."""
    return hashlib.sha256(data).hexdigest()


def _parts(data: bytes) -> list[bytes]:
    """Return a file in parts of so many lines."""
    lines = data.split(b"\n")
    return [b"\n".join(lines[at : at + LINES]) for at in range(0, len(lines), LINES)]


def digests_of_parts(data: bytes) -> list[str]:
    """Return the digest of each fifty lines of a file, by which a change is found."""
    return [digest(part) for part in _parts(data)]


def digit_before(text: bytes, wanted: str) -> tuple[int, str] | None:
    """Return the place of the one digit with which a text has its digest again, and the digit.

    Parameters
    ----------
    text : bytes
        The text as it is.
    wanted : str
        The digest that it had.
    """
    before, done, left = hashlib.sha256(), 0, _MOST_BYTES
    for found in re.finditer(rb"[0-9]", text):
        place = found.start()
        before.update(text[done:place])
        rest, done, left = text[place + 1 :], place, left - 10 * (len(text) - place)
        if left < 0:
            break
        for digit in "0123456789":
            tried = before.copy()
            tried.update(digit.encode("ascii") + rest)
            if tried.hexdigest() == wanted:
                return place, digit
    return None


def where(data: bytes, wanted: str, parts: Sequence[str] = ()) -> str:
    """Return in words where a file was changed, as far as it can be known.

    Parameters
    ----------
    data : bytes
        The file as it is.
    wanted : str
        The digest that it had.
    parts : sequence of str
        The digests that its parts had, if they are known.
    """
    begin, text = 0, data
    if parts:
        now = _parts(data)
        same = [digest(part) == had for part, had in zip(now, parts)]
        at = same.index(False) if False in same else len(same)
        begin = LINES * at
        text, wanted = (*now[at:], b"")[0], (*parts[at:], "")[0]
    found = digit_before(text, wanted)
    if found is not None:
        place, digit = found
        line = begin + text.count(b"\n", 0, place) + 1
        character = place - text.rfind(b"\n", 0, place)
        now_there = text[place : place + 1].decode("ascii")
        return f"line {line}, character {character}: found {now_there}, archived {digit}"
    if parts:
        return f"lines {begin + 1} to {begin + LINES}: the first change is in these lines"
    return ""
