"""What is printed, without the characters that a terminal takes for commands.

Names of files, cells of workbooks and fields of sessions are strangers' texts. `plain_streams`
stands around every subcommand, so that none of them has to think of it: what `print` writes to
standard output or standard error has a mark in place of each control character. Bytes that go to
`sys.stdout.buffer` are data, and stay as they are.
"""

from __future__ import annotations

import re
import sys
from collections.abc import Iterable, Iterator
from contextlib import contextmanager
from typing import Any, TextIO, cast

# Control characters but line feeds and tabs, and those that turn the direction of writing.
_CONTROLS = re.compile("[\0-\x08\x0b-\x1f\x7f-\x9f\u200e\u200f\u2028-\u202e\u2066-\u2069]")
# Those of them that JSON may have as they are.
_LATE_CONTROLS = re.compile("[\x7f-\x9f\u200e\u200f\u2028-\u202e\u2066-\u2069]")
_SURROGATES = re.compile("[\ud800-\udfff]")


def plain(text: str) -> str:
    """Return a text with a mark for each control character, and lone bytes as their numbers."""
    text = _CONTROLS.sub("\N{REPLACEMENT CHARACTER}", text)
    return _SURROGATES.sub(lambda found: f"\\x{ord(found.group()) & 0xFF:02x}", text)


def escaped(text: str) -> str:
    """Return JSON with control characters as JSON writes them, so that they are data and no more."""
    text = _LATE_CONTROLS.sub(lambda found: f"\\u{ord(found.group()):04x}", text)
    return _SURROGATES.sub(lambda found: f"\\u{ord(found.group()):04x}", text)


class _Plain:
    """A text stream that what is printed goes through.

    Parameters
    ----------
    stream : TextIO
        The stream beneath.
    name : str
        What it is called if it can't be written.
    """

    def __init__(self, stream: TextIO, name: str) -> None:
        self.beneath = stream
        self._name = name

    def __getattr__(self, name: str) -> Any:
        return getattr(self.beneath, name)

    def write(self, text: str) -> int:
        """Write a text."""
        with with_name(self._name):
            return self.beneath.write(plain(text))

    def writelines(self, lines: Iterable[str]) -> None:
        """Write texts."""
        for line in lines:
            self.write(line)

    def flush(self) -> None:
        """Write what is kept."""
        with with_name(self._name):
            self.beneath.flush()


@contextmanager
def with_name(name: str) -> Iterator[None]:
    """Give a fault of writing the name of what is written, if it has none."""
    try:
        yield
    except OSError as error:
        error.filename = error.filename or name
        raise


@contextmanager
def plain_streams() -> Iterator[None]:
    """Have standard output and standard error written without control characters."""
    before = sys.stdout, sys.stderr
    sys.stdout = cast(TextIO, _Plain(before[0], "standard output"))
    sys.stderr = cast(TextIO, _Plain(before[1], "standard error"))
    try:
        yield
    finally:
        sys.stdout, sys.stderr = before


def beneath(stream: TextIO) -> TextIO:
    """Return a stream as it is, for a line that is written over and over."""
    return cast(TextIO, getattr(stream, "beneath", stream))
