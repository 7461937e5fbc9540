"""The version of a book that somebody was shown: who acts on an older one is refused."""

from __future__ import annotations

from collections.abc import Sequence
from dataclasses import dataclass

from plantbal.book.journal import JournalLine
from plantbal.faults import Fault
from plantbal.sentence import Joined, Sentence, phrase

# How many actions of others are said.
_MOST = 3


@dataclass(frozen=True)
class BookVersion:
    """A state of a book, by the end of its journal.

    Attributes
    ----------
    number : int
        How many actions the journal has.
    digest : str
        The digest of the last; empty if the journal is of an older version, without digests.
    """

    number: int
    digest: str

    def __str__(self) -> str:
        return f"{self.number} {self.digest}".strip()

    @classmethod
    def of(cls, lines: Sequence[JournalLine]) -> BookVersion:
        """Return the version of a book with these lines in its journal."""
        return cls(len(lines), lines[-1].digest if lines else "")

    @classmethod
    def read(cls, text: str) -> BookVersion | None:
        """Return the version that a text says, or None if it says none."""
        number, _, digest = text.partition(" ")
        is_one = number.isascii() and number.isdigit() and len(number) <= 9
        return cls(int(number), digest) if is_one and len(digest) <= 64 else None


class Moved(Fault):
    """An action on a book that isn't any more as it was when somebody decided on it.

    Attributes
    ----------
    since : tuple of JournalLine
        What was done since, as the journal has it; empty if the journal was put back.
    """

    def __init__(self, since: Sequence[JournalLine]) -> None:
        done = [line.said() for line in since[:_MOST]]
        if len(since) > _MOST:
            done.append(Sentence("and {count:,} more", count=len(since) - _MOST))
        what = "the book was changed since you were shown it, and nothing was booked"
        said = Sentence("{what}: {done}", what=phrase(what), done=Joined("; ", done))
        super().__init__(said if done else what, remedy="look at it again")
        self.since = tuple(since)


def require_expected(lines: Sequence[JournalLine], expected: BookVersion | None) -> None:
    """Raise if a book isn't as expected.

    Raises
    ------
    Moved
        If its journal ends otherwise.
    """
    if expected is None or BookVersion.of(lines) == expected:
        return
    is_before = BookVersion.of(lines[: expected.number]) == expected
    raise Moved(lines[expected.number :] if is_before else ())
