"""What an audit says, sentence by sentence, and what it is about."""

from __future__ import annotations

from collections.abc import Iterator, Sequence
from dataclasses import dataclass, field
from enum import StrEnum
from itertools import zip_longest
from os.path import commonprefix

SHORT = 120  # characters of a line that are quoted
_SAID = 3  # rows of a file that are named; the others are counted


class SentenceKind(StrEnum):
    """What a sentence says: that something holds, that it may be looked at, or that it doesn't hold."""

    GOOD = "good"
    NOTE = "note"
    WRONG = "wrong"


def first_wrong(name: str, wrong: Sequence[str]) -> Iterator[tuple[SentenceKind, str]]:
    """Give what is wrong with the first rows of a file, and how many more differ."""
    for said in wrong[:_SAID]:
        yield SentenceKind.WRONG, f"{name}: {said}"
    if len(wrong) > _SAID:
        yield SentenceKind.WRONG, f"{name}: {len(wrong) - _SAID:,} more differ"


@dataclass
class Audit:
    """What an audit says, sentence by sentence.

    Attributes
    ----------
    said : list of (SentenceKind, str)
        The sentences.
    is_shown : bool
        Whether each is shown at once, since an audit may take a while.
    """

    said: list[tuple[SentenceKind, str]] = field(default_factory=list)
    is_shown: bool = True

    def add(self, kind: SentenceKind, text: str) -> None:
        """Say a sentence."""
        self.said.append((kind, text))
        if self.is_shown:
            print(f"{kind}: {text}", flush=True)

    def count(self, kind: SentenceKind) -> int:
        """Return how many sentences of a kind there are."""
        return sum(each is kind for each, _ in self.said)


@dataclass(frozen=True)
class Audited:
    """What is audited: how it is called, its session, its report, and the words of the run."""

    source: str
    report: str
    session: str
    output: bytes
    data: bytes
    words: list[str]
    program: str = ""
    sum: str = ""


@dataclass(frozen=True, slots=True)
class TextDifference:
    """Where two texts differ first: the line, the character, and both texts about it."""

    line: int
    character: int
    one: str
    other: str

    @property
    def place(self) -> str:
        """The place in words."""
        return f"line {self.line}, character {self.character}"


def differs_at(one: bytes, other: bytes) -> TextDifference:
    """Return where two texts differ first."""
    for number, pair in enumerate(zip_longest(one.split(b"\n"), other.split(b"\n")), 1):
        if pair[0] != pair[1]:
            lines = [(line or b"").decode("utf-8", "backslashreplace") for line in pair]
            begin = len(commonprefix(lines))
            return TextDifference(number, begin + 1, *(_shown(line, begin) for line in lines))
    return TextDifference(0, 0, "", "")


def _shown(line: str, at: int) -> str:
    """Return a line as it is quoted: a long one about a place."""
    if not line:
        return "nothing"
    begin = max(0, at - SHORT // 2) if len(line) > SHORT else 0
    end = begin + SHORT
    return f"'{'..' if begin else ''}{line[begin:end]}{'..' if len(line) > end else ''}'"
