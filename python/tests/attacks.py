"""The ways to rewrite a bundle or a book, and what tells each: the table of docs/ASSURANCE.md, as the tests read it."""

from __future__ import annotations

from dataclasses import dataclass
from enum import Enum, StrEnum
from pathlib import Path

ASSURANCE = Path(__file__).resolve().parents[2] / "docs" / "ASSURANCE.md"
_HEAD = "| rewritten | how | digests alone | a later bundle, or a head | the book | keys |"


class What(StrEnum):
    """What is rewritten."""

    BUNDLE = "a bundle"
    SIGNATURE = "a bundle's signature"
    APPROVALS = "the approvals in a bundle"
    BOOK = "a book"


class Told(Enum):
    """Whether a means tells it."""

    YES = "told"
    NO = "not told"
    UNLESS = "told, unless its approvals are left out"
    NOTE = "a note"
    NONE = ""


@dataclass(frozen=True)
class Attack:
    """What each means tells of a way of rewriting.

    Attributes
    ----------
    alone : Told
        The digests and the chain in itself.
    kept : Told
        A later bundle, or a head that was kept elsewhere.
    book : Told
        The book of which a bundle is.
    keys : Told
        The keys that may sign, or the rules with them.
    """

    alone: Told
    kept: Told
    book: Told
    keys: Told


def attacks() -> dict[tuple[What, str], Attack]:
    """The rows of the table."""
    text = ASSURANCE.read_text("utf-8")
    assert text.count(_HEAD) == 1, "ASSURANCE has the table once"
    lines = text.partition(_HEAD)[2].split("\n\n", 1)[0].strip().split("\n")[1:]
    rows = [[cell.strip() for cell in line.strip("|").split("|")] for line in lines]
    found = {(What(row[0]), row[1]): Attack(*map(Told, row[2:])) for row in rows}
    assert len(found) == len(rows), "each way once"
    return found


def of(what: What) -> dict[str, Attack]:
    """The ways in which one thing is rewritten."""
    return {name: attack for (each, name), attack in attacks().items() if each is what}
