"""What words may mean: in the names of sheets, the heads of columns, and cells.

A word may mean several things: the German `Tag` is a day, and the English one an instrument's. What
stands below it decides, so each word gives all that it may mean.
"""

from __future__ import annotations

import re
import unicodedata
from collections.abc import Iterator
from dataclasses import dataclass

from plantbal.sentence import Phrase, Sentence
from plantbal.workbook.mapping.words import (
    COLUMN_WORDS,
    COUNTER_WORDS,
    COVER_WORDS,
    LANGUAGES,
    REMARK_WORDS,
    SHEET_WORDS,
    SUMS,
    TOTAL_WORDS,
    VALUE_WORDS,
    WEAK,
    Words,
)


@dataclass(frozen=True)
class Meaning:
    """What a word may mean.

    Attributes
    ----------
    of : str
        What it means, as the lists of sheets and columns have it.
    language : str
        The language in which it does.
    word : str
        The word that was found.
    """

    of: str
    language: str
    word: str

    def said(self) -> str:
        """Return it as evidence."""
        language = Phrase(LANGUAGES[self.language])
        return Sentence(
            "{word!r} is {language} for {of}", word=self.word, language=language, of=self.of
        )


def plain_word(text: str) -> str:
    """Return a text in small letters, with single spaces and without marks at its ends."""
    lower = unicodedata.normalize("NFC", text).casefold().replace("ß", "ss")
    return re.sub(r"[\s_]+", " ", lower).strip(" .:;,*#'\"")


def _turned(words: Words) -> dict[str, list[Meaning]]:
    found: dict[str, list[Meaning]] = {}
    for of, languages in words.items():
        for language, texts in languages.items():
            for text in texts.split("; "):
                found.setdefault(plain_word(text), []).append(Meaning(of, language, text))
    return found


_SHEETS, _COLUMNS, _VALUES, _COVERS = map(
    _turned, (SHEET_WORDS, COLUMN_WORDS, VALUE_WORDS, COVER_WORDS)
)


def sheet_meanings(name: str) -> Iterator[Meaning]:
    """Give what the name of a sheet may say: as a whole, then by its first words, then by others."""
    whole = re.sub(r"[\W\d_]+", " ", name).strip()
    words = whole.split()
    parts = [" ".join(words[:end]) for end in range(len(words), 0, -1)]
    parts += [" ".join(words[at : at + 3]) for at in range(1, len(words))]
    parts += words[1:]
    for part in dict.fromkeys(parts):
        yield from _SHEETS.get(plain_word(part), ())


def cover_meaning(name: str) -> Meaning | None:
    """Return what the name of a sheet says that has nothing to book; None of another sheet."""
    found = _COVERS.get(plain_word(name))
    return found[0] if found else None


def column_meanings(head: str) -> list[Meaning]:
    """Return what the head of a column may say: as a whole, or else by its first or last word."""
    plain = plain_word(head)
    found = list(_COLUMNS.get(plain, ()))
    if found:
        return found
    words = re.split(r"[\s/()\[\],-]+", plain)
    for word in (words[0], words[-1]):
        found += _COLUMNS.get(word, ())
    return list(dict.fromkeys(found))


def is_weak(head: str) -> bool:
    """Say whether a head names whatever its row is of."""
    return plain_word(head) in WEAK


def is_counter(text: str) -> bool:
    """Say whether a head or a name speaks of a counter."""
    words = re.split(r"[\W\d_]+", plain_word(text))
    return any(word in COUNTER_WORDS for word in words)


def value_meaning(text: str) -> Meaning | None:
    """Return what a word in a column says; None if it is no such word."""
    found = _VALUES.get(plain_word(text))
    return found[0] if found else None


def is_remark(head: str) -> bool:
    """Say whether a head is that of remarks, or the like."""
    words = re.split(r"[\s/()-]+", plain_word(head))
    return any(word in REMARK_WORDS for word in words)


def is_total(text: str) -> bool:
    """Say whether a text begins with a word for a sum, a mean or the like."""
    first = re.split(r"[\s:.]+", text.casefold().strip())[0].strip("[]()")
    return first in TOTAL_WORDS or first.endswith(SUMS)
