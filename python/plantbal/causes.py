"""Why something is a fault: a cause, which is a member of an enum, and the values of the case.

The sentence is made of both. What groups faults, counts them or decides by them asks for the cause,
and never looks into a sentence.
"""

from __future__ import annotations

from collections.abc import Mapping
from dataclasses import dataclass, field
from enum import Enum
from typing import Any

from plantbal.faults import InputFault, Place
from plantbal.sentence import Language, Sentence, said_in


class Causes(Enum):
    """Causes of one field of work; the value of each is its sentence, with its values in braces."""

    def __call__(self, **values: object) -> Case:
        """Return the case of this cause with some values."""
        return Case(self, values)

    @property
    def word(self) -> str:
        """What it is called outside of Python."""
        return self.name.lower().replace("_", "-")


@dataclass(frozen=True)
class Case:
    """A cause with what its sentence is about.

    Attributes
    ----------
    cause : Causes
        The cause.
    values : mapping of str to object
        The values by their names in the sentence.
    """

    cause: Causes
    values: Mapping[str, object] = field(default_factory=dict)

    @property
    def sentence(self) -> Sentence:
        """Its sentence, which other languages can say too."""
        return Sentence(str(self.cause.value), **self.values)

    def said_in(self, language: Language) -> str:
        """Return its sentence in a language."""
        return said_in(language, self.sentence)

    def __str__(self) -> str:
        return str(self.cause.value).format(**self.values)


class CausedFault(InputFault):
    """A fault of an input whose cause is a member of an enum.

    Attributes
    ----------
    case : Case
        The cause and its values.
    """

    def __init__(
        self, case: Case, *, place: Place | None = None, text: str = "", remedy: str = ""
    ) -> None:
        super().__init__(case.sentence, place=place, text=text, remedy=remedy)
        self.case = case

    def at(self, place: Place, text: str) -> CausedFault:
        """Return the fault at another place, which has a text."""
        return CausedFault(self.case, place=place, text=text, remedy=self.remedy)

    def as_dict(self) -> dict[str, Any]:
        """Return it as values that JSON has, with the word of its cause."""
        return {**super().as_dict(), "cause": self.case.cause.word}
