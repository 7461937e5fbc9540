"""Sentences that other languages can say too: English text that keeps its form and its values.

A sentence is made of a form, such as ``there is no stream {name}``, and of the values in it. It is
its English text wherever a text is wanted. What shows it in another language looks its form up in a
catalogue, never its text, and fills the values in as that language writes figures and days.
"""

from __future__ import annotations

import datetime
import string
from collections.abc import Iterable, Mapping
from decimal import Decimal
from fractions import Fraction
from typing import Any, Protocol, runtime_checkable


class Sentence(str):
    """A sentence in English, with the form and the values that it was made of.

    Attributes
    ----------
    form : str
        Its form, with values in braces.
    values : mapping of str to object
        The values by their names in the form.
    """

    form: str
    values: Mapping[str, object]

    def __new__(cls, form: str, /, **values: object) -> Sentence:
        """Make a sentence."""
        made = super().__new__(cls, form.format(**values))
        made.form, made.values = form, values
        return made

    def __getnewargs_ex__(self) -> tuple[tuple[str], dict[str, object]]:
        return (self.form,), dict(self.values)


class Joined(str):
    """Several texts with something between them, each said by itself.

    Attributes
    ----------
    mark : str
        What is between them.
    parts : tuple of str
        The texts.
    """

    mark: str
    parts: tuple[str, ...]

    def __new__(cls, mark: str, parts: Iterable[str]) -> Joined:
        """Join texts."""
        some = tuple(parts)
        made = super().__new__(cls, mark.join(some))
        made.mark, made.parts = mark, some
        return made

    def __reduce__(self) -> tuple[Any, ...]:
        return Joined, (self.mark, self.parts)


class Capital(str):
    """A text that begins with a capital letter, of one that may not.

    Attributes
    ----------
    text : str
        The text as it is within a sentence.
    """

    text: str

    def __new__(cls, text: str) -> Capital:
        """Make it of a text."""
        made = super().__new__(cls, text[:1].upper() + text[1:])
        made.text = text
        return made

    def __getnewargs__(self) -> tuple[str]:
        return (self.text,)


class Figure(str):
    """A figure with commas between thousands and a decimal point, and its unit if it has one."""


class Phrase(str):
    """A text that is a form without values, within a sentence, where a plain text is a name."""


def phrase(text: str) -> str:
    """Return a text as a part of a sentence that is said in a language by itself."""
    is_plain = type(text) is str
    return Phrase(text) if is_plain else text


class Day(str):
    """A day as 2024-06-30."""


class Moment(str):
    """A moment as 2024-06-30T12:30:00Z, which another language than English has to the minute."""

    def said_in(self, language: Language) -> str:
        """Return it in a language; what is no moment stays as it is."""
        if isinstance(language, English):
            return str(self)
        try:
            found = datetime.datetime.fromisoformat(self.replace("Z", "+00:00"))
        except ValueError:
            return str(self)
        return f"{language.day(found.date())} {found:%H:%M}"


def counted(count: int, one: str, many: str, /, **values: object) -> Sentence:
    """Return a sentence on a count, by the form for one or that for another number."""
    return Sentence(one if count == 1 else many, count=count, **values)


class English:
    """The language of the forms themselves."""

    def form(self, english: str) -> str:
        """Return the form."""
        return english

    def figure(self, text: str) -> str:
        """Return the figure."""
        return text

    def day(self, day: datetime.date) -> str:
        """Return the day as 2024-06-30."""
        return day.isoformat()


ENGLISH = English()


class Language(Protocol):
    """A language: its forms of sentences, its figures and its days."""

    def form(self, english: str) -> str:
        """Return the form of a sentence, or the English one if there is none."""

    def figure(self, text: str) -> str:
        """Return a figure that has commas between thousands and a decimal point."""

    def day(self, day: datetime.date) -> str:
        """Return a day."""


@runtime_checkable
class Sayable(Protocol):
    """What a sentence is filled with and can be said in a language by itself."""

    def said_in(self, language: Language) -> str:
        """Return it in a language."""


class Filler(string.Formatter):
    """Fills values into a form of a language."""

    def __init__(self, language: Language) -> None:
        self.language = language

    def format_field(self, value: Any, format_spec: str) -> str:
        """Return a value as the language writes it."""
        if isinstance(value, Figure):
            return self.language.figure(value)
        if isinstance(value, Day):
            return self.language.day(datetime.date.fromisoformat(value))
        if isinstance(value, Sentence | Joined | Capital | Phrase):
            return said_in(self.language, value)
        if isinstance(value, Sayable):
            return value.said_in(self.language)
        if isinstance(value, datetime.date) and not format_spec:
            return self.language.day(value)
        text = format(value, format_spec)
        is_number = isinstance(value, int | float | Decimal | Fraction)
        return self.language.figure(text) if is_number else text


def _part(language: Language, text: str) -> str:
    """Return a part of several in a language; a plain text is a name."""
    is_plain = type(text) is str
    return text if is_plain else said_in(language, text)


def said_in(language: Language, text: str) -> str:
    """Return a text in a language: a sentence by its form, any other as a form without values."""
    if isinstance(text, Capital):
        said = said_in(language, text.text)
        return said[:1].upper() + said[1:]
    if isinstance(text, Joined):
        return text.mark.join(_part(language, part) for part in text.parts)
    if isinstance(text, Sentence):
        form = language.form(text.form)
        return Filler(language).vformat(form, (), text.values)
    if isinstance(text, Figure):
        return language.figure(text)
    if isinstance(text, Day):
        return language.day(datetime.date.fromisoformat(text))
    if isinstance(text, Moment):
        return text.said_in(language)
    return language.form(text) if text else ""
