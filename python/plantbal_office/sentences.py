"""The library's sentences in the person's language: made of forms and values, never of a wording.

A sentence of the library keeps the form and the values that it was made of. The catalogue has the
form in each language; figures and days are written as the language does. In English it is the
library's own.
"""

from __future__ import annotations

import datetime
import re

from django.utils import formats
from django.utils.translation import get_language, gettext

from plantbal.book.changes import Change
from plantbal.book.ledger import BookFact
from plantbal.faults import Fault, Place, Refusal
from plantbal.sentence import English, Language, said_in
from plantbal_office.remedies import desk_form


def is_english() -> bool:
    """Say whether the page is in the library's own language."""
    return (get_language() or "en").startswith("en")


# Whatever stands between a figure and its percent sign.
_PERCENT = re.compile(r"(?<=\d)\s?%")


def figure(text: str) -> str:
    """Return a figure with commas between thousands as the person's language writes it.

    A percentage has a space before its sign, in each of the languages, and isn't parted from it.
    """
    marks = {
        ",": formats.get_format("THOUSAND_SEPARATOR"),
        ".": formats.get_format("DECIMAL_SEPARATOR"),
    }
    return _PERCENT.sub("\xa0%", "".join(marks.get(each, each) for each in text))


class _DeskEnglish(English):
    """English, with what the desk offers in place of the options of commands."""

    def form(self, english: str) -> str:
        """Return the form of a sentence."""
        return desk_form(english)


ENGLISH: Language = _DeskEnglish()


class _Spoken:
    """The person's language: its forms are the catalogue's, its figures and days Django's."""

    def form(self, english: str) -> str:
        """Return the form of a sentence."""
        return gettext(desk_form(english))

    def figure(self, text: str) -> str:
        """Return a figure."""
        return figure(text)

    def day(self, day: datetime.date) -> str:
        """Return a day, short."""
        return str(formats.date_format(day, "SHORT_DATE_FORMAT"))


SPOKEN: Language = _Spoken()


def spoken() -> Language:
    """Return the person's language."""
    return ENGLISH if is_english() else SPOKEN


def said(text: str) -> str:
    """Return what the library says in the person's language."""
    return said_in(spoken(), text)


def day_written(text: str) -> str:
    """Return a day such as 2024-06-30 as the person's language writes it; what is none stays."""
    try:
        return spoken().day(datetime.date.fromisoformat(text))
    except ValueError:
        return text


def place_said(place: Place) -> str:
    """Return where something is."""
    return str(place) if is_english() else place.said_in(SPOKEN)


def fault_said(fault: Fault | str) -> str:
    """Return where something is wrong, what, and what to do about it."""
    if not isinstance(fault, Fault):
        return said(fault)
    what = f"{place_said(fault.place)} {said(fault.what)}".strip()
    return f"{what}: {said(fault.remedy)}" if fault.remedy else what


# ---- facts and their changes


def fact_said(fact: BookFact) -> str:
    """Return what a fact says."""
    return said(fact.said())


def fact_error(fact: BookFact) -> str:
    """Return the error of a fact."""
    return said(fact.error())


def change_said(change: Change) -> str:
    """Return what changes of a fact."""
    return said(change.said())


# ---- rows that are refused


def refusal_said(refusal: Refusal) -> str:
    """Return why a row is refused, and what to do about it."""
    what = said(refusal.said)
    return f"{what}: {said(refusal.remedy)}" if refusal.remedy else what
