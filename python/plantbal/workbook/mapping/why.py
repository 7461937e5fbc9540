"""Why a mapping guesses what it does: the sentences about columns, and those that several readers say."""

from __future__ import annotations

from collections.abc import Collection, Iterable
from decimal import Decimal

from plantbal.sentence import Joined, Sentence, phrase


def often_empty(blanks: int, count: int) -> Sentence:
    """Return why an empty cell has what stands above it."""
    form = "{blanks} of {count} of its cells are empty: each takes the value above it"
    return Sentence(form, blanks=blanks, count=count)


def counter_asked(said: str) -> Sentence:
    """Return why a column may be of a counter: a text says so, or its figures only rise."""
    named, rising = "{said!r} says counter", "its figures only rise"
    why = Sentence(named, said=said[:60]) if said else Sentence(rising)
    form = (
        "{why}: the figure at which it begins again, such as 1000000, "
        'or "" if each figure is an amount'
    )
    return Sentence(form, why=why)


def has_tank(tank: str, said: str) -> Sentence:
    """Return why a column is one of a tank."""
    return Sentence("{tank} is in its head or over it; {said}", tank=tank, said=phrase(said))


def which_of_tank(tank: str, count: int, choices: Iterable[str]) -> Sentence:
    """Return the question what a tank's column has."""
    form = "{tank} has {count} columns: is it {choices}?"
    return Sentence(form, tank=tank, count=count, choices=Joined(", ", choices))


def figures_in(unit: str) -> Sentence:
    """Return why figures of a tank aren't levels."""
    return Sentence("its figures are in {unit}", unit=unit)


_TEXTS = {
    "tag": "{count} of its texts are tags of the plant",
    "stream": "{count} of its texts are streams of the plant",
    "tank": "{count} of its texts are tanks of the plant",
}


def texts_of_plant(count: int, of: str) -> Sentence:
    """Return why a column has the tags, streams or tanks of a plant."""
    return Sentence(_TEXTS[of], count=count)


def no_error(units: str, such: str) -> Sentence:
    """Return the question which error the figures of a column have."""
    form = "no error is given: a standard deviation, in {units}: {such}"
    return Sentence(form, units=phrase(units) if units == "degrees" else units, such=such)


def which_column(heads: Collection[str]) -> Sentence:
    """Return the question what a column of figures is: one of some heads, or a tag."""
    if not heads:
        return Sentence('it has figures: a tag of the plant, or "" if it isn\'t to be read')
    form = 'it has figures: one of {heads}, or "" if it isn\'t to be read'
    return Sentence(form, heads=Joined(", ", heads))


def no_unit(least: Decimal, most: Decimal, choices: Iterable[str]) -> Sentence:
    """Return the question in which unit figures are."""
    form = "no unit is given for {least} to {most}: {choices}"
    return Sentence(form, least=least, most=most, choices=Joined(", ", choices))


def unit_of_book(units: Collection[str]) -> Sentence:
    """Return in which unit figures are read that have none, but whose meters have one in the book."""
    one = "the file has no unit, and the book has {units} for each of these meters"
    several = "the file has no unit, and each figure is read in that which the book has for its meter: {units}"
    return Sentence(one if len(units) == 1 else several, units=Joined(", ", units))


def unit_of_density(units: Iterable[str]) -> Sentence:
    """Return the question in which unit the errors of densities are."""
    form = "no unit is given, and the densities are in {units}: kg/m3, or the same"
    return Sentence(form, units=Joined(", ", units))


def as_densities(least: Decimal, most: Decimal, unit: str) -> Sentence:
    """Return why figures are densities in a unit."""
    form = "from {least} to {most}, as densities in {unit} are"
    return Sentence(form, least=least, most=most, unit=unit)


def as_millimetres(most: Decimal) -> Sentence:
    """Return why levels are in millimetres."""
    form = "whole numbers up to {most:,}: in cm that would be {metres:,} m"
    return Sentence(form, most=most, metres=most / 100)


def of_columns(said: str, count: int) -> Sentence:
    """Return what is said of several columns."""
    return Sentence("{said} ({count} columns)", said=phrase(said), count=count)


def several(first: str, *others: str) -> str:
    """Return reasons one after another, without those that are empty."""
    return Joined("; ", [phrase(each) for each in (first, *others) if each])
