"""Judges a cell of the grid as it is typed, by the rules that a workbook and a session have.

The text is read by the reader of workbooks, in the unit of the meter; the row that would be booked
is judged by the model of the session, as the program would; and a figure far from the meter's
others is said to be, though it may be right. A browser that has the program's core judges by
itself, of what `plantbal_office.enter.rules` gives it; this is for the others.
"""

from __future__ import annotations

import datetime
from dataclasses import dataclass
from fractions import Fraction
from itertools import chain, count

from plantbal.book.looking import BookMonth, BookStream, MonthFacts, Vessel
from plantbal.book.naming import cell_of
from plantbal.faults import Fault
from plantbal.model.causes import Refused
from plantbal.model.forms import day_number
from plantbal.model.state import State
from plantbal.model.words import refusal_of
from plantbal.workbook.causes import SheetCause
from plantbal.workbook.cells import Error, Reader
from plantbal.workbook.locales import check_locale
from plantbal.workbook.units import AMOUNTS
from plantbal_office.causes import GridCause, GridRemedy
from plantbal_office.look.days import place_of
from plantbal_office.plants.models import Plant
from plantbal_office.sentences import refusal_said, said
from plantbal_office.shelf import book_contents, period_facts

# A reading beyond this many times the median of its others, or below a part of it, is told.
FAR = 3
FAULT, LOOK, GOOD = "fault", "look", ""
# The fewest other days of which a median is taken.
ENOUGH = 4
# The reason of an amendment that isn't booked.
WHY = "typed"


@dataclass(frozen=True)
class Judged:
    """What is said of a cell.

    Attributes
    ----------
    level : str
        ``fault`` if it can't be booked, ``look`` if it looks wrong, empty otherwise.
    said : str
        What there is to say, as a sentence.
    grams : int or None
        What would be booked, or what the tank holds at the level.
    ml : int or None
        The volume at a level.
    """

    level: str
    said: str = ""
    grams: int | None = None
    ml: int | None = None


def judge_typed(
    plant: Plant, month: BookMonth, name: str, day: str, words: dict[str, str], locale: str
) -> Judged:
    """Return what is said of a typed reading or dip."""
    try:
        when = datetime.date.fromisoformat(day)
        place = place_of(book_contents(plant), month, name)
        found = period_facts(plant, month.name)
        reader = Reader(check_locale(locale))
        if isinstance(place, BookStream):
            return _reading(found, place, when, words.get("amount", ""), reader)
        return _dip(found, place, when, words, reader)
    except (Fault, ValueError) as error:
        return Judged(FAULT, _wrong(error))


def _wrong(error: Fault | ValueError) -> str:
    """Return what is wrong with a cell, and what to do about it."""
    if not isinstance(error, Fault):
        return str(error)
    return f"{said(error.what)}: {said(error.remedy)}" if error.remedy else said(error.what)


def _reading(
    found: MonthFacts, place: BookStream, day: datetime.date, text: str, reader: Reader
) -> Judged:
    """Return what is said of a reading."""
    meter = place.meter
    unit = meter.unit if meter is not None and meter.unit else "t"
    density = meter.density if meter is not None else None
    grams = reader.grams(cell_of(text), unit, density)
    error = meter.error if meter is not None and meter.error is not None else Error()
    if not grams and not error.grams:
        what, remedy = SheetCause.ZERO_WITHOUT_ERROR(), GridRemedy.ERROR_IN_TONNES()
        raise Fault(what.sentence, remedy=remedy.sentence)
    values = str(grams), str(error.variance(grams))
    refused = typed_refusal(found.state, typed_row(found.state, "reading", place.name, day, values))
    if refused:
        return Judged(FAULT, refused, grams)
    others = sorted(
        each.fact.values[0]
        for each in found.facts
        if each.fact.place == place.name and not each.struck and each.fact.first != day
    )
    if grams < 0:
        return Judged(LOOK, said(GridCause.RUNS_BACK().sentence), grams)
    middle = others[len(others) // 2] if len(others) >= ENOUGH else 0
    if middle > 0 and not middle <= FAR * grams <= FAR * FAR * middle:
        far = GridCause.FAR(percent=round(Fraction(100 * grams, middle)))
        return Judged(LOOK, said(far.sentence), grams)
    return Judged(GOOD, "", grams)


def _dip(
    found: MonthFacts, place: Vessel, day: datetime.date, words: dict[str, str], reader: Reader
) -> Judged:
    """Return what is said of a dip: the level, and what the tank holds then."""
    points = found.state.plant.tables.get(place.name, [])
    top = points[-1][0] if points else None
    mm = reader.level(cell_of(words.get("level", "")), top=top)
    density = reader.density(cell_of(words.get("density", "")))
    density = density or (place.meter.density if place.meter is not None else None)
    if density is None:
        what, remedy = SheetCause.DENSITY_MISSING(), GridRemedy.DENSITY_BESIDE()
        raise Fault(what.sentence, remedy=remedy.sentence)
    values = str(mm), str(round(density)), "1"
    refused = typed_refusal(found.state, typed_row(found.state, "dip", place.name, day, values))
    if refused:
        return Judged(FAULT, refused)
    ml = volume_at(points, mm)
    grams = round(Fraction(ml) * density / 10**6) if ml is not None else None
    return Judged(GOOD, "", grams, ml)


def volume_at(points: list[tuple[int, int]], mm: int) -> int | None:
    """Return the millilitres at a level, between two points of a table."""
    for (low, first), (high, second) in zip(points, points[1:]):
        if low <= mm <= high:
            return first + (second - first) * (mm - low) // (high - low)
    return None


def typed_row(
    state: State, kind: str, name: str, day: datetime.date, values: tuple[str, ...]
) -> tuple[str, ...]:
    """Return the row that books a reading or a dip, or that amends the one that the day has."""
    number = day_number(str(day))
    there = state.facts.on(name, number) if number is not None else None
    if there is not None:
        return ("amend", there.id, *values, WHY)
    return (kind, free_id(state), name, str(day), *values)


def free_id(state: State) -> str:
    """Return an id that no fact of a session has."""
    ids = chain(("typed",), (f"typed.{number}" for number in count(1)))
    return next(each for each in ids if each not in state.facts)


def typed_refusal(state: State, fields: tuple[str, ...]) -> str:
    """Return why the program would refuse a row, or nothing."""
    answer = state.judge(fields)
    return refusal_said(refusal_of(state, fields, answer)) if isinstance(answer, Refused) else ""


def judge_ticket(plant: Plant, month: BookMonth, words: dict[str, str], locale: str) -> Judged:
    """Return what is said of a typed ticket."""
    try:
        place = place_of(book_contents(plant), month, words.get("stream", ""))
        if not isinstance(place, BookStream) or place.kind == "metered":
            what = GridCause.NO_TICKETS(name=place.name)
            raise Fault(what.sentence, remedy=GridRemedy.NAME_SOLD().sentence)
        reader = Reader(check_locale(locale))
        usual = (place.meter.unit if place.meter is not None else "") or "t"
        unit = reader.unit(cell_of(words.get("unit", "")), AMOUNTS, usual)
        density = place.meter.density if place.meter is not None else None
        grams = reader.grams(cell_of(words.get("amount", "")), unit, density)
        first = reader.day(cell_of(words.get("first", "")))
        last = reader.day(cell_of(words.get("last", "") or words.get("first", "")))
        fields = (
            "transfer",
            words.get("id", ""),
            place.name,
            str(first),
            str(last),
            str(grams),
            "1",
        )
        refused = typed_refusal(period_facts(plant, month.name).state, fields)
        return Judged(FAULT if refused else GOOD, refused, grams)
    except (Fault, ValueError) as error:
        return Judged(FAULT, _wrong(error))
