"""What a browser needs to judge a grid's cells by itself with the program's core: rows, places, words.

The rows are the least of a book's year that judges a cell rightly. A reading or a dip is judged by
the declarations, the periods and which of them are closed, and by no other fact: that a day has a
figure already the page knows by its cell. Of a ticket the ids of the year's transfers count too. So
a year of 200,000 readings gives as few rows as one of none.

The core answers a row with a code. Each sentence for a code is made here by the functions that make
the server's own, with a mark in place of what will be typed; the page fills the marks in.
"""

from __future__ import annotations

import datetime
from collections.abc import Iterator, Sequence
from fractions import Fraction
from typing import Any

from django.utils import formats

from plantbal import limits
from plantbal.book.ledger import rows_text
from plantbal.book.looking import BookMonth, BookStream, MonthFacts, Vessel
from plantbal.model.causes import Reason, Refused, Values
from plantbal.model.forms import LIMITS, day_text, label_of
from plantbal.model.plant import Service
from plantbal.model.remedies import NAME_FORM, NAME_LETTERS, NAME_LONG, NAME_SUCH
from plantbal.model.state import State
from plantbal.model.words import FORM_OF_NOTHING, FORM_OF_TEXT, refusal_of
from plantbal.schema import schema
from plantbal.sentence import Sentence
from plantbal.workbook import celldays, cells, locales, units
from plantbal.workbook.causes import SheetCause
from plantbal.workbook.remedies import CellRemedy, OptionRemedy
from plantbal.workbook.sheets import EPOCH
from plantbal_office.causes import GridCause, GridRemedy
from plantbal_office.enter.judging import ENOUGH, FAR, WHY, free_id, typed_row
from plantbal_office.enter.typed import MOST_CELLS
from plantbal_office.plants.models import Plant
from plantbal_office.sentences import refusal_said, said
from plantbal_office.shelf import book_contents, period_facts

# The form of what is given: a script that knows another one asks the server for each cell.
FORM = 1
JUDGED = ("readings", "dips", "tickets")
# More transfers of a year than this aren't given to a page.
MOST_TICKETS = 20_000
_PLANT = ("version", "boundary", "unit", "tank", "stream")
_TEXT = "{text}"
_SHEET = (
    SheetCause.NO_FIGURE,
    SheetCause.FORMULA_FAILS,
    SheetCause.MARK_OF_OTHER_LOCALE,
    SheetCause.NO_UNIT_OF_KIND,
    SheetCause.NO_DENSITY_OF_VOLUME,
    SheetCause.NOT_A_DENSITY,
    SheetCause.LEVEL_WITHOUT_UNIT,
    SheetCause.NO_DAY,
    SheetCause.NOT_A_DAY,
    SheetCause.TIME_OF_DAY,
    SheetCause.ZERO_WITHOUT_ERROR,
    SheetCause.DENSITY_MISSING,
)


def judging_rules(plant: Plant, month: BookMonth, kind: str, locale: str) -> dict[str, Any] | None:
    """Return what judges the cells of a grid, or None if the server has to.

    Parameters
    ----------
    plant : Plant
        The plant.
    month : BookMonth
        The month.
    kind : str
        What is typed: readings, dips or tickets.
    locale : str
        Whose numbers and days are typed.
    """
    found = period_facts(plant, month.name)
    state = found.state
    is_full = len(state.facts) + MOST_CELLS > LIMITS["most_facts"]
    if kind not in JUDGED or is_full:
        return None
    tickets: dict[str, list[str]] = {}
    if kind == "tickets":
        transfers = [each for each in state.facts if each.kind == "transfer"]
        if len(transfers) > MOST_TICKETS:
            return None
        tickets = {each.id: [each.of, "struck" if each.struck else ""] for each in transfers}
    contents = book_contents(plant)
    places: list[BookStream | Vessel] = [
        *contents.flows[month.year],
        *contents.vessels[month.year],
    ]
    return {
        "form": FORM,
        "kind": kind,
        "month": month.name,
        "rows": rows_text(_rows(found, kind)),
        "places": [_place(each) for each in places],
        "figures": _figures(found, places) if kind == "readings" else {},
        "refused": _refused(found, month, kind, places),
        "tickets": tickets,
        "sentences": _sentences(state, kind, places),
        "reading": _reading(locale),
        "words": _words(),
    }


def _rows(found: MonthFacts, kind: str) -> Iterator[Sequence[str]]:
    """Give the rows that declare, tables of tanks for dips alone; then which periods are closed."""
    kinds = (*_PLANT, "strap") if kind == "dips" else _PLANT
    yield from (row for row in found.plant if row[0] in kinds)
    periods = list(found.state.periods.by_name.values())
    for each in periods:
        yield "period", each.name, day_text(each.first), day_text(each.last)
    yield from (("close", each.name) for each in periods if each.closed)


def _place(place: BookStream | Vessel) -> dict[str, Any]:
    """Return a stream or tank with its meter."""
    meter = place.meter
    error = meter.error if meter is not None else None
    return {
        "name": place.name,
        "tag": meter.tag if meter is not None else "",
        "kind": place.kind if isinstance(place, BookStream) else "tank",
        "unit": meter.unit if meter is not None else "",
        "density": _exact(meter.density) if meter is not None and meter.density else "",
        "share": _exact(error.share) if error is not None else "0/1",
        "grams": _exact(error.grams) if error is not None else "0/1",
    }


def _exact(number: Fraction) -> str:
    return f"{number.numerator}/{number.denominator}"


def _figures(
    found: MonthFacts, places: Sequence[BookStream | Vessel]
) -> dict[str, list[list[str]]]:
    """Return the grams that are booked of each meter, by days: their median says what is far."""
    figures: dict[str, list[list[str]]] = {
        each.name: [] for each in places if isinstance(each, BookStream) and each.kind == "metered"
    }
    for each in found.facts:
        if not each.struck and each.fact.place in figures:
            figures[each.fact.place].append([str(each.fact.first), str(each.fact.values[0])])
    return figures


# ---- sentences


def _said(state: State, reason: Reason, column: str, values: Values, text: str = _TEXT) -> str:
    """Return the sentence of a refusal, with marks for what will be typed."""
    refused = Refused(reason, column, text, values)
    return refusal_said(refusal_of(state, ("", free_id(state)), refused))


def _refused(
    found: MonthFacts, month: BookMonth, kind: str, places: Sequence[BookStream | Vessel]
) -> dict[str, Any]:
    """Return for each place and day on which any figure is refused the code, and which sentence is said."""
    state = found.state
    days = range(month.first.toordinal() - (kind == "dips"), month.last.toordinal() + 1)
    refused: dict[str, dict[str, tuple[int, int]]] = {}
    sentences: dict[str, int] = {}
    told: dict[object, int] = {}
    for place in places if kind != "tickets" else ():
        is_tank = isinstance(place, Vessel)
        points = state.plant.tables.get(place.name, [])
        if is_tank != (kind == "dips"):
            continue
        if isinstance(place, BookStream) and place.kind != "metered":
            continue
        level = str(points[0][0]) if points else "0"
        values = (level, "1", "1") if is_tank else ("1", "1")
        for number in days:
            day = datetime.date.fromordinal(number)
            fields = typed_row(state, "dip" if is_tank else "reading", place.name, day, values)
            answer = state.judge(fields)
            if isinstance(answer, Refused):
                key = answer.reason, answer.text, *answer.values.items()
                if key not in told:
                    sentence = refusal_said(refusal_of(state, fields, answer))
                    told[key] = sentences.setdefault(sentence, len(sentences))
                refused.setdefault(place.name, {})[str(day)] = int(answer.cause), told[key]
    return {"places": refused, "said": list(sentences)}


def _sentences(state: State, kind: str, places: Sequence[BookStream | Vessel]) -> dict[str, Any]:
    """Return the sentences of what depends on the figure that is typed."""
    word = {"readings": "reading", "dips": "dip", "tickets": "transfer"}[kind]
    row = next(each for each in schema().session if each.kind == word)
    numbers = [
        {
            "name": each.name,
            "low": str(each.low),
            "high": str(each.high),
            "said": _said(
                state,
                Reason.NO_NUMBER,
                each.name,
                {"label": label_of(each), "low": each.low or 0, "high": each.high or 0},
            ),
        }
        for each in row.columns
        if each.type == "number"
    ]
    found: dict[str, Any] = {"numbers": numbers}
    if kind == "dips":
        found["levels"] = {
            each.name: _of_level(state, each.name) for each in places if isinstance(each, Vessel)
        }
    if kind == "tickets":
        found |= _of_tickets(state, places)
    return found


def _of_level(state: State, tank: str) -> str:
    """Return what is said of a level that the table of a tank hasn't."""
    points = state.plant.tables.get(tank, [])
    if not points:
        return _said(state, Reason.TABLE_EMPTY, "tank", {"tank": tank}, tank)
    ends: Values = {"tank": tank, "low": points[0][0], "high": points[-1][0]}
    return _said(state, Reason.LEVEL_OUTSIDE, "mm", ends)


def _of_tickets(state: State, places: Sequence[BookStream | Vessel]) -> dict[str, Any]:
    """Return what is said of a ticket: of its id, its days, its stream."""
    long: Values = {"days": "{days}", "most": LIMITS["most_days_of_transfer"]}
    taken: list[Values] = [
        {"kind": "transfer", "of": "{of}", "struck": struck} for struck in (False, True)
    ]
    streams = [each for each in places if isinstance(each, BookStream)]
    return {
        "name": {
            "text": said(FORM_OF_TEXT),
            "nothing": said(FORM_OF_NOTHING),
            "form": said(NAME_FORM),
            "letters": said(NAME_LETTERS),
            "long": said(NAME_LONG),
            "such": said(NAME_SUCH),
            "most": LIMITS["most_name"],
        },
        "day": {
            name: _said(state, Reason.NO_DATE, name, {"label": name.upper()})
            for name in ("first", "last")
        },
        "taken": [_said(state, Reason.ID_TAKEN, "id", each) for each in taken],
        "order": _said(state, Reason.FACT_ORDER, "first", {}),
        "closed": _said(state, Reason.TOUCHES_CLOSED, "", {"period": "{period}"}),
        "long": _said(state, Reason.TRANSFER_LONG, "last", long),
        "long_days": LIMITS["most_days_of_transfer"],
        "years": [LIMITS["first_year"], LIMITS["last_year"]],
        "kind": {
            each.name: _said(
                state, Reason.FACT_OF_OTHER_KIND, "stream", {"there": each.kind}, each.name
            )
            for each in streams
            if each.kind == "plain"
        },
        "service": {
            each.name: _of_service(state, each.name, each.service)
            for each in streams
            if each.service is not None
        },
    }


def _of_service(state: State, name: str, service: Service) -> list[str]:
    """Return the days of service of a stream, and what is said of another day."""
    assert service is not None
    days = {"since": service[0], "until": service[1], "day": service[1] + 1}
    said = _said(state, Reason.DAY_OUT_OF_SERVICE, "first", {"of": name, **days})
    return [day_text(service[0]), day_text(service[1]), said]


# ---- how a cell is read


def _reading(locale: str) -> dict[str, Any]:
    """Return how figures, units and days of a locale are read."""
    exact = {
        name: {unit: _exact(factor) for unit, factor in some.items()}
        for name, some in (
            ("amounts", units.AMOUNTS),
            ("volumes", units.VOLUMES),
            ("lengths", units.LENGTHS),
            ("densities", units.DENSITIES),
        )
    }
    known = (*units.AMOUNTS, *units.DENSITIES, *units.LENGTHS, *units.GRADES, *units.TEMPERATURES)
    own = locales.check_locale(locale)
    return {
        "locale": own,
        "marks": locales.symbols(own),
        "others": [
            [name, said(Sentence(mark)), *locales.symbols(name)]
            for name, mark in cells.MARKS.items()
        ],
        "order": locales.day_order(own),
        "months": locales.month_names(own),
        "epoch": str(EPOCH),
        "serials": celldays.SERIALS,
        "units": exact
        | {
            "known": known,
            "words": units.OTHER_WORDS,
            "wet": list(units.WET),
            "megalitres": units.MEGALITRES,
        },
        "tons": cells.OTHER_TONS,
        "missing": sorted(cells.MISSING),
        "digits": limits.DIGITS,
        "density": cells.PLAIN_DENSITY,
        "far": FAR,
        "enough": ENOUGH,
        "why": WHY,
        "shown": [
            formats.get_format("THOUSAND_SEPARATOR"),
            formats.get_format("DECIMAL_SEPARATOR"),
        ],
    }


def _words() -> dict[str, str]:
    """Return the sentences of causes and remedies by their names."""
    enums = (*_SHEET, *GridCause, *CellRemedy, *GridRemedy)
    return {each.name: said(str(each.value)) for each in enums} | {
        "OWN_LOCALE": said(str(OptionRemedy.OWN_LOCALE.value))
    }
