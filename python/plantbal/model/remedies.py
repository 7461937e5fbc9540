"""What to do about a refused row, by the reason, and by what the session has by then."""

from __future__ import annotations

import difflib
import re
from collections.abc import Callable, Iterable
from dataclasses import dataclass
from typing import TYPE_CHECKING

from plantbal.model.causes import Reason, Refused
from plantbal.model.forms import (
    DATE,
    FIRST_DAY,
    LAST_DAY,
    LIMITS,
    NAME,
    ROWS,
    ROWS_OF,
    day_number,
    day_of_number,
    rows_of_kind,
    word_of,
)
from plantbal.model.meant import day_meant, number_meant
from plantbal.model.plant import ENV, most_streams
from plantbal.schema import schema
from plantbal.sentence import Day, Sentence, phrase

if TYPE_CHECKING:
    from plantbal.model.state import State


@dataclass(frozen=True, slots=True)
class Remedy:
    """What to do about a refused row.

    Attributes
    ----------
    text : str
        The remedy; empty for that of the code.
    says_form : bool
        Whether it says what the field has to be, rather than what to write in its place.
    """

    text: str = ""
    says_form: bool = False


_DECLARE = "declare it in a row before this one, or correct the name"
_STREAM_AT = "name a stream that leads to it or from it"
_ANOTHER = "begin another session, with the plant's rows again"
_CHOOSE = "choose another name, or leave this row out"
_ONE_OF_TWO = "leave one of the two out"
_CORRECT_DATE = "correct the date, or leave the row out"
# What to write for a date of service that isn't known.
_NO_END = {
    "since": f"write {FIRST_DAY} if it was always in service",
    "until": f"write {LAST_DAY} if there is no end",
}
# What to do about rows that have no `late` form.
_NEVER_LATE = {
    "assay": "an assay can't come late: put its row before the close, without `late,`",
    "amend": "an amendment needs no `late,`: take it out",
    "strike": "a strike needs no `late,`: take it out",
}
_OTHER_STREAM = {
    "metered": "a metered stream has readings: write a reading for each of its days",
    "batch": "a batch stream has transfers: write a transfer row with its days",
    "plain": "a plain stream has no facts: declare it as metered or batch, or leave this row out",
}
# What to do, by the reason, if the session's rows don't matter. The words are as in `words`.
_DO = {
    Reason.KIND_OF_VERSION_2: "boundaries are of sessions of version 2: write version,2 as the first "
    "row",
    Reason.NOT_VERSION_2: "write version,2 as the first row",
    Reason.VERSION_AFTER_ROWS: "write it as the first row",
    Reason.VERSION_AGAIN: "leave it out",
    Reason.CORE_ALONE: "the core is right; report this row as a fault of plantbal",
    Reason.FIELD_COUNT: "write {patterns}",
    Reason.SERVICE_OF_VERSION_2: "dates of service are of sessions of version 2: write version,2 as "
    "the first row",
    Reason.FACT_STRUCK: "book it anew",
    Reason.STREAM_AND_COMPONENT_SWAPPED: "exchange the two fields",
    Reason.PERIOD_AND_COMPONENT_SWAPPED: "exchange the two fields",
    Reason.NAME_TAKEN: _CHOOSE,
    Reason.PERIOD_TAKEN: _CHOOSE,
    Reason.CRITICAL_TAKEN: _ONE_OF_TWO,
    Reason.COST_TAKEN: "leave one of the two costs out",
    Reason.ID_TAKEN: "choose another id, or amend the fact",
    Reason.DAY_TAKEN: f"{_ONE_OF_TWO}, or amend the first",
    Reason.ASSAY_TAKEN: f"{_ONE_OF_TWO}: an assay can't be amended; correct it in the file",
    Reason.SERVICE_ORDER: "exchange the days",
    Reason.PERIOD_ORDER: "exchange the days",
    Reason.FACT_ORDER: "exchange the days",
    Reason.TABLE_ORDER: "write the table from bottom to top",
    Reason.WINDOW_ORDER: "exchange the periods",
    Reason.SAME_END: "give it two different ends",
    Reason.BOTH_OUTSIDE: "give it two different ends",
    Reason.DAY_SHARED: "no day may be in two periods: end one before the other begins",
    Reason.MEASURED_ALREADY: "costs are those of meters for plain streams: leave it out",
    Reason.DAY_IN_NO_PERIOD: "declare a period of the days between, or ask for a window on each "
    "side",
    Reason.PLANT_SEALED: "put it before the first close row, if no report that went out changes by "
    "it; else begin a new session with the changed plant",
    Reason.CLOSED_ALREADY: _ONE_OF_TWO,
    Reason.TOUCHES_CLOSED: "write `late,` before the row",
    Reason.ASSAY_OF_CLOSED: "put it before the close: an assay can't come late",
    Reason.PERIOD_LONG: "split it",
    Reason.TRANSFER_LONG: "split it",
    Reason.WINDOW_LONG: "at most {most} may be: ask for two windows",
    Reason.PERIOD_OUT_OF_SERVICE: "correct the period, or leave the row out",
    Reason.TABLE_EMPTY: "write its strap rows before this row",
    Reason.LEVEL_OUTSIDE: "look for a digit too many, or add points",
    Reason.NODES_FULL: "merge units that have no meter between them",
    Reason.BOUNDARIES_FULL: "streams over one border may share a boundary",
    Reason.POINTS_FULL: "leave points out that lie on a line",
    Reason.PERIODS_FULL: _ANOTHER,
    Reason.ASSAYS_FULL: _ANOTHER,
    Reason.FACTS_FULL: _ANOTHER,
    Reason.WINDOW_FULL: "ask for fewer periods at once",
}


def remedy_of(state: State, record: tuple[str, ...], refused: Refused) -> Remedy:
    """Return what to do about a refused record, after the rows of a session."""
    reason = refused.reason
    if reason in _DO:
        return Remedy(Sentence(_DO[reason], **refused.values))
    if reason in _FORMS:
        return _FORMS[reason](refused)
    return Remedy(_REMEDIES[reason](state, record, refused))


def nearest(name: str, names: Iterable[str]) -> str:
    """Return which of some names is nearly a name, or nothing."""
    near = difflib.get_close_matches(name, list(names), n=1, cutoff=0.7)
    if not near:
        near = [each for each in names if each.lower() == name.lower()][:1]
    return near[0] if near else ""


def kind_near(text: str) -> str:
    """Return the kind of row that a text is, but for its spelling, or nothing."""
    return text if text in ROWS else nearest(text.strip(), sorted(ROWS))


def _near(name: str, names: Iterable[str]) -> str:
    """Return `did you mean ..` for a name that is nearly one of these, or nothing."""
    near = nearest(name, names)
    return Sentence("did you mean {near}?", near=near) if near else ""


# ---- kinds and words


def _of_kind(state: State, record: tuple[str, ...], refused: Refused) -> str:
    words = sorted(ROWS_OF[state.version])
    remedy = _no_kind(record[0]) or _near(record[0], words)
    return remedy or Sentence("a row begins with one of {words}", words=", ".join(words))


def _no_kind(first: str) -> str:
    """Return what to do about a row by its first field, which is no kind, or nothing."""
    plain = first.strip()
    if plain.startswith(("#", "//", "%")):
        return "a session has no comments: take the line out"
    if plain != first and plain in ROWS:
        return Sentence("take the space beside {plain!r} out", plain=plain)
    if "," in first and first.split(",")[0] in ROWS:
        return "the whole row is in double quotes: take them out"
    if not first:
        return "a row begins with its kind: take the comma in front out, or the row"
    if plain.lower() in ("jetty", "port", "rail", "pipeline", "terminal", "border"):
        return "in a session of version 2 a row boundary,NAME declares one"
    if first in schema().output:
        return "plantbal writes rows of this kind, and reads none: is this an output?"
    return ""


def _of_word(state: State, record: tuple[str, ...], refused: Refused) -> str:
    if record[0] == "late" and refused.text in _NEVER_LATE:
        return _NEVER_LATE[refused.text]
    words = list(dict.fromkeys(word_of(row)[0] for row in rows_of_kind(record[0])))
    return _near(refused.text, words) or Sentence(
        "write {words} or {last}", words=", ".join(words[:-1]), last=words[-1]
    )


# ---- forms


def _form_of_reason(refused: Refused) -> Remedy:
    said = refused.text
    form = "1 to {most} plain characters, from the space to ~"
    if len(said) > LIMITS["most_reason"]:
        form = "1 to {most} plain characters, from the space to ~, and has {count}"
    elif said:
        form = (
            "1 to {most} plain characters, from the space to ~, without umlauts, accents and line "
            "ends"
        )
    remedy = Sentence(form, most=LIMITS["most_reason"], count=len(said))
    return Remedy(remedy, True)


# What a name has to be, and what is added by what is wrong with a text.
NAME_FORM = f"1 to {LIMITS['most_name']} letters, digits, `_`, `-` or `.`"
NAME_LETTERS = f"{NAME_FORM}, without umlauts and accents"
NAME_LONG = f"{NAME_FORM}, and has {{count}} characters"
NAME_SUCH = f"{NAME_FORM}, such as {{plain}}"


def _form_of_name(refused: Refused) -> Remedy:
    said = refused.text
    plain = re.sub(r"[^A-Za-z0-9_.-]+", "_", said.strip())
    if not said.isascii():
        return Remedy(NAME_LETTERS, True)
    if len(said) > LIMITS["most_name"]:
        return Remedy(Sentence(NAME_LONG, count=len(said)), True)
    if plain != said and NAME.fullmatch(plain) and plain.strip("_"):
        return Remedy(Sentence(NAME_SUCH, plain=plain), True)
    return Remedy(NAME_FORM, True)


def _is_beyond(text: str) -> bool:
    """Say whether a text writes a day of a year that no date may have, such as 9999-12-31."""
    years = range(LIMITS["first_year"], LIMITS["last_year"] + 1)
    return DATE.fullmatch(text) is not None and int(text[:4]) not in years


def _with(form: str, meant: str) -> str:
    """Return what a field has to be, and what was probably meant by it."""
    return Sentence("{form}; {meant}", form=phrase(form), meant=phrase(meant)) if meant else form


def _form_of_date(refused: Refused) -> Remedy:
    said = refused.text
    if (not said or _is_beyond(said)) and refused.column in _NO_END:
        return Remedy(_NO_END[refused.column])
    meant = day_meant(said)
    if meant.writes:
        return Remedy(meant.text)
    first, last = LIMITS["first_year"], LIMITS["last_year"]
    remedy = Sentence(
        "a day of the calendar, of the years {first} to {last}, such as 2024-03-01",
        first=first,
        last=last,
    )
    return Remedy(_with(remedy, meant.text), True)


# A unit that people think in, how many of the column's own it has, and what these are called.
_SCALES = {
    "grams": [("tonnes", 1_000_000, "grams")],
    "value": [("ones, as tables have it", 1000, "thousandths")],
    "density": [
        ("tonnes per cubic metre", 1_000_000, "grams per cubic metre"),
        ("kilograms per cubic metre", 1000, "grams per cubic metre"),
    ],
    "mm": [("metres", 1000, "millimetres")],
    "ml": [("cubic metres", 1_000_000, "millilitres")],
    "ppm": [("percent", 10_000, "parts per million")],
}
# Units that may stand after a number, and how many of the column's own each has.
_UNITS = {
    "grams": {"t": 1_000_000, "kg": 1000, "g": 1},
    "density": {"kg/m3": 1000, "g/m3": 1, "t/m3": 1_000_000},
    "mm": {"m": 1000, "cm": 10, "mm": 1},
    "ml": {"m3": 1_000_000, "l": 1000, "ml": 1},
    "ppm": {"%": 10_000, "kg/t": 1000, "g/t": 1, "ppm": 1},
}


def _form_of_number(refused: Refused) -> Remedy:
    name, text = refused.column, refused.text
    low, high = int(refused.values["low"]), int(refused.values["high"])
    if low == high:
        return Remedy(Sentence("write {low}: a plain stream has no variance", low=low))
    found = number_meant(text, low, high, _SCALES.get(name, ()), _UNITS.get(name, {}))
    if found.writes:
        return Remedy(found.text)
    meant = found.text
    if not text and name == "grams":
        meant = "if there is no figure, leave the row out"
    elif not meant and name == "cost" and re.fullmatch(r"[0-9]+[.,][0-9]+", text):
        meant = "costs may be in any unit, such as cents"
    range_ = Sentence("a whole number in digits alone, {low:,} to {high:,}", low=low, high=high)
    return Remedy(_with(range_, meant), True)


_FORMS: dict[Reason, Callable[[Refused], Remedy]] = {
    Reason.NO_REASON: _form_of_reason,
    Reason.NO_NAME: _form_of_name,
    Reason.NO_DATE: _form_of_date,
    Reason.NO_NUMBER: _form_of_number,
}


# ---- names


def _of_name(state: State, record: tuple[str, ...], refused: Refused) -> str:
    """Return what to do about a name of nothing, or of something else than what is wanted."""
    plant, name = state.plant, refused.text
    streams, tanks = plant.stream_names(), list(plant.tables)
    wanted = {
        "tank": tanks,
        "stream": streams,
        "stream or tank": [*streams, *tanks],
    }
    ends = [ENV, *plant.nodes, *plant.boundaries]
    near = _near(name, wanted.get(str(refused.values["wanted"]), ends))
    if refused.reason is Reason.NAME_UNKNOWN:
        return near or _DECLARE
    return near or _other_name(record, refused)


def _other_name(record: tuple[str, ...], refused: Refused) -> str:
    """Return what to name in place of something else of the plant."""
    wanted, there = refused.values["wanted"], refused.values["there"]
    if wanted == "tank":
        if there in ("unit", "tank"):
            return "name a tank, or declare it by a tank row in place of its unit row"
        is_stream = there in ("metered", "batch", "plain")
        return "name the tank at one of its ends" if is_stream else "name a tank"
    if wanted == "stream" and there == "tank":
        if record[0] == "advise":
            return "leave it out: a tank is measured by its dips"
        return "name a stream, or write a dip row: a tank has dips"
    if wanted in ("stream", "stream or tank"):
        return _STREAM_AT
    return "name the unit or tank at which it ends"


def _of_period(state: State, record: tuple[str, ...], refused: Refused) -> str:
    periods, day = state.periods.by_name, day_number(refused.text)
    if day is not None:
        for period in periods.values():
            if period.first <= day <= period.last:
                return Sentence("write {name}, the period of this day", name=period.name)
    return _near(refused.text, periods) or _DECLARE


def _of_assay(state: State, record: tuple[str, ...], refused: Refused) -> str:
    there = dict.fromkeys(component for component, _, _ in state.assays)
    near = _near(refused.text, [name for name in there if name != refused.text])
    return near or "write its assay rows before this row"


# Among more facts than this no id is looked for that is nearly one.
_MOST_NEAR = 5000


def _of_fact(state: State, record: tuple[str, ...], refused: Refused) -> str:
    name = refused.text
    if any(component == name for component, _, _ in state.assays):
        return "if an assay is meant: it can't be amended or struck; correct its own row"
    there = state.plant.kind_of(name)
    if there:
        from plantbal.model.words import a_thing

        words = {"name": name, "there": a_thing(there)}
        return Sentence("{name} is {there}: name a fact by its id", **words)
    near = _near(name, state.facts.ids()) if len(state.facts) < _MOST_NEAR else ""
    return near or "correct the id, or book the fact in a row before this one"


# ---- days and limits


def _of_seal(state: State, record: tuple[str, ...], refused: Refused) -> str:
    after = day_of_number(int(refused.values["after"]))
    return Sentence(
        "give it dates of service after the closed periods: SINCE {after} or later, and UNTIL "
        "{last_day} if there is no end",
        after=after,
        last_day=LAST_DAY,
    )


def _of_stream_kind(state: State, record: tuple[str, ...], refused: Refused) -> str:
    return _OTHER_STREAM[str(refused.values["there"])]


def _of_values(state: State, record: tuple[str, ...], refused: Refused) -> str:
    if refused.values["there"] == "dip":
        return "give it a level, a density and a variance"
    return "give it an amount and a variance"


def _of_service(state: State, record: tuple[str, ...], refused: Refused) -> str:
    values = refused.values
    since = int(values["since"])
    if values["of"] in state.plant.tables and int(values["day"]) < since:
        eve = day_of_number(since - 1)
        form = (
            "correct the date, or leave the row out; the first dip may be of {eve}, the day before"
        )
        return Sentence(form, eve=Day(eve))
    return _CORRECT_DATE


def _of_streams(state: State, record: tuple[str, ...], refused: Refused) -> str:
    if refused.values["version"] == 2:
        return "split the plant into two sessions"
    return Sentence("write version,2 as the first row: {most:,} may be then", most=most_streams(2))


_REMEDIES: dict[Reason, Callable[[State, tuple[str, ...], Refused], str]] = {
    Reason.NO_SUCH_KIND: _of_kind,
    Reason.NO_SUCH_WORD: _of_word,
    Reason.NAME_UNKNOWN: _of_name,
    Reason.NAME_OF_OTHER: _of_name,
    Reason.PERIOD_UNKNOWN: _of_period,
    Reason.ASSAY_UNKNOWN: _of_assay,
    Reason.FACT_UNKNOWN: _of_fact,
    Reason.DAYS_SEALED: _of_seal,
    Reason.FACT_OF_OTHER_KIND: _of_stream_kind,
    Reason.VALUES_OF_OTHER_KIND: _of_values,
    Reason.DAY_OUT_OF_SERVICE: _of_service,
    Reason.STREAMS_FULL: _of_streams,
}
