"""The sentences about a refused row: what is wrong with it, and what to do.

They are made from the answer to the row, and from what the session has by then. Nothing reads them:
what decides looks at `Refused.reason` and its values. The remedies are made by
`plantbal.model.remedies`.
"""

from __future__ import annotations

from collections.abc import Callable
from typing import TYPE_CHECKING

from plantbal.faults import Refusal
from plantbal.model.causes import Reason, Refused
from plantbal.model.forms import day_text
from plantbal.model.plant import ENV
from plantbal.model.remedies import remedy_of
from plantbal.schema import schema
from plantbal.sentence import Day, Sentence, counted

if TYPE_CHECKING:
    from plantbal.model.state import State

# Values that are words of rows and kinds, not names.
_WORDS = ("there", "wanted", "kind", "things")
# How many fields say which row it is, of kinds that need more than two.
_FIELDS_OF_HEAD = {"late": 3, "window": 3, "component": 3, "assay": 4}

# What is wrong, by the reason. `text` is what stands in the field at fault, `label` the name that
# the guide has for the field, and the other words are the values of the answer.
_SAID = {
    Reason.NO_SUCH_KIND: "there is no kind of row {text!r}",
    Reason.KIND_OF_VERSION_2: "there is no kind of row {text!r}",
    Reason.NOT_VERSION_2: "it isn't the row version,2",
    Reason.VERSION_AFTER_ROWS: "rows are stored before it",
    Reason.VERSION_AGAIN: "this session is of version 2 already",
    Reason.NO_SUCH_WORD: "field {field} is {text!r}",
    Reason.FIELD_COUNT: "it has {fields} fields",
    Reason.SERVICE_OF_VERSION_2: "it has {fields} fields",
    Reason.NAME_UNKNOWN: "there is no {wanted} {text}",
    Reason.NAME_OF_OTHER: "{text} is {a_there}, not a {wanted}",
    Reason.PERIOD_UNKNOWN: "there is no period {text}",
    Reason.FACT_UNKNOWN: "there is no fact {text}",
    Reason.FACT_STRUCK: "{text} was struck",
    Reason.ASSAY_UNKNOWN: "there is no assay of {text} in {period}",
    Reason.STREAM_AND_COMPONENT_SWAPPED: "there is no stream or tank {text}, "
    "and {component} is one",
    Reason.PERIOD_AND_COMPONENT_SWAPPED: "there is no period {text}, and {component} is one",
    Reason.PERIOD_TAKEN: "period {text} already exists",
    Reason.COST_TAKEN: "{text} has a cost already",
    Reason.DAY_TAKEN: "{of} has a {kind} of {text} already",
    Reason.ASSAY_TAKEN: "{text} has an assay of {component} in {period} already",
    Reason.SERVICE_ORDER: "its first day in service is after its last",
    Reason.PERIOD_ORDER: "its first day is after its last",
    Reason.FACT_ORDER: "its first day is after its last",
    Reason.TABLE_ORDER: "{label} is {text}, and the table's last point has {last}",
    Reason.WINDOW_ORDER: "period {text} begins before period {first}",
    Reason.SAME_END: "it leads from {from} to itself",
    Reason.BOTH_OUTSIDE: "{from} and {text} are both the world outside",
    Reason.DAY_SHARED: "it shares a day with period {period}",
    Reason.MEASURED_ALREADY: "{text} is a {there} stream, which is measured already",
    Reason.DAY_IN_NO_PERIOD: "{day} is in no period, between {before} and {after}",
    Reason.FACT_OF_OTHER_KIND: "{text} is a {there} stream",
    Reason.VALUES_OF_OTHER_KIND: "{text} is a {there}",
    Reason.PLANT_SEALED: "period {period} is closed, and the plant can no longer change",
    Reason.DAYS_SEALED: "period {period} is closed, and it is in service on days of it",
    Reason.CLOSED_ALREADY: "period {text} is closed already",
    Reason.TOUCHES_CLOSED: "it touches period {period}, which is closed",
    Reason.ASSAY_OF_CLOSED: "period {text} is closed",
    Reason.PERIOD_LONG: "it has {days} days, and at most {most} may be",
    Reason.TRANSFER_LONG: "it has {days} days, and at most {most} may be",
    Reason.WINDOW_LONG: "{count} periods are from {first} to {text}",
    Reason.DAY_OUT_OF_SERVICE: "{of} isn't in service on {text}: it is from {service}",
    Reason.PERIOD_OUT_OF_SERVICE: "{text} is in service on no day of {period}: "
    "it is from {service}",
    Reason.TABLE_EMPTY: "the table of {tank} has no point",
    Reason.LEVEL_OUTSIDE: "MM is {text}, and the table of {tank} goes from {low} to {high}",
    Reason.NODES_FULL: "{count:,} units and tanks are the limit",
    Reason.STREAMS_FULL: "{count:,} streams and tanks are the limit",
    Reason.BOUNDARIES_FULL: "{count} boundaries are the limit",
    Reason.POINTS_FULL: "the table of {tank} has {count:,} points, which is the limit",
    Reason.PERIODS_FULL: "{count:,} periods are the limit",
    Reason.ASSAYS_FULL: "{count:,} assays are the limit",
    Reason.FACTS_FULL: "{count:,} readings, transfers and dips are the limit",
    Reason.CORE_ALONE: "the proved core refuses it, and the rules of this package {own}",
    Reason.WINDOW_FULL: "it would have {count:,} {things}, and at most {most:,} may be",
}


def refusal_of(state: State, record: tuple[str, ...], refused: Refused) -> Refusal:
    """Return the refusal of a record, in words.

    Parameters
    ----------
    state : State
        The session before the record.
    record : tuple of str
        The record, without empty fields at its end.
    refused : Refused
        The answer to it.
    """
    what, cause, advice = said_of(record, refused), refused.cause, remedy_of(state, record, refused)
    count = _FIELDS_OF_HEAD.get(record[0], 2)
    head = " ".join(field for field in record[:count] if field).strip()
    return Refusal(
        f"{head}: {what} (refused {cause.said})",
        code=int(cause),
        word=cause.word,
        column=refused.column,
        row=record,
        head=head,
        said=what,
        text=refused.text,
        remedy=advice.text or schema().refusals[cause].remedy.rstrip("."),
        refused=refused,
        says_form=advice.says_form,
    )


def said_of(record: tuple[str, ...], refused: Refused) -> str:
    """Return what is wrong with a record, as a sentence without its full stop."""
    make = _SAYS.get(refused.reason)
    if make is not None:
        return make(record, refused)
    values: dict[str, object] = dict(refused.values)
    if "there" in values:
        values["a_there"] = a_thing(str(values["there"]))
    for name in _WORDS:
        if name in values:
            values[name] = Sentence(str(values[name]))
    if "since" in values:
        since, until = (Day(day_text(int(refused.values[end]))) for end in ("since", "until"))
        values["service"] = Sentence("{since} to {until}", since=since, until=until)
    values |= {"text": refused.text, "label": refused.column.upper(), "fields": len(record)}
    return Sentence(_SAID[refused.reason], **values)


def a_thing(kind: str) -> str:
    """Return what a name stands for, such as ``a unit``, by `Plant.kind_of`."""
    if kind == ENV:
        return Sentence("the world outside")
    if kind in _THINGS:
        return Sentence(_THINGS[kind])
    return Sentence("a {kind}", kind=kind)


_THINGS = {
    kind: f"a {kind} stream" if kind in ("metered", "batch", "plain") else f"a {kind}"
    for kind in ("metered", "batch", "plain", "unit", "tank", "boundary", "dip", "reading")
}


# What is said of a field that isn't of its form: of one with a text, and of an empty one.
FORM_OF_TEXT = "{label} is {text!r}"
FORM_OF_NOTHING = "{label} is empty"


def _of_form(record: tuple[str, ...], refused: Refused) -> str:
    said = FORM_OF_TEXT if refused.text else FORM_OF_NOTHING
    return Sentence(said, label=refused.values["label"], text=refused.text)


def _of_name(record: tuple[str, ...], refused: Refused) -> str:
    form = "{text} is {what}" if refused.text == ENV else "{text} is {what} already"
    return Sentence(form, text=refused.text, what=a_thing(str(refused.values["there"])))


def _of_critical(record: tuple[str, ...], refused: Refused) -> str:
    test, dof = refused.values["test"], refused.values["dof"]
    if test != "global":
        if test == "nodal":
            return Sentence("nodal tests have a critical value already")
        return Sentence("measurement tests have a critical value already")
    return counted(
        int(dof),
        "the global test has a critical value for 1 degree of freedom already",
        "the global test has a critical value for {count} degrees of freedom already",
    )


def _of_id(record: tuple[str, ...], refused: Refused) -> str:
    values = refused.values
    form = "the id {text} is that of a {kind} of {of}"
    if values["struck"]:
        form = "the id {text} is that of a struck {kind} of {of}"
    return Sentence(form, text=refused.text, kind=Sentence(str(values["kind"])), of=values["of"])


_SAYS: dict[Reason, Callable[[tuple[str, ...], Refused], str]] = {
    Reason.NO_NAME: _of_form,
    Reason.NO_REASON: _of_form,
    Reason.NO_NUMBER: _of_form,
    Reason.NO_DATE: _of_form,
    Reason.NAME_TAKEN: _of_name,
    Reason.CRITICAL_TAKEN: _of_critical,
    Reason.ID_TAKEN: _of_id,
}
