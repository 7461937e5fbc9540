"""What templates have: filters for figures and days in the person's language, and the frame."""

from __future__ import annotations

import datetime
from collections.abc import Iterable
from decimal import Decimal
from typing import TYPE_CHECKING, Any

from django import template
from django.conf import settings
from django.http import HttpRequest
from django.utils import formats, timezone
from django.utils.html import format_html, format_html_join
from django.utils.safestring import SafeString
from django.utils.translation import get_language

from plantbal.accounts.posting import PostingChange
from plantbal.book.causes import change_row
from plantbal.amounts import tonnes_of, tonnes_text
from plantbal.book.ledger import number_with_commas
from plantbal.book.results import ReportState
from plantbal.faults import Fault
from plantbal.gates import Stop, said_of_stop
from plantbal_office.access import Role, rule_of
from plantbal_office.deeds.once import new_key
from plantbal_office.plants.models import Plant
from plantbal_office.sentences import (
    change_said,
    fact_error,
    fact_said,
    fault_said,
    figure,
    place_said,
    said,
)
from plantbal_office.shelf import book_contents, plain_book

if TYPE_CHECKING:
    from plantbal_office.enter.grid import GridCell

register = template.Library()


def context(request: HttpRequest) -> dict[str, Any]:
    """Return what each page has: the plant, what the person may, the languages."""
    plant = getattr(request, "plant", None)
    return {
        "plant": plant,
        "latest_month": latest_month(plant) if plant is not None else "",
        "roles": getattr(request, "roles", frozenset()),
        "languages": settings.LANGUAGES,
        "one_person": bool(settings.PLANTBAL_KEY),
    }


def in_language(text: str) -> str:
    """Return figures that have commas between thousands as the person's language writes them."""
    return figure(text)


def latest_month(plant: Plant) -> str:
    """Return the month whose statement is wanted most: the last one that has a report, or the last."""
    try:
        months = book_contents(plant).months
    except Fault:
        return ""
    reported = [each.name for each in months if each.report is not ReportState.MISSING]
    return reported[-1] if reported else months[-1].name if months else ""


@register.filter
def t(grams: int | None) -> str:
    """Return grams as tonnes, rounded as the statement has them, in the person's language."""
    return "" if grams is None else in_language(tonnes_text(grams))


@register.filter
def m3(millilitres: int | None) -> str:
    """Return a volume in cubic metres."""
    return "" if millilitres is None else in_language(tonnes_text(millilitres))


@register.filter
def exact(grams: int | None) -> str:
    """Return grams as tonnes with as many decimals as they have."""
    return "" if grams is None else in_language(number_with_commas(tonnes_of(grams)))


@register.filter
def signed(grams: int | None) -> str:
    """Return grams as tonnes with their sign."""
    text = t(grams)
    return f"+{text}" if grams is not None and grams > 0 and text.strip("0.,\xa0") else text


@register.filter
def number(value: Decimal | float | int | None, places: int = 0) -> str:
    """Return a number in the person's language."""
    if value is None:
        return ""
    return formats.number_format(round(Decimal(str(value)), places), places, force_grouping=True)


@register.filter
def percent(value: Decimal | float | int | None, places: int = 0) -> str:
    """Return a percentage in the person's language."""
    return "" if value is None else f"{number(value, places)}\xa0%"


@register.filter
def day(value: datetime.date | int | None) -> str:
    """Return a day in the person's language, short."""
    if value is None:
        return ""
    if isinstance(value, int):
        value = datetime.date.fromordinal(value)
    if (get_language() or "en").startswith("en"):
        return value.isoformat()
    return formats.date_format(value, "SHORT_DATE_FORMAT")


@register.filter
def moment(when: str | datetime.datetime) -> str:
    """Return a moment, as a journal or the desk has it, in the person's language, to the minute."""
    if isinstance(when, datetime.datetime):
        found = timezone.localtime(when)
    else:
        try:
            found = datetime.datetime.fromisoformat(when.replace("Z", "+00:00"))
        except ValueError:
            return when
    return f"{day(found.date())} {found:%H:%M}"


@register.filter
def stop(found: Stop) -> str:
    """Return what there is to look at before a close, as a sentence."""
    return said(said_of_stop(found))


register.filter("said", said)
register.filter("place", place_said)
register.filter("fault", fault_said)
register.filter("fact", fact_said)
register.filter("error", fact_error)
register.filter("change", change_said)


# How high the picture of a stream's days is, in the units of its view.
_HIGH = 30


@register.filter
def bar_top(percent: float) -> str:
    """Return where a bar begins, from above."""
    return f"{_HIGH * (1 - percent / 100):.2f}"


@register.filter
def bar_height(percent: float) -> str:
    """Return how high a bar is."""
    return f"{_HIGH * percent / 100:.2f}"


@register.filter
def bar_width(count: int) -> str:
    """Return how wide each of some bars is."""
    return f"{82 / max(1, count):.3f}"


@register.filter
def homely(text: object) -> str:
    """Return what is said of a workbook without the folder in which the desk keeps it."""
    from plantbal_office.enter.drops import without_folders

    return without_folders(str(text))


@register.filter
def figures(text: str) -> str:
    """Return figures as the package writes them, in the person's language."""
    return in_language(text)


@register.filter
def gridcells(cells: Iterable[GridCell]) -> SafeString:
    """Return the cells of a day: a month of many meters has thousands, and a template is slow."""
    text = (
        '<td role="gridcell" data-name="{}" data-day="{}" data-part="amount" data-was="{}" '
        'class="{}" tabindex="-1">{}</td>'
    )
    return format_html_join(
        "", text, ((c.label, c.day.isoformat(), c.text, c.mark, c.text) for c in cells)
    )


@register.filter
def change_cells(change: PostingChange) -> list[str]:
    """Return the cells of a change between two reports."""
    cells = change_row(change)
    return [cells[0], said(cells[1]), cells[2], *(in_language(cell) for cell in cells[3:6])]


@register.filter
def get(mapping: Any, key: object) -> Any:
    """Return what a mapping has of a key."""
    return mapping.get(key) if mapping is not None else None


@register.simple_tag(takes_context=True)
def may(context: dict[str, Any], address: str, method: str = "POST") -> bool:
    """Say whether the person may do something in the plant of the page."""
    rule = rule_of(address, method)
    roles: frozenset[Role] = context.get("roles") or frozenset()
    return rule is not None and rule.allows(roles)


@register.simple_tag(takes_context=True)
def signs(context: dict[str, Any]) -> bool:
    """Say whether what needs an approval in the plant of the page is signed by who submits it."""
    rules = plain_book(context["plant"]).rules()
    return rules is not None and rules.keys


@register.simple_tag
def deed(version: object = "") -> SafeString:
    """Return the fields that have a form carried out once, on the book as it was shown."""
    key = format_html('<input type="hidden" name="deed" value="{}">', new_key())
    if not version:
        return key
    return key + format_html('<input type="hidden" name="version" value="{}">', str(version))
