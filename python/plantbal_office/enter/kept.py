"""The mapping that a plant's workbooks are read by: what it says, which were read by it, and how it is changed.

It is changed by reading a workbook anew, since a mapping is only right for what it reads: the last one
that was booked, or another. What that would change is shown first, and the book gets the mapping and
the rows in one action, as it does from `plantbal-desk book add FILE --mapping MAPPING`.
"""

from __future__ import annotations

from dataclasses import dataclass

from django.http import HttpRequest, HttpResponse
from django.shortcuts import render
from django.urls import reverse

from plantbal.book.forms import MAPPING
from plantbal.book.journal import Act, JournalLine
from plantbal.book.looking import Contents
from plantbal.faults import Fault
from plantbal.workbook.mapping.form import SheetMapping, WorkbookMapping
from plantbal.workbook.sheetkinds import SHEETS
from plantbal_office.deeds.once import once
from plantbal_office.enter.drops import LOCALES, keep_drop, one_workbook
from plantbal_office.enter.waiting import last_booked
from plantbal_office.plants.models import Plant
from plantbal_office.shelf import book_contents, plain_book

# What books a workbook.
_READS = (Act.NEW, Act.ADD, Act.NEXT)
# How many workbooks are named.
MOST_READ = 20


@dataclass(frozen=True)
class KeptSheet:
    """A sheet of a mapping as a person sees it.

    Attributes
    ----------
    own : SheetMapping
        The sheet.
    about : str
        What its kind is; empty if it isn't read.
    columns : list of (str, str, str)
        Its heads, what each is taken for, and in which unit its figures are.
    """

    own: SheetMapping
    about: str
    columns: list[tuple[str, str, str]]


def kept_sheets(mapping: WorkbookMapping) -> list[KeptSheet]:
    """Return the sheets of a mapping."""
    found = []
    for own in mapping.sheets:
        kind = SHEETS.get(own.kind)
        heads = dict.fromkeys([*own.columns, *own.units])
        columns = [(head, own.columns.get(head, head), own.units.get(head, "")) for head in heads]
        found.append(KeptSheet(own, kind.about if kind is not None else "", columns))
    return found


def read_by(contents: Contents) -> list[JournalLine]:
    """Return what booked workbooks since the mapping is what it is, the last first."""
    found: list[JournalLine] = []
    for line in reversed(contents.lines):
        if line.act in _READS and line.what:
            found.append(line)
        if MAPPING in line.files:
            break
    return found


def kept_page(request: HttpRequest) -> HttpResponse:
    """Show the mapping that a plant's workbooks are read by, and take a workbook to change it with."""
    plant: Plant = request.plant
    fault: Fault | None = None
    if request.method == "POST":

        def act() -> str:
            drop = keep_drop(request, *one_workbook(request), plant.locale)
            return reverse("enter:mapping", args=[plant.slug, drop.pk])

        try:
            return once(request, act)
        except Fault as found:
            fault = found
    mapping = plain_book(plant).mapping()
    lines = read_by(book_contents(plant)) if mapping is not None else []
    words = {
        "mapping": mapping,
        "locale": dict(LOCALES).get(mapping.locale, mapping.locale) if mapping is not None else "",
        "sheets": kept_sheets(mapping) if mapping is not None else [],
        "lines": lines[:MOST_READ],
        "more": max(0, len(lines) - MOST_READ),
        "last": last_booked(plant),
        "fault": fault,
        "section": "enter",
    }
    return render(request, "enter/kept.html", words, status=400 if fault else 200)
