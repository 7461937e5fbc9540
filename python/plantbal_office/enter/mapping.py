"""The page that says how a workbook is read: each guess with what speaks for it, and each question."""

from __future__ import annotations

from collections.abc import Callable
from dataclasses import dataclass, field
from pathlib import Path

from django.http import HttpRequest, HttpResponse
from django.shortcuts import get_object_or_404, render
from django.urls import reverse

from plantbal.book.looking import Contents
from plantbal.faults import Fault
from plantbal.workbook.mapping.form import OPEN, WorkbookMapping
from plantbal.workbook.mapping.known import KnownPlant, meter_units
from plantbal.workbook.mapping.proposing import MappingProposal
from plantbal.workbook.sheetkinds import SHEETS
from plantbal.workbook.units import UNITS
from plantbal_office.deeds.once import once
from plantbal_office.enter.drops import LOCALES
from plantbal_office.enter.mapped import (
    MappedSheet,
    changed_by,
    forms_of,
    keep_mapping,
    kinds_said,
    proposal_of,
    wants_mapping,
)
from plantbal_office.enter.models import Drop
from plantbal_office.plants.models import Plant
from plantbal_office.shelf import KEPT, book_contents, plain_book


@dataclass
class MappingPage:
    """What a page asks of a workbook: the proposal as a person has changed it so far."""

    drop: Drop
    found: MappingProposal
    forms: list[MappedSheet]
    is_complete: bool
    words: dict[str, object] = field(default_factory=dict)

    def answer(self, request: HttpRequest, take: Callable[[MappingPage], str]) -> HttpResponse:
        """Show the page, or take the mapping if the form says so and each sheet has been seen."""
        fault: Fault | None = None
        if request.method == "POST" and "take" in request.POST and self.is_complete:
            try:
                return once(request, lambda: take(self))
            except Fault as said:
                fault = said
        mapping = self.found.mapping
        words = {
            "drop": self.drop,
            "fault": fault,
            "lines": getattr(fault, "lines", ()),
            "mapping": mapping,
            "why": _why(self.found),
            "sheets": self.forms,
            "names": _pairs(self.found, "names", mapping.names),
            "meanings": _pairs(self.found, "words", mapping.words),
            "questions": self.found.open(),
            "kinds": [("", ""), *((kind.word, kind.about) for kind in SHEETS.values())],
            "locales": _locales(mapping),
            "units": sorted(UNITS),
            "section": "enter",
            "open": OPEN,
            "is_anew": request.method == "POST" and not self.is_complete,
        }
        status = 400 if fault is not None else 200
        return render(request, "enter/mapping.html", words | self.words, status=status)


def _why(found: MappingProposal) -> dict[str, str]:
    """Return what speaks for the values of the whole workbook."""
    return {str(path[0]): text for path, text in found.evidence.items() if len(path) == 1}


def _pairs(found: MappingProposal, what: str, pairs: object) -> list[tuple[str, str, str]]:
    """Return names or words: as the workbook has them, as the book does, and why."""
    assert isinstance(pairs, dict)
    return [(key, to, found.evidence.get((what, key), "")) for key, to in pairs.items()]


def _locales(mapping: WorkbookMapping) -> list[tuple[str, object]]:
    """Return whose numbers and days a workbook may have."""
    there = [code for code, _name in LOCALES]
    own = [] if mapping.locale in (*there, OPEN) else [(mapping.locale, mapping.locale)]
    return [*own, *LOCALES]


def mapping_page_of(
    request: HttpRequest, drop: Drop, kept: WorkbookMapping | None, known: KnownPlant
) -> MappingPage:
    """Return what is asked of a workbook, with the answers of the form if one was sent."""
    posted = request.POST
    kinds: dict[str, str] = {}
    found, sheets = proposal_of(drop, kept, known, kinds, posted.get("plant", ""))
    if request.method == "POST":
        kinds = kinds_said(posted, sheets)
        found, sheets = proposal_of(drop, kept, known, kinds, posted.get("plant", ""))
    forms = forms_of(found, sheets)
    is_complete = all(posted.get(f"was-{each.number}") == each.own.kind for each in forms)
    if request.method == "POST":
        found = changed_by(found, posted, forms)
        forms = forms_of(found, sheets)
    return MappingPage(drop, found, forms, is_complete)


def known_of(contents: Contents) -> KnownPlant:
    """Return the tags, streams and tanks of a book."""
    year = contents.months[-1].year if contents.months else max(contents.flows, default="")
    flows, vessels = contents.flows.get(year, ()), contents.vessels.get(year, ())
    meters = [*(each.meter for each in flows), *(each.meter for each in vessels)]
    return KnownPlant(
        tuple(meter.tag for meter in meters if meter is not None and meter.tag),
        tuple(each.name for each in flows),
        tuple(each.name for each in vessels),
        meter_units(
            (each.name, each.meter.tag, each.meter.unit) for each in flows if each.meter is not None
        ),
    )


def asks_mapping(plant: Plant, drop: Drop) -> bool:
    """Say whether a workbook has to be told how it is read."""
    make = lambda: wants_mapping(  # noqa: E731
        drop, plain_book(plant).mapping(), known_of(book_contents(plant))
    )
    return KEPT.of(Path(plant.folder), "wanted", (str(drop.pk),), make)


def has_mapping(plant: Plant) -> bool:
    """Say whether the workbooks of a plant are read by a mapping that its book keeps."""
    make = lambda: plain_book(plant).mapping() is not None  # noqa: E731
    return KEPT.of(Path(plant.folder), "has mapping", (), make)


def mapping_page(request: HttpRequest, drop: str) -> HttpResponse:
    """Show how a workbook would be read, and go on to what it would do."""
    found = get_object_or_404(Drop, pk=drop, plant=request.plant, is_typed=False)
    kept = plain_book(request.plant).mapping()

    def take(asked: MappingPage) -> str:
        keep_mapping(found, asked.found.mapping)
        return reverse("enter:seen", args=[request.plant.slug, found.pk])

    known = known_of(book_contents(request.plant))
    return mapping_page_of(request, found, kept, known).answer(request, take)
