"""A new book: of the workbook of a plant, by a mapping if its sheets aren't called as ours are."""

from __future__ import annotations

from pathlib import Path
from urllib.parse import urlencode

from django import forms
from django.conf import settings
from django.contrib import messages
from django.http import HttpRequest, HttpResponse
from django.shortcuts import get_object_or_404, render
from django.urls import reverse
from django.utils import timezone
from django.utils.translation import gettext as _
from django.utils.translation import gettext_lazy

from plantbal.book.library import Book
from plantbal.faults import Fault
from plantbal.workbook.mapping.known import KnownPlant
from plantbal.workbook.options import ReadingOptions
from plantbal_office.deeds.once import once
from plantbal_office.enter.drops import (
    LOCALES,
    forget,
    keep_drop,
    one_workbook,
    options_of,
    path_of,
    without_folders,
)
from plantbal_office.enter.mapped import accepted, keep_mapping, unmap, wants_mapping
from plantbal_office.enter.mapping import MappingPage, mapping_page_of
from plantbal_office.enter.models import Drop
from plantbal_office.plants.models import Plant
from plantbal_office.plants.views import YEAR, OpenBook, register
from plantbal_office.sentences import fault_said, said
from plantbal_office.shelf import who_of


class BeginBook(OpenBook):
    """A folder for a new book, and its first year."""

    year = forms.RegexField(YEAR, label=gettext_lazy("First year"), max_length=32)
    locale = forms.ChoiceField(
        label=gettext_lazy("Numbers and dates"), choices=LOCALES, required=False
    )


def begin_page(request: HttpRequest) -> HttpResponse:
    """Begin a book with the workbook of a plant."""
    form = BeginBook(request.POST or None)
    if request.method == "POST" and form.is_valid():

        def act() -> str:
            words = form.cleaned_data
            drop = keep_drop(request, *one_workbook(request), words["locale"])
            is_asked = False
            try:
                is_asked = wants_mapping(drop, None, KnownPlant())
                if is_asked:
                    said = urlencode({key: words[key] for key in ("name", "folder", "year")})
                    return reverse("plants:mapping", args=[drop.pk]) + f"?{said}"
                plant = _begun(request, drop, words, options_of(words["locale"]))
                plant.locale = words["locale"]
                plant.save()
                return reverse("plants:months", args=[plant.slug])
            finally:
                if not is_asked:
                    forget(drop)

        try:
            return once(request, act)
        except Fault as fault:
            _say(form, fault)
    answer = {"form": form, "title": _("Begin a book")}
    return render(request, "plants/begin.html", answer, status=400 if form.errors else 200)


def _say(form: forms.Form, fault: Fault) -> None:
    """Put what is wrong with a workbook over its form."""
    form.add_error(None, without_folders(fault_said(fault)))
    for line in getattr(fault, "lines", ()):
        form.add_error(None, without_folders(said(line)))


def _begun(
    request: HttpRequest, drop: Drop, words: dict[str, str], reading: ReadingOptions
) -> Plant:
    """Begin the book of a plant, and return the plant."""
    book = Book(
        Path(words["folder"]).expanduser(), who=who_of(request), program=settings.PLANTBAL_PROGRAM
    )
    made = book.begin(words["year"], path_of(drop), reading=reading)
    plant = register(request, words["name"], book.folder)
    messages.success(request, _("The book is begun: {year}.").format(year=made.year))
    for note in made.notes:
        messages.info(request, without_folders(said(note)))
    return plant


def plant_mapping_page(request: HttpRequest, drop: str) -> HttpResponse:
    """Show how the workbook of a new plant would be read, and begin its book so."""
    found = get_object_or_404(Drop, pk=drop, plant=None, person=request.user)
    words = request.POST if request.method == "POST" else request.GET
    form = BeginBook({key: words.get(key, "") for key in ("name", "folder", "year", "locale_")})

    def take(asked: MappingPage) -> str:
        if not form.is_valid():
            raise Fault(_("the name, the folder or the year is missing"))
        keep_mapping(found, asked.found.mapping)
        reading = ReadingOptions(mapping=accepted(found))
        plant = _begun(request, found, form.cleaned_data, reading)
        unmap(found)
        found.plant, found.locale = plant, ""
        found.made = timezone.now()  # what has begun the book doesn't replace the rest of it
        found.save()
        messages.info(request, _("The rest of the workbook isn't booked yet: look at it."))
        return reverse("enter:seen", args=[plant.slug, found.pk])

    asked = mapping_page_of(request, found, None, KnownPlant())
    asked.words |= {"begins": form, "title": _("Begin a book")}
    return asked.answer(request, take)
