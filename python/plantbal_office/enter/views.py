"""Dropping workbooks, looking at what they would do, and booking them."""

from __future__ import annotations

import logging
from collections.abc import Callable
from pathlib import Path
from uuid import uuid4

from django import forms
from django.contrib import messages
from django.http import HttpRequest, HttpResponse
from django.shortcuts import get_object_or_404, redirect, render
from django.urls import reverse
from django.utils.formats import localize
from django.utils.timezone import localtime
from django.utils.translation import gettext as _
from django.utils.translation import gettext_lazy

from plantbal.book.adding import Unreasoned
from plantbal.book.approval.submitting import Submitted
from plantbal.book.library import Book
from plantbal.book.results import Added
from plantbal.commands.book.adding import added_lines
from plantbal.faults import Fault
from plantbal_office.deeds.once import once
from plantbal_office.effects import TRIED, Trial, months_added, tried
from plantbal_office.enter.drops import (
    LOCALES,
    files_in,
    forget,
    keep_drop,
    path_of,
    tabled_of,
    typed_reading,
    without_folders,
    workbooks_of,
)
from plantbal_office.enter.mapped import drop_reading, mapped_at, unmap
from plantbal_office.enter.mapping import asks_mapping, has_mapping
from plantbal_office.enter.models import Drop, DropState
from plantbal_office.enter.picture import pictures_of
from plantbal_office.enter.waiting import (
    keep_booked,
    next_of,
    put_state,
    waiting_drop,
    waiting_drops,
)
from plantbal_office.plants.models import Plant
from plantbal_office.shelf import KEPT, book_contents, book_of

log = logging.getLogger("plantbal_office")


class How(forms.Form):
    """How a workbook is booked: the reason of what it changes, and whether what is gone is struck."""

    why = forms.CharField(label=gettext_lazy("Reason"), max_length=80, required=False)
    strike = forms.BooleanField(
        label=gettext_lazy("Strike what is booked and no longer in the workbook"), required=False
    )
    anyway = forms.BooleanField(
        label=gettext_lazy("even if that is most of what is booked"), required=False
    )


def drop(request: HttpRequest) -> HttpResponse:
    """Take workbooks, and go on to what they would do."""
    plant: Plant = request.plant
    fault: Fault | None = None
    if request.method == "POST":
        locale = request.POST.get("locale", "")
        if locale not in dict(LOCALES):
            locale = ""

        def act() -> str:
            found = workbooks_of(files_in(request), request.POST.get("called", ""))
            if not found:
                raise Fault(
                    _("no workbook was chosen"), remedy=_("choose a file, or drop one here")
                )
            batch = uuid4()
            made = [keep_drop(request, name, files, locale, batch) for name, files in found]
            Plant.objects.filter(pk=plant.pk).update(locale=locale)
            return reverse("enter:seen", args=[plant.slug, made[0].pk])

        try:
            return once(request, act)
        except Fault as found:
            fault = found
    some = waiting_drops(plant)
    words: dict[str, object] = {"locales": LOCALES, "fault": fault, "section": "enter"}
    words["waiting"] = [each for each in some if each.is_current]
    words["put_by"] = [each for each in some if not each.is_current]
    words["has_mapping"] = has_mapping(plant)
    words["months"] = list(reversed([m for m in book_contents(plant).months if not m.closed]))
    return render(request, "enter/drop.html", words, status=400 if fault else 200)


def act_of(found: Drop, how: dict[str, object], why: str) -> Callable[[Book], Added]:
    """Return what adds a workbook, or what was typed, to a book."""

    def act(book: Book) -> Added:
        if found.is_typed:
            return book.add(tabled_of(found), why=why, reading=typed_reading(book, found.locale))
        return book.add(
            path_of(found),
            why=why,
            strike=bool(how.get("strike")),
            anyway=bool(how.get("anyway")),
            reading=drop_reading(found),
        )

    return act


def trial_of(plant: Plant, found: Drop, how: dict[str, object]) -> Trial:
    """Return what a workbook would do, which is found out on a copy of the book."""
    key = str(found.pk), mapped_at(found), bool(how.get("strike")), bool(how.get("anyway"))
    act = act_of(found, how, TRIED)
    return KEPT.of(Path(plant.folder), "trial", key, lambda: tried(plant, act, months_added))


def seen(request: HttpRequest, drop: str) -> HttpResponse:
    """Show a workbook's faults at their cells, or what it would change and what that would do."""
    found = get_object_or_404(Drop, pk=drop, plant=request.plant)
    form = How(request.GET)
    how = form.cleaned_data if form.is_valid() else {}
    version = book_contents(request.plant).version
    is_mapped = mapped_at(found) > 0
    if found.booked is not None and not is_mapped:
        when = localize(localtime(found.booked), use_l10n=True)
        what = _("{name} was booked on {when}: nothing of it waits.")
        messages.info(request, what.format(name=found.name, when=when))
        return redirect("enter:drop", request.plant.slug)
    if not found.is_typed and not is_mapped and "plain" not in request.GET:
        if asks_mapping(request.plant, found):
            put_state(found, DropState.ASKED)
            return redirect("enter:mapping", request.plant.slug, found.pk)
    trial = trial_of(request.plant, found, how)
    put_state(found, DropState.REJECTED if trial.fault else DropState.READY, trial.fault)
    words = {"drop": found, "version": version, "how": How(initial=how), "section": "enter"}
    words["waits"] = waiting_drop(found)
    words["maps"] = not found.is_typed and (is_mapped or has_mapping(request.plant))
    words |= {"strike": bool(how.get("strike")), "anyway": bool(how.get("anyway"))}
    words["is_mapped"] = is_mapped
    if trial.fault is not None:
        pictures, rest = pictures_of(trial.fault, path_of(found))
        words |= {"fault": trial.fault, "pictures": pictures, "rest": rest}
        return render(request, "enter/faults.html", words)
    words |= trial_shown(trial)
    words["strike"] = words["added"].struck
    return render(request, "enter/seen.html", words)


def trial_shown(trial: Trial) -> dict[str, object]:
    """Return what a page shows of a workbook that can be booked."""
    added = trial.result
    assert isinstance(added, Added)
    changes = added.changes
    edited = [*changes.changed, *changes.left]
    rows = [row for year in added.years for row in year.rows]
    kinds = [row[1] if row[0] == "late" else row[0] for row in rows]
    new = {kind: kinds.count(kind) for kind in ("period", "reading", "transfer", "dip", "assay")}
    plant = sum(kinds.count(kind) for kind in ("unit", "tank", "strap", "stream", "boundary"))
    missing = [line for year in added.years for line in year.missing]
    doubts = [each for year in added.years for each in year.doubts]
    return {
        "trial": trial,
        "added": added,
        "new": {kind: count for kind, count in new.items() if count},
        "rows": rows,
        "late": sum(row[0] == "late" for row in rows),
        "plant_rows": plant,
        "edited": edited,
        "gone": [fact for _, fact in changes.gone],
        "stale": changes.stale,
        "missing": missing,
        "doubts": doubts,
        "needs_why": bool(edited or (added.struck and changes.gone)),
        "is_nothing": not rows and not added.accounts,
    }


def book(request: HttpRequest, drop: str) -> HttpResponse:
    """Book a workbook as it was shown."""
    found = Drop.objects.filter(pk=drop, plant=request.plant).first()
    form = How(request.POST)
    if not form.is_valid():
        raise Fault(_("a reason has at most 80 characters"), remedy=_("make it shorter"))

    def act() -> str:
        if found is None:
            what = _("this workbook is no longer waiting: it was booked, or discarded")
            raise Fault(what, remedy=_("look at the months"))
        how = form.cleaned_data
        try:
            added = act_of(found, how, how["why"].strip())(book_of(request, expected=True))
        except Submitted:
            forget(found)  # what waits has its rows
            raise
        for line in added_lines(added):
            messages.success(request, without_folders(line))
        rest = next_of(found)
        keep_booked(found)
        if rest is not None:
            return reverse("enter:seen", args=[request.plant.slug, rest.pk])
        then = months_added(added, book_contents(request.plant))
        anchor = f"#m-{then[-1]}" if then else ""
        return reverse("plants:months", args=[request.plant.slug]) + anchor

    try:
        return once(request, act)
    except Unreasoned as fault:
        messages.error(request, _("A change needs a reason: enter one."))
        log.info("unreasoned: %s", fault)
        return redirect("enter:seen", request.plant.slug, drop)


def put_aside(request: HttpRequest, drop: str) -> HttpResponse:
    """Forget a workbook that isn't to be booked."""
    found = Drop.objects.filter(pk=drop, plant=request.plant).first()
    if found is not None and found.booked is not None:
        unmap(found)
        messages.info(request, _("The mapping stays as it is."))
    elif found is not None:
        name = found.name
        forget(found)
        messages.info(
            request, _("{name} is discarded: nothing of it was booked.").format(name=name)
        )
    return redirect("enter:drop", request.plant.slug)


def template_page(request: HttpRequest) -> HttpResponse:
    """Give an empty workbook with the sheets that are read."""
    import tempfile

    from plantbal.workbook.template import template as write_template

    with tempfile.TemporaryDirectory() as folder:
        place = Path(folder) / "template.xlsx"
        write_template("refinery", place)
        data = place.read_bytes()
    answer = HttpResponse(
        data,
        content_type="application/vnd.openxmlformats-officedocument.spreadsheetml.sheet",
    )
    answer["Content-Disposition"] = 'attachment; filename="template.xlsx"'
    return answer
