"""Estimates for days without a reading: what is proposed and on what it rests, or a figure of one's own."""

from __future__ import annotations

from django import forms
from django.contrib import messages
from django.http import HttpRequest, HttpResponse
from django.shortcuts import render
from django.urls import reverse
from django.utils.translation import gettext as _
from django.utils.translation import gettext_lazy

from plantbal.book.library import Book
from plantbal.book.looking import BookMonth
from plantbal.book.proposed import proposal_said
from plantbal.book.results import Estimated
from plantbal.diagnosis.proposal import Proposal
from plantbal_office.correct.views import ReasonForm
from plantbal_office.deeds.once import once
from plantbal_office.effects import TRIED, Trial, suspects_now, tried
from plantbal_office.enter.grid import typed_drop
from plantbal_office.look.views import month_in_address
from plantbal_office.plants.models import Plant
from plantbal_office.sentences import said
from plantbal_office.shelf import book_contents, book_of, plain_book

LONGEST = 40


class OwnFigure(forms.Form):
    """A guess of one's own for a day, or for several with one error together."""

    stream = forms.ChoiceField(label=gettext_lazy("Stream"))
    day = forms.CharField(label=gettext_lazy("Day, such as 2024-06-18"), max_length=LONGEST)
    last = forms.CharField(
        label=gettext_lazy("Last day, if it is for several"), max_length=LONGEST, required=False
    )
    amount = forms.CharField(label=gettext_lazy("Amount of each day"), max_length=LONGEST)
    unit = forms.CharField(
        label=gettext_lazy("Unit, such as t; empty for that of the meter"),
        max_length=LONGEST,
        required=False,
    )
    error = forms.CharField(
        label=gettext_lazy("Its error, such as 10 % or 50 t"), max_length=LONGEST
    )


def rests_on(each: Proposal, suspects: frozenset[str]) -> list[str]:
    """Return the suspects on which a proposal rests: meters beside it, or its own on other days."""
    return sorted(suspects.intersection(each.names or (each.stream,)))


def _own_figure(plant: Plant, month: BookMonth, posted: object) -> OwnFigure:
    """Return the form for a figure of one's own, of the streams with a meter."""
    own = OwnFigure(posted, prefix="own")
    flows = book_contents(plant).flows[month.year]
    own.fields["stream"].choices = [(f.name, f.name) for f in flows if f.kind == "metered"]
    return own


def estimate_page(request: HttpRequest, period: str) -> HttpResponse:
    """Propose estimates for days without a reading, and book them, or take a figure of one's own."""
    month = month_in_address(request, period)
    words = request.POST if request.method == "POST" else request.GET
    stream = words.get("stream", "")[:LONGEST]
    is_own = request.method == "POST" and "own-amount" in request.POST
    form, own = ReasonForm(), _own_figure(request.plant, month, request.POST if is_own else None)
    if is_own and own.is_valid():
        row = {key: str(value).strip() for key, value in own.cleaned_data.items()}
        return once(request, lambda: typed_drop(request, period, "estimates", [row], []))
    if request.method == "POST" and not is_own:
        form = ReasonForm(request.POST)

        def deed() -> str:
            why = form.cleaned_data["why"].strip()
            done = book_of(request, expected=True).estimate(period, stream, take=True, why=why)
            for each in done.proposals:
                if each.is_needed:
                    messages.success(
                        request, _("Booked: {what}").format(what=said(proposal_said(each)))
                    )
            return reverse("look:statement", args=[request.plant.slug, period])

        if form.is_valid():
            return once(request, deed)
    # before anything is looked at: what is decided then is on no newer book
    version = book_contents(request.plant).version
    found = plain_book(request.plant).estimate(period, stream)
    own.initial["stream"] = stream or next(iter(found.missing), "")
    trial: Trial | None = None
    suspects: frozenset[str] = frozenset()
    if any(each.is_needed for each in found.proposals):
        trial = tried(request.plant, lambda book: _taken(book, period, stream), lambda *_: [period])
        suspects = suspects_now(request.plant, period)
    answer = {
        "month": month,
        "found": found,
        "stream": stream,
        "lines": [(e, said(proposal_said(e)), rests_on(e, suspects)) for e in found.proposals],
        "trial": trial,
        "version": version,
        "form": form,
        "own": own,
        "section": "statement",
    }
    status = 400 if form.errors or own.errors else 200
    return render(request, "correct/estimate.html", answer, status=status)


def _taken(book: Book, period: str, stream: str) -> Estimated:
    return book.estimate(period, stream, take=True, why=TRIED)
