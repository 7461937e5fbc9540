"""Correcting: amend, strike, undo, estimate, report and close; what each would do comes first."""

from __future__ import annotations

from collections.abc import Callable
from dataclasses import dataclass

from django import forms
from django.contrib import messages
from django.http import HttpRequest, HttpResponse
from django.shortcuts import render
from django.urls import reverse
from django.utils.translation import gettext as _
from django.utils.translation import gettext_lazy

from plantbal.book.closing import NotClosed
from plantbal.book.expected import BookVersion
from plantbal.book.ledger import BookFact
from plantbal.book.library import Book
from plantbal.book.looking import Contents, FactLine
from plantbal.book.results import Closed, Edited
from plantbal.faults import Fault
from plantbal.gates import Gate, Stop, about, remedy_of_stop, said_of_stop
from plantbal.lint.findings import RULES
from plantbal.report.output import Output
from plantbal_office.deeds.once import once
from plantbal_office.effects import kept_output, touched_months, tried
from plantbal_office.effects import report_said as report_said
from plantbal_office.enter.typed import typing_locale
from plantbal_office.look.views import month_in_address
from plantbal_office.plants.standing import stand_of
from plantbal_office.sentences import fact_said, said
from plantbal_office.shelf import book_contents, book_of, plain_book, rounds_given, run_settings

REASON = 80  # letters, as a row of a session bears


class ChangeForm(forms.Form):
    """Another value of a fact."""

    amount = forms.CharField(label=gettext_lazy("Amount with unit"), max_length=40)
    density = forms.CharField(
        label=gettext_lazy("Density, if it changes"), max_length=40, required=False
    )
    error = forms.CharField(
        label=gettext_lazy("Error, if it changes"), max_length=40, required=False
    )
    why = forms.CharField(label=gettext_lazy("Reason"), max_length=REASON)


class ReasonForm(forms.Form):
    """A reason."""

    why = forms.CharField(label=gettext_lazy("Reason"), max_length=REASON)


# ---- single facts


@dataclass(frozen=True)
class AskedFact:
    """What is asked for of a fact: the fact, the version of its book, and how the page is headed."""

    found: FactLine
    version: BookVersion
    title: str


def fact_words(found: BookFact) -> tuple[str, str | None]:
    """Return the words that name a fact: its place and its day, or of a ticket its id."""
    return (found.id, None) if found.kind == "transfer" else (found.place, str(found.first))


def amend_page(request: HttpRequest, year: str, identity: str) -> HttpResponse:
    """Give a fact another value: the form, what it would do, and then the deed."""
    version = book_contents(request.plant).version
    found = plain_book(request.plant).fact(year, identity)
    words = request.POST if request.method == "POST" else request.GET
    form = ChangeForm(words if "amount" in words else None)
    name, day = fact_words(found.shown.fact)
    locale = typing_locale()

    def act(book: Book) -> Edited:
        given = form.cleaned_data
        return book.amend(
            name,
            day,
            given["amount"],
            why=given["why"].strip(),
            density=given["density"],
            error=given["error"],
            locale=locale,
        )

    return _changed(request, AskedFact(found, version, _("Amend")), form, act)


def strike_page(request: HttpRequest, year: str, identity: str) -> HttpResponse:
    """Take a fact out: the form, what it would do, and then the deed."""
    version = book_contents(request.plant).version
    found = plain_book(request.plant).fact(year, identity)
    words = request.POST if request.method == "POST" else request.GET
    form = ReasonForm(words if "why" in words else None)
    name, day = fact_words(found.shown.fact)

    def act(book: Book) -> Edited:
        return book.strike(name, day, why=form.cleaned_data["why"].strip())

    return _changed(request, AskedFact(found, version, _("Strike")), form, act)


def _changed(
    request: HttpRequest, asked: AskedFact, form: forms.Form, act: Callable[[Book], Edited]
) -> HttpResponse:
    """Show the form of a change, or what it would do, or do it."""
    found = asked.found
    words = {"found": found, "fact": found.shown.fact, "form": form, "title": asked.title}
    words |= {"version": asked.version, "section": "statement"}
    if not form.is_bound or not form.is_valid():
        return render(request, "correct/change.html", words, status=400 if form.errors else 200)
    if request.method == "POST":

        def deed() -> str:
            done = act(book_of(request, expected=True))
            messages.success(request, edited_said(done))
            for name in done.closed:
                what = _(
                    "{name} is closed, and this changes it: make its report, then look at the difference."
                )
                messages.warning(request, what.format(name=name))
            fact = done.new or done.old
            return reverse("look:fact", args=[request.plant.slug, found.year, fact.id])

        return once(request, deed)
    trial = tried(request.plant, act, lambda done, then: months_edited(done, then))
    words |= {"trial": trial, "fault": trial.fault}
    words["edited"] = trial.result if isinstance(trial.result, Edited) else None
    return render(request, "correct/change.html", words)


def months_edited(done: object, then: Contents) -> list[str]:
    """Return the months that a change of a fact touches."""
    assert isinstance(done, Edited)
    return touched_months([done.old], then)


def edited_said(done: Edited) -> str:
    """Return what became of a fact, as a sentence."""
    if not done.is_booked:
        return _("{id} already had these figures.").format(id=done.old.id)
    if done.new is None:
        return _("{id} is struck: {was}.").format(id=done.old.id, was=fact_said(done.old))
    what = _("{id}: {was} becomes {now}.")
    return what.format(id=done.old.id, was=fact_said(done.old), now=fact_said(done.new))


def undo_page(request: HttpRequest, year: str, identity: str) -> HttpResponse:
    """Give a fact back what it was, by an amendment or a new fact, while its period is open."""
    found = plain_book(request.plant).fact(year, identity)
    form = ReasonForm(request.POST)

    def deed() -> str:
        if not form.is_valid():
            raise Fault(_("give a reason of at most 80 characters"))
        why = form.cleaned_data["why"].strip()
        fact = found.shown.fact
        done = book_of(request, expected=True).undo(fact.id, fact.first, why=why)
        assert done.new is not None
        if done.new.id == fact.id:
            messages.success(request, edited_said(done))
        else:
            what = _("{id} was struck: {now} is booked again as {new}.")
            said = what.format(id=fact.id, now=fact_said(done.new), new=done.new.id)
            messages.success(request, said)
        return reverse("look:fact", args=[request.plant.slug, found.year, done.new.id])

    return once(request, deed)


# ---- reports and the close


def report(request: HttpRequest, period: str) -> HttpResponse:
    """Make the report of a month, with tests as long as it is open, and show its statement."""
    is_closed = month_in_address(request, period).closed
    settings = run_settings(rounds_given(request.POST), tests=None if is_closed else True)

    def deed() -> str:
        made = book_of(request).report(period, settings=settings)
        for each in made:
            if not each.is_new:
                messages.info(
                    request, _("The report of {name} hasn't changed.").format(name=period)
                )
        return reverse("look:statement", args=[request.plant.slug, period])

    return once(request, deed)


def close_page(request: HttpRequest, period: str) -> HttpResponse:
    """Show what a close asks, take the answers, and close the month."""
    month = month_in_address(request, period)
    anyway = {gate: request.POST.get(f"why-{gate.value}", "").strip() for gate in Gate}
    given = {gate: why[: REASON + 1] for gate, why in anyway.items() if why}
    if request.method == "POST":
        return once(request, lambda: _close(request, period, given))
    if month.closed:
        words = {"month": month, "section": "statement", "stand": stand_of(request.plant, month)}
        return render(request, "correct/closed.html", words)
    version, rules = book_contents(request.plant).version, plain_book(request.plant).rules()
    rounds = rounds_given(request.GET)
    report = plain_book(request.plant).closing(period, settings=run_settings(rounds))
    assert report is not None, "a closed month isn't asked"
    stops = list(report.stops)
    gates = list(dict.fromkeys(stop.gate for stop in stops))
    words = {
        "rounds": rounds,
        "left_out": _left_out(report.output),
        "left_before": _left_out(kept_output(request.plant, book_contents(request.plant), period)),
        "month": month,
        "said": report_said(report.output, stops),
        "gates": [(gate, said(about(gate)), _of(gate, stops)) for gate in gates],
        "version": version,
        "section": "statement",
        "ruled": rules is not None,
        "keys": rules is not None and rules.keys,
    }
    return render(request, "correct/close.html", words)


def _of(gate: Gate, stops: list[Stop]) -> list[tuple[str, str]]:
    """Return what there is to look at of a gate, and what to do."""
    return [
        (said(said_of_stop(each)), said(remedy_of_stop(each)))
        for each in stops
        if each.gate is gate
    ]


def _left_out(output: Output | None) -> list[str]:
    """Return the suspects that a report leaves out."""
    reports = output.reports if output is not None else []
    return reports[-1].taken if reports else []


def _close(request: HttpRequest, period: str, given: dict[Gate, str]) -> str:
    """Close a month, and return where its statement is."""
    try:
        done: Closed = book_of(request, expected=True).close(
            period, anyway=given, settings=run_settings(rounds_given(request.POST))
        )
    except NotClosed as stopped:
        gates = ", ".join(gate.value for gate in stopped.unanswered)
        what = _("{name} isn't closed: no reason given for {gates}")
        remedy = _("correct it, or say why it is closed anyway")
        raise Fault(what.format(name=period, gates=gates), remedy=remedy) from stopped
    if done.head is None:
        messages.info(request, _("{name} is already closed.").format(name=period))
    else:
        what = _(
            "{name} is closed. Keep this head where nobody who can write to the book can change it: {head}"
        )
        messages.success(request, what.format(name=period, head=done.head))
    return reverse("look:statement", args=[request.plant.slug, period])


# ---- rules that are quieted for good


def quiet_page(request: HttpRequest) -> HttpResponse:
    """Show which rules are quieted, and quiet one or have it speak again."""
    if request.method == "POST":
        form = ReasonForm(request.POST)
        code = request.POST.get("code", "")[:40]
        names = request.POST.get("names", "")[:400].split()
        off = request.POST.get("off") == "yes"

        def deed() -> str:
            if not form.is_valid():
                raise Fault(_("give a reason of at most 80 characters"))
            book, why = book_of(request, expected=True), form.cleaned_data["why"].strip()
            (book.heed if off else book.quiet)(code, *names, why=why)
            what = (
                _("{code} is reported again for {names}.")
                if off
                else _("{code} is quieted for {names}.")
            )
            messages.success(request, what.format(code=code, names=" ".join(names)))
            return reverse("correct:quiet", args=[request.plant.slug])

        return once(request, deed)
    contents = book_contents(request.plant)
    words = {
        "quiets": contents.quiets,
        "codes": sorted(filter(_may_be_quiet, RULES)),
        "version": contents.version,
    }
    return render(request, "correct/quiet.html", words)


def _may_be_quiet(code: str) -> bool:
    """Say whether a rule can be quieted for names."""
    is_of_month = code in list(Gate) and not Gate(code).is_of_names
    return RULES[code].severity != "error" and not is_of_month
