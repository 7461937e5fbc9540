"""Asking: differences, windows, what if, advice with costs, recovery, and charts."""

from __future__ import annotations

import io
from dataclasses import dataclass
from pathlib import Path

from django import forms
from django.conf import settings
from django.contrib import messages
from django.http import Http404, HttpRequest, HttpResponse
from django.shortcuts import render
from django.urls import reverse
from django.utils.translation import gettext as _
from django.utils.translation import gettext_lazy

from plantbal.accounts.posting import postings_of
from plantbal.balance.known import Class
from plantbal.balance.planning import instrument_named, period_state
from plantbal.balance.worth import (
    Instrument,
    PeriodState,
    SpreadChange,
    known_after,
    spread_changes,
)
from plantbal.book.difference import NOW, POSTED, Difference
from plantbal.book.looking import BookMonth
from plantbal.book.posting import NotPosted
from plantbal.book.results import ReportState
from plantbal.faults import Fault
from plantbal.gates import Gate, about, said_of_stop
from plantbal.report.output import Output, parse_report
from plantbal.sentence import phrase
from plantbal.session import Session
from plantbal.study.advice import Advice, advise
from plantbal_office.ask.window import window_shown
from plantbal_office.deeds.once import once
from plantbal_office.enter.typed import typing_locale
from plantbal_office.look.views import month_in_address
from plantbal_office.plants.models import Plant
from plantbal_office.sentences import figure, said, spoken
from plantbal_office.shelf import KEPT, book_contents, book_of, plain_book, run_settings

MOST_CHARTED = 36
MOST_STREAMS = 24


class WhatIf(forms.Form):
    """A meter or an assay more, and one fewer."""

    add = forms.CharField(
        label=gettext_lazy("With: stream and error"), max_length=120, required=False
    )
    lose = forms.CharField(label=gettext_lazy("Without: stream"), max_length=120, required=False)


def menu(request: HttpRequest) -> HttpResponse:
    """Show what can be asked."""
    contents = book_contents(request.plant)
    reported = [each for each in contents.months if each.report is not ReportState.MISSING]
    words = {
        "section": "ask",
        "months": list(reversed(contents.months)),
        "reported": list(reversed(reported)),
        "windows": contents.windows,
    }
    return render(request, "ask/menu.html", words)


# ---- differences and what is handed over


def difference_page(request: HttpRequest, period: str) -> HttpResponse:
    """Show how two states of a month differ, and why."""
    month = month_in_address(request, period)
    words = request.GET.get("between", "")
    states = tuple(words.split(" ")) if words else ()
    if len(states) not in (0, 2) or any(len(each) > 12 for each in states):
        raise Fault(_("these aren't two states"), remedy=_("choose them from the list"))
    version = book_contents(request.plant).version
    found = plain_book(request.plant).difference(period, *states)
    pairs = [(str(number), NOW) for number in range(1, month.earlier + 1)]
    pairs += [(str(n), str(n + 1)) for n in range(1, month.earlier)] + [(POSTED, NOW)]
    answer = {
        "month": month,
        "found": found,
        "postings": postings_of(found.changes),
        "causes": [said(each) for each in dict.fromkeys(each.sentence for each in found.causes)],
        "between": words,
        "sides": [said(phrase(each)) for each in found.sides],
        "choices": [(" ".join(each), " – ".join(said(phrase(x)) for x in each)) for each in pairs],
        "version": version,
        "section": "ask",
        "is_old": month.report is ReportState.OLDER,
        "gates": _asked(request, month) if found.id and not words else [],
    }
    return render(request, "ask/difference.html", answer)


def _asked(request: HttpRequest, month: BookMonth) -> list[tuple[Gate, str, list[str]]]:
    """Return the gates for which a posting needs a reason, each with what it is and what it is of."""
    if not month.closed or month.report is not ReportState.CURRENT:
        return []
    stops = plain_book(request.plant).unanswered(month.name)
    gates = dict.fromkeys(stop.gate for stop in stops)
    of = {gate: [said(said_of_stop(stop)) for stop in stops if stop.gate is gate] for gate in gates}
    return [(gate, said(about(gate)), of[gate]) for gate in gates]


def posted(request: HttpRequest, period: str) -> HttpResponse:
    """Record what is handed over of a month."""
    month_in_address(request, period)

    def act() -> str:
        why = request.POST.get("why", "").strip()[:80]
        done = _post(request, period, why)
        what = _("{name} is posted as {id}: {count} postings.")
        count = len(postings_of(done.changes))
        messages.success(request, what.format(name=period, id=done.id, count=count))
        return reverse("ask:difference", args=[request.plant.slug, period])

    return once(request, act)


def _post(request: HttpRequest, period: str, why: str) -> Difference:
    """Record what is handed over, with a reason for each gate."""
    said = {gate: request.POST.get(f"why-{gate.value}", "").strip() for gate in Gate}
    given = {gate: text[:80] for gate, text in said.items() if text}
    try:
        return book_of(request, expected=True).post(period, reasons=given, why=why)
    except NotPosted as stopped:
        gates = ", ".join(gate.value for gate in stopped.unanswered)
        what = _("{name} isn't posted: no reason given for {gates}")
        remedy = _("correct it, or say why it is posted anyway")
        raise Fault(what.format(name=period, gates=gates), remedy=remedy) from stopped


# ---- windows


def window_page(request: HttpRequest) -> HttpResponse:
    """Reconcile several months at once, over a dip that nobody took, and show what came of it."""
    words = request.POST if request.method == "POST" else request.GET
    first, last = words.get("first", ""), words.get("last", "")
    if request.method == "POST":

        def act() -> str:
            done = book_of(request).window(first, last, settings=run_settings())
            if not done.is_new:
                messages.info(request, _("The report of this window hasn't changed."))
            return f"{reverse('ask:window', args=[request.plant.slug])}?first={first}&last={last}"

        return once(request, act)
    shown = window_shown(request.plant, first, last)
    words = {"shown": shown, "first": first, "last": last, "section": "ask"}
    return render(request, "ask/window.html", words)


# ---- what if, and which meters to buy


@dataclass(frozen=True)
class WhatIfLine:
    """A line of a what-if: a flow or a grade, and its ± now and then; None if nothing knows it."""

    name: str
    before: float | None
    after: float | None
    unit: str

    @property
    def is_changed(self) -> bool:
        """Whether it changes by more than a thousandth."""
        if self.before is None or self.after is None:
            return self.before is not self.after
        return abs(self.after - self.before) > 0.001 * max(self.before, 1e-9)


def what_if_line(change: SpreadChange) -> WhatIfLine:
    """Return a line of a what-if."""
    factor, unit = (100.0, "%") if change.component else (1.0, "t")
    name = said(Instrument(change.stream, change.component).said)
    known = [kind is not Class.UNOBSERVABLE for kind in (change.kind_before, change.kind_after)]
    return WhatIfLine(
        name,
        factor * change.before if known[0] else None,
        factor * change.after if known[1] else None,
        unit,
    )


def month_plan(plant: Plant, month: BookMonth) -> PeriodState:
    """Return the flows and errors of a month, on which others are put."""

    def make() -> PeriodState:
        session = plain_book(plant).session_asking(month.name)
        return period_state(
            session.encode("ascii"), month.name, month.name, settings.PLANTBAL_PROGRAM
        )

    return KEPT.of(Path(plant.folder), "plan", (month.name,), make)


def whatif(request: HttpRequest, period: str) -> HttpResponse:
    """Show the ± of all flows with one more meter or assay, or one fewer."""
    month = month_in_address(request, period)
    form = WhatIf(request.GET or None)
    state = month_plan(request.plant, month)
    words = {"month": month, "form": form, "section": "ask"}
    words["streams"] = [flow.name for flow in state.problem.flows]
    words["there"] = [said(each.said) for each in sorted(state.here, key=lambda each: each.said)]
    if form.is_bound and form.is_valid():
        try:
            words["rows"] = _whatif(state, form.cleaned_data["add"], form.cleaned_data["lose"])
        except Fault as fault:
            words["fault"] = fault
    return render(request, "ask/whatif.html", words)


def _whatif(state: PeriodState, add: str, lose: str) -> list[WhatIfLine]:
    """Return the ± of flows and grades before and after."""
    more: list[Instrument] = []
    for text in filter(None, (each.strip() for each in add.split(";"))):
        name, _equals, error = (part.strip() for part in text.partition("="))
        if not error:
            name, _space, error = text.partition(" ")
        found = instrument_named(f"{name}={error.strip()}", state, typing_locale())
        if not found.deviation:
            remedy = f"FI-7 = {figure('1.5')} %"
            raise Fault(_("there is no error of {name}").format(name=name), remedy=remedy)
        more.append(found)
    fewer = [instrument_named(each.strip(), state) for each in lose.split(";") if each.strip()]
    before, after = state.with_(state.here), known_after(state, more, fewer)
    return [what_if_line(each) for each in spread_changes(state, before, after)]


def advice(request: HttpRequest) -> HttpResponse:
    """Show which streams to meter so that every one is observable, at least cost."""
    plant: Plant = request.plant
    contents = book_contents(plant)
    year = max(contents.flows, default="")
    plain = [each.name for each in contents.flows.get(year, ()) if each.kind == "plain"]
    costs: dict[str, int] = {}
    for name in plain:
        text = request.GET.get(f"cost-{name}", "")
        if text.isascii() and text.isdigit() and len(text) <= 9:
            costs[name] = int(text)
    words: dict[str, object] = {"year": year, "section": "ask"}
    words["plain"] = [(each, costs.get(each, "")) for each in plain]
    if "ask" in request.GET or not plain:
        words["found"] = _advised(plant, year, costs)
    return render(request, "ask/advice.html", words)


def _advised(plant: Plant, year: str, costs: dict[str, int]) -> Advice | None:
    """Return the advice on the plant of a year; None if it has no month yet."""
    months = [each.name for each in book_contents(plant).months if each.year == year]
    if not months:
        return None
    session = Session(strict=False)
    rows = plain_book(plant).session_asking(months[-1]).encode("ascii")
    session.take(plant.name, rows)
    return advise(session, costs, program=settings.PLANTBAL_PROGRAM)


# ---- components, recovery, charts


def recovery(request: HttpRequest, period: str) -> HttpResponse:
    """Show where each component goes."""
    month = month_in_address(request, period)
    output = parse_report(plain_book(request.plant).kept(period).text, f"the report of {period}")
    words = {"month": month, "balances": shares_of(output), "section": "ask"}
    return render(request, "ask/recovery.html", words)


def shares_of(output: Output) -> list[tuple[str, list[dict[str, object]]]]:
    """Return what each stream carries of each component."""
    from plantbal_office.ask.components import component_rows

    return component_rows(output)


def chart(request: HttpRequest) -> HttpResponse:
    """Show the months in a chart: the statistic, and what is adjusted most."""
    reported = [
        each
        for each in book_contents(request.plant).months
        if each.report is not ReportState.MISSING
    ]
    streams = request.GET.getlist("stream")[:MOST_STREAMS]
    year = max(book_contents(request.plant).flows, default="")
    names = [each.name for each in book_contents(request.plant).flows.get(year, ())]
    words = {"months": reported, "streams": streams, "names": names, "section": "ask"}
    words["query"] = request.GET.urlencode()
    return render(request, "ask/chart.html", words)


def chart_picture(request: HttpRequest) -> HttpResponse:
    """Give the chart as a picture."""
    from plantbal.report.chart import chosen_lines, write_chart
    from plantbal.report.trend import trend_of

    contents = book_contents(request.plant)
    names = [m.name for m in contents.months if m.report is not ReportState.MISSING][-MOST_CHARTED:]
    if not names:
        raise Http404
    text = "".join(plain_book(request.plant).kept(name).text for name in names)
    days = "".join(f"period,{m.name},{m.first},{m.last}\n" for m in contents.months)
    trend = trend_of(parse_report(text, "the reports"), days.encode("ascii"))
    streams = [each[:40] for each in request.GET.getlist("stream")[:MOST_STREAMS]]
    out = io.BytesIO()
    write_chart(trend, chosen_lines(trend, 0 if streams else 8, streams), out, "svg", spoken())
    answer = HttpResponse(out.getvalue(), content_type="image/svg+xml")
    answer["Content-Security-Policy"] = "default-src 'none'; style-src 'unsafe-inline'"
    return answer
