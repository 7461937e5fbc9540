"""Looking: the statement, a stream's readings and years, a fact and its lines, the journal."""

from __future__ import annotations

import tempfile
from collections.abc import Callable
from pathlib import Path

from django.http import Http404, HttpRequest, HttpResponse
from django.shortcuts import render
from django.utils.translation import gettext as _

from plantbal.book.looking import BookMonth, BookStream
from plantbal.book.results import ReportState
from plantbal.commands.book.showing import in_unit
from plantbal.estimates import is_marked
from plantbal.faults import Fault
from plantbal_office.look.days import month_days, place_of, stream_months
from plantbal_office.look.statement import prepared_of, statement_of, whole_page
from plantbal_office.notes.models import Note
from plantbal_office.plants.models import Plant
from plantbal_office.plants.standing import stand_of
from plantbal_office.shelf import book_contents, last_rounds, plain_book

LINES = 200  # of the journal on a page
MOST_ROUNDS = 6  # that are offered
XLSX = "application/vnd.openxmlformats-officedocument.spreadsheetml.sheet"


def month_in_address(request: HttpRequest, period: str) -> BookMonth:
    """Return the month that an address names."""
    month = book_contents(request.plant).month(period)
    if month is None:
        raise Http404
    return month


def statement(request: HttpRequest, period: str) -> HttpResponse:
    """Show the statement of a month, as its report is kept."""
    month = month_in_address(request, period)
    contents = book_contents(request.plant)
    stand = stand_of(request.plant, month)
    names = [each.name for each in contents.months]
    at = names.index(period)
    words = {
        "month": month,
        "stand": stand,
        "version": contents.version,
        "section": "statement",
        "before": names[at - 1] if at else "",
        "after": names[at + 1] if at + 1 < len(names) else "",
        "is_old": month.report is ReportState.OLDER,
        "rounds": _rounds_offered(request.plant, month),
        "earlier": range(1, month.earlier + 1),
        "about": f"month:{period}",
        "notes": Note.objects.filter(plant=request.plant, period=period).select_related("person"),
    }
    if month.report is not ReportState.MISSING:
        words["shown"] = statement_of(request.plant, period)
    return render(request, "look/statement.html", words)


def _rounds_offered(plant: Plant, month: BookMonth) -> list[tuple[int, bool]]:
    """Return how many suspects a report may leave out, and which the last one was made with.

    That of a closed month leaves out what it did, so nothing is offered.
    """
    if month.closed:
        return []
    last = last_rounds(plant, month)
    return [(each, each == last) for each in sorted({*range(MOST_ROUNDS + 1), last})]


def notes_on(request: HttpRequest, about: str) -> dict[str, object]:
    """Return the comments on something, for its page."""
    found = Note.objects.filter(plant=request.plant, about=about).select_related("person")
    return {"about": about, "notes": found}


def proof(request: HttpRequest, period: str) -> HttpResponse:
    """Give the bounds and certificates of a large plant, which its page loads after itself."""
    month = month_in_address(request, period)
    if month.report is ReportState.MISSING:
        raise Fault(_("there is no report yet"), remedy=_("make one first"))
    return HttpResponse(statement_of(request.plant, period).proof)


def earlier(request: HttpRequest, period: str, number: int) -> HttpResponse:
    """Show an earlier report of a month, which went out once."""
    month = month_in_address(request, period)
    shown = statement_of(request.plant, period, number)
    words = {"month": month, "shown": shown, "number": number, "section": "statement"}
    return render(request, "look/earlier.html", words)


def drawing(request: HttpRequest, period: str) -> HttpResponse:
    """Show the drawing of a month by itself, to zoom and to search in."""
    month = month_in_address(request, period)
    if month.report is ReportState.MISSING:
        raise Fault(_("there is no report yet, and the drawing is made from one"))
    shown = statement_of(request.plant, period)
    words = {"month": month, "shown": shown, "section": "drawing"}
    return render(request, "look/drawing.html", words)


def stream(request: HttpRequest, period: str, name: str) -> HttpResponse:
    """Show what is booked of a stream or a tank in a month, day by day, and its other months."""
    month = month_in_address(request, period)
    contents = book_contents(request.plant)
    place = place_of(contents, month, name)
    days = month_days(request.plant, month, place)
    words = {
        "month": month,
        "place": place,
        "is_tank": not isinstance(place, BookStream),
        "days": days,
        "tops": _bars([each.fact.values[0] if each.fact else None for each in days]),
        "years": stream_months(request.plant, place.name),
        "version": contents.version,
        "section": "statement",
        "missing": sum(each.is_missing for each in days),
    } | notes_on(request, f"stream:{place.name}")
    return render(request, "look/stream.html", words)


def _bars(values: list[int | None]) -> list[tuple[float, float, int]]:
    """Return bars of figures: left and height in percent of the picture, and the number."""
    most = max((abs(each) for each in values if each is not None), default=0) or 1
    width = 100 / max(1, len(values))
    return [
        (round(at * width, 3), round(100 * abs(value or 0) / most, 2), at)
        for at, value in enumerate(values)
    ]


def fact(request: HttpRequest, year: str, identity: str) -> HttpResponse:
    """Show a fact: what it says, what it was, the row and the lines of the journal that have it."""
    version = book_contents(request.plant).version
    found = plain_book(request.plant).fact(year, identity)
    here = found.shown.fact
    words = {
        "found": found,
        "fact": here,
        "in_unit": in_unit(here, found.meter),
        "is_estimate": is_marked(here.id) and not found.shown.before,
        "version": version,
        "section": "statement",
    } | notes_on(request, f"fact:{year}:{identity}")
    return render(request, "look/fact.html", words)


def journal(request: HttpRequest) -> HttpResponse:
    """Show the journal, the latest lines first."""
    lines = book_contents(request.plant).lines
    number = request.GET.get("page", "1")
    at = int(number) if number.isascii() and number.isdigit() and len(number) < 6 else 1
    shown = list(reversed(lines))[(at - 1) * LINES : at * LINES]
    words = {"lines": shown, "page": at, "section": "journal"}
    words |= {"newer": at - 1, "older": at + 1 if at * LINES < len(lines) else 0}
    return render(request, "look/journal.html", words)


# ---- files


def export(request: HttpRequest, period: str, kind: str) -> HttpResponse:
    """Give a month as a file: its workbook, its page, its PDF, its report, its session."""
    month = month_in_address(request, period)
    if month.report is ReportState.MISSING:
        raise Fault(_("there is no report yet"), remedy=_("make one first"))
    make = FILES.get(kind)
    if make is None:
        raise Http404
    data, type_, ending = make(request.plant, period)
    answer = HttpResponse(data, content_type=type_)
    name = f"{request.plant.slug}_{period}{ending}"
    answer["Content-Disposition"] = f'attachment; filename="{name}"'
    answer["Content-Security-Policy"] = "default-src 'none'; sandbox"
    return answer


File = tuple[bytes, str, str]


def _workbook(plant: Plant, period: str) -> File:
    """Return the workbook of a month."""
    from plantbal.page.books import booked
    from plantbal.page.head import Origin
    from plantbal.page.sheets import write_workbook

    prepared, source = prepared_of(plant, period)
    accounts = list(booked(plant.folder, source.rows).accounts.values())
    origin = Origin(plant.name, "", None, str(book_contents(plant).version))
    with tempfile.TemporaryDirectory(prefix="plantbal-export-") as folder:
        place = Path(folder) / "month.xlsx"
        write_workbook(place, prepared, origin, accounts)
        return place.read_bytes(), XLSX, ".xlsx"


def _paper(plant: Plant, period: str) -> File:
    """Return the statement on A4."""
    from plantbal.page.paper import print_pdf

    with tempfile.TemporaryDirectory(prefix="plantbal-export-") as folder:
        place = Path(folder) / "month.pdf"
        print_pdf(whole_page(plant, period), str(place))
        return place.read_bytes(), "application/pdf", ".pdf"


def _page(plant: Plant, period: str) -> File:
    """Return the statement as a page that needs no network."""
    return whole_page(plant, period).encode("utf-8"), "text/html; charset=utf-8", ".html"


def _report(plant: Plant, period: str) -> File:
    """Return the report as it is kept."""
    return plain_book(plant).kept(period).text.encode("utf-8"), "text/csv", ".report.csv"


def _session(plant: Plant, period: str) -> File:
    """Return the session that asks for the report."""
    return plain_book(plant).session_asking(period).encode("utf-8"), "text/csv", ".session.csv"


FILES: dict[str, Callable[[Plant, str], File]] = {
    "xlsx": _workbook,
    "pdf": _paper,
    "page": _page,
    "report": _report,
    "session": _session,
}
