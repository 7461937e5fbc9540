"""What came of a form that was sent before and is still at work, or was stopped."""

from __future__ import annotations

from django.http import Http404, HttpRequest, HttpResponse
from django.shortcuts import redirect, render

from plantbal_office.deeds.models import Deed


def outcome(request: HttpRequest, key: str) -> HttpResponse:
    """Show what came of a form, once that is known."""
    deed = Deed.objects.filter(key=key, person=request.user).first()
    if deed is None:
        raise Http404
    if deed.ended is not None and deed.outcome:
        return redirect(deed.outcome)
    return render(request, "deeds/outcome.html", {"deed": deed})
