"""Watches over sign-ins: they end, wait for a second factor, and what leaves the house is logged."""

from __future__ import annotations

import time
from collections.abc import Callable
from typing import Any

from django.conf import settings
from django.contrib.auth import logout
from django.http import HttpRequest, HttpResponse
from django.shortcuts import redirect

from plantbal_office.service import factors, locks
from plantbal_office.service.models import Event

Answer = Callable[[HttpRequest], HttpResponse]
# What leaves the house: files with figures.
EXPORTS = frozenset(("look:export", "notes:bundle", "notes:file"))
# What somebody may do who has yet to take a second factor.
_BEFORE = frozenset(("service:enroll", "service:signout", "people:language", "alive", "static"))


class Watch:
    """Ends sign-ins, and writes exports and refusals into the log."""

    def __init__(self, answer: Answer) -> None:
        self.answer = answer

    def __call__(self, request: HttpRequest) -> HttpResponse:
        if request.user.is_authenticated and _is_over(request):
            locks.note(request, Event.Kind.ENDED, request.user.get_username())
            logout(request)
        response = self.answer(request)
        match, name = request.resolver_match, request.user.get_username()
        if match is not None and request.user.is_authenticated:
            path = request.get_full_path()
            if match.view_name in EXPORTS and response.status_code == 200:
                locks.note(request, Event.Kind.EXPORTED, name, path)
            elif response.status_code in (403, 405):
                locks.note(request, Event.Kind.REFUSED, name, f"{request.method} {path}")
        return response

    def process_view(
        self, request: HttpRequest, view: object, args: object, kwargs: dict[str, Any]
    ) -> HttpResponse | None:
        """Return the page that asks for a second factor, if the person has to have one first."""
        if not request.user.is_authenticated or request.resolver_match.view_name in _BEFORE:
            return None
        person = request.user
        if factors.wants_factor(person, settings.PLANTBAL_SECOND) and not factors.has_one(person):
            return redirect("service:enroll")
        return None


def _is_over(request: HttpRequest) -> bool:
    """Say whether a sign-in is as old as it may get, however often somebody clicks."""
    since = request.session.get("since", 0)
    return time.time() - since > settings.PLANTBAL_LONGEST
