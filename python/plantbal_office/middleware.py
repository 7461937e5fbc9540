"""What each page is wrapped in: its headers, its size, who may see it, and faults as sentences."""

from __future__ import annotations

import errno
import logging
from collections.abc import Callable
from typing import Any

from django.conf import settings
from django.contrib.auth.views import redirect_to_login
from django.core.exceptions import SuspiciousOperation
from django.http import Http404, HttpRequest, HttpResponse
from django.shortcuts import get_object_or_404, render
from django.utils import translation
from django.utils.translation import gettext as _

from plantbal.book.expected import Moved
from plantbal.faults import Fault, Faults, InputFault, ToolMissing
from plantbal_office.access import AccessRule, Role, Scope, rule_of
from plantbal_office.plants.models import Plant

Answer = Callable[[HttpRequest], HttpResponse]
log = logging.getLogger("plantbal_office")

# Nothing but the server's own files, and no script or style within a page.
POLICY = "; ".join(
    [
        "default-src 'none'",
        "script-src 'self'",
        "style-src 'self'",
        "img-src 'self' data:",
        "connect-src 'self'",
        "form-action 'self'",
        "base-uri 'none'",
        "frame-ancestors 'none'",
    ]
)
# The same for a page that runs the program's core: its code is compiled, and no text of a script is.
POLICY_WITH_CORE = POLICY.replace(
    "script-src 'self'", "script-src 'self' 'wasm-unsafe-eval'; worker-src 'self'"
)
# What a form has beside the files in it.
_BESIDE = 1 << 20


class Headers:
    """Has each answer say what a browser may load, and that no page is kept."""

    def __init__(self, answer: Answer) -> None:
        self.answer = answer

    def __call__(self, request: HttpRequest) -> HttpResponse:
        response = self.answer(request)
        response.setdefault("Content-Security-Policy", POLICY)
        response.setdefault("X-Content-Type-Options", "nosniff")
        response.setdefault("X-Frame-Options", "DENY")
        response.setdefault("Permissions-Policy", "camera=(), geolocation=(), microphone=()")
        if not request.path.startswith(settings.STATIC_URL):
            response.setdefault("Cache-Control", "no-store")
        return response


class Sizes:
    """Refuses what is longer than any workbook before it is read."""

    def __init__(self, answer: Answer) -> None:
        self.answer = answer

    def __call__(self, request: HttpRequest) -> HttpResponse:
        length = request.META.get("CONTENT_LENGTH") or "0"
        most = settings.PLANTBAL_UPLOAD
        if request.method == "POST" and not (length.isdigit() and int(length) <= most + _BESIDE):
            what = _("this is larger than {most:,} bytes, and nothing of it was read")
            fault = Fault(what.format(most=most), remedy=_("send the workbook of one month"))
            response = fault_page(request, fault, 413)
            response["Connection"] = "close"
            return response
        return self.answer(request)


class Access:
    """Serves what the table of `access.py` allows, and nothing else."""

    def __init__(self, answer: Answer) -> None:
        self.answer = answer

    def __call__(self, request: HttpRequest) -> HttpResponse:
        return self.answer(request)

    def process_view(
        self, request: HttpRequest, view: object, args: object, kwargs: dict[str, Any]
    ) -> HttpResponse | None:
        """Return nothing if the person may, and otherwise what is said instead."""
        match = request.resolver_match
        if match.url_name == "static":
            return None
        rule = rule_of(match.view_name, request.method or "")
        if rule is None:
            return fault_page(request, Fault(_("there is nothing of this kind here")), 405)
        if rule.scope is Scope.ANYBODY:
            return None
        if not request.user.is_authenticated:
            return redirect_to_login(request.get_full_path())
        if request.user.language and request.user.language != translation.get_language():
            translation.activate(request.user.language)
        return _refused(request, rule, kwargs)


def _refused(request: HttpRequest, rule: AccessRule, kwargs: dict[str, Any]) -> HttpResponse | None:
    """Return what is said to a person who may not, and note the plant and the roles."""
    roles: frozenset[Role] = frozenset()
    if request.user.is_administrator:
        roles = frozenset({Role.ADMINISTRATOR})
    if rule.scope is Scope.PLANT:
        request.plant = get_object_or_404(Plant, slug=kwargs.pop("plant"))
        roles = request.user.roles_in(request.plant)
        if not roles - {Role.ADMINISTRATOR}:
            raise Http404  # not even that there is such a plant
    request.roles = roles
    if rule.allows(roles):
        return None
    wanted = ", ".join(sorted(role.value for role in rule.roles)) or Role.ADMINISTRATOR.value
    what = _("this needs another role: {roles}").format(roles=wanted)
    return fault_page(request, Fault(what, remedy=_("ask your administrator for it")), 403)


class Sentences:
    """Answers a fault by a sentence, whichever page it comes from."""

    def __init__(self, answer: Answer) -> None:
        self.answer = answer

    def __call__(self, request: HttpRequest) -> HttpResponse:
        return self.answer(request)

    def process_exception(self, request: HttpRequest, error: Exception) -> HttpResponse | None:
        """Return the page of a fault; what isn't foreseen stays an error of the server."""
        fault = foreseen_fault(error)
        if isinstance(error, (Http404, SuspiciousOperation)):
            return None  # whoever asks is told; it is no error of the server
        if fault is None:
            log.exception("%s: %s", request.path, error)
            return None
        return fault_page(request, fault, 409 if isinstance(fault, Moved) else 400)


def foreseen_fault(error: BaseException) -> Fault | None:
    """Return what is said of an error, or None if it isn't foreseen."""
    if isinstance(error, Fault):
        return error
    if isinstance(error, OSError) and error.errno in (errno.ENOSPC, errno.EDQUOT):
        return InputFault(
            _("the disk is full, and nothing was booked"), remedy=_("free some space")
        )
    if isinstance(error, MemoryError):
        return InputFault(_("there isn't enough memory for this"), remedy=_("send less at a time"))
    if isinstance(error, ModuleNotFoundError):
        library = (error.name or "").partition(".")[0]
        return ToolMissing(library, f"python3-{library}")
    return None


def fault_page(request: HttpRequest, fault: Fault, status: int) -> HttpResponse:
    """Return the page that says a fault."""
    lines = fault.lines if isinstance(fault, Faults) else ()
    since = fault.since if isinstance(fault, Moved) else ()
    words = {"fault": fault, "lines": lines, "since": since, "status": status}
    return render(request, "fault.html", words, status=status)


def not_found(request: HttpRequest, exception: Exception) -> HttpResponse:
    """Return the page of an address that there isn't."""
    what = _("there is no such page, or you may not see it")
    return fault_page(request, Fault(what, remedy=_("start from the list of plants")), 404)


def bad_request(request: HttpRequest, exception: Exception) -> HttpResponse:
    """Return the page of a request that can't be read."""
    what = _("this request can't be read, or is longer than any form")
    return fault_page(request, Fault(what, remedy=_("reload the page")), 400)


def broken(request: HttpRequest) -> HttpResponse:
    """Return the page of an error that nobody foresaw."""
    what = _("there was an internal error, and nothing was booked")
    return render(request, "broken.html", {"what": what}, status=500)


def csrf_failed(request: HttpRequest, reason: str = "") -> HttpResponse:
    """Return the page of a form that isn't of this sign-in, or of one that has ended."""
    what = _("your session has ended, or this form belongs to another one; nothing was booked")
    return fault_page(request, Fault(what, remedy=_("sign in, and fill the form in again")), 403)
