"""A form is carried out once, whatever a double click, two tabs or the back button send.

Each form has a key. The first that sends it makes a row of it and does the work; another finds the
row and is shown what came of the first. If the work ends with a fault, nothing was booked, and the
row goes, so that the corrected form can be sent. If the process is killed, the row stays without an
end; the version of the book that the form has then says whether anything was booked.
"""

from __future__ import annotations

import secrets
from collections.abc import Callable
from datetime import timedelta

from django.contrib import messages
from django.db import IntegrityError, transaction
from django.http import HttpRequest, HttpResponse
from django.shortcuts import redirect
from django.urls import reverse
from django.utils import timezone
from django.utils.translation import gettext as _

from plantbal.book.approval.submitting import Submitted, Unsigned
from plantbal.faults import Fault
from plantbal_office.deeds.models import Deed
from plantbal_office.deeds.signing import SUBMISSION, signed_text

LONGEST = 64
# After this long a deed without an end was stopped, and its key may be used again.
STOPPED = timedelta(minutes=10)


def new_key() -> str:
    """Return the key of a form."""
    return secrets.token_urlsafe(18)


def once(request: HttpRequest, act: Callable[[], str]) -> HttpResponse:
    """Do what a form asks for, if it wasn't done before.

    Parameters
    ----------
    request : HttpRequest
        The form that was sent.
    act : callable
        Does it, and returns the address of the page that shows what came of it. What the rules of
        the book withhold is submitted, and what waits is shown; or nothing is done, and the text to
        be signed is given.

    Raises
    ------
    Fault
        As `act` does: then nothing was done.
    """
    key = request.POST.get("deed", "")
    if not 16 <= len(key) <= LONGEST:
        raise Fault(
            _("this form has no key"), remedy=_("reload the page, and fill in the form again")
        )
    Deed.objects.filter(key=key, ended=None, begun__lt=timezone.now() - STOPPED).delete()
    plant = getattr(request, "plant", None)
    try:
        with transaction.atomic():
            deed = Deed.objects.create(
                key=key,
                person=request.user,
                plant=plant,
                address=request.path[:200],
                shown=request.POST.get("version", "")[:80],
            )
    except IntegrityError:
        return _again(request, key)
    try:
        outcome = act()
    except Submitted as waits:
        what = _("{name} is submitted, and waits for an approval by somebody else.")
        messages.success(request, what.format(name=waits.said))
        outcome = reverse("correct:waiting", args=[request.plant.slug])
    except Unsigned as asked:
        deed.delete()
        return signed_text(asked.signs, SUBMISSION)
    except BaseException:
        deed.delete()
        raise
    Deed.objects.filter(pk=deed.pk).update(ended=timezone.now(), outcome=outcome[:500])
    return redirect(outcome)


def _again(request: HttpRequest, key: str) -> HttpResponse:
    """Answer a form that was sent before."""
    deed = Deed.objects.filter(key=key, person=request.user).first()
    if deed is None:
        raise Fault(_("this form belongs to somebody else"), remedy=_("reload the page"))
    if deed.ended is None:
        return redirect("deeds:outcome", key=key)
    messages.info(request, _("This form had already been sent: nothing was done twice."))
    return redirect(deed.outcome)
