"""Who has to wait: after wrong passwords or codes, by the name and by where they come from."""

from __future__ import annotations

import datetime

from django.http import HttpRequest
from django.utils import timezone

from plantbal_office.service.models import Event

WINDOW = datetime.timedelta(minutes=15)
# Wrong tries within the window: of a name from one address, of a name, and from an address.
MOST_OF_BOTH, MOST_OF_NAME, MOST_OF_ADDRESS = 5, 20, 50
_WRONG = (Event.Kind.FAILED, Event.Kind.SECOND_FAILED)


def client_address(request: HttpRequest) -> str:
    """Return where a request comes from: the proxy in front says it, by X-Real-IP."""
    near = request.META.get("REMOTE_ADDR", "")
    said = request.META.get("HTTP_X_REAL_IP", "") if near in ("", "127.0.0.1", "::1") else ""
    return (said or near or "socket")[:64]


def note(request: HttpRequest, kind: Event.Kind, name: str, what: str = "") -> None:
    """Write something into the log."""
    Event.objects.create(
        kind=kind, name=name[:150], address=client_address(request), what=what[:300]
    )


def is_locked(request: HttpRequest, name: str) -> bool:
    """Say whether a name has to wait, or whoever comes from an address."""
    since = timezone.now() - WINDOW
    wrong = Event.objects.filter(kind__in=_WRONG, when__gte=since)
    address = client_address(request)
    last = Event.objects.filter(kind=Event.Kind.SIGNED_IN, name=name, address=address).first()
    both = wrong.filter(name=name, address=address)
    if last is not None:
        both = both.filter(when__gt=last.when)
    return (
        both.count() >= MOST_OF_BOTH
        or wrong.filter(name=name).count() >= MOST_OF_NAME
        or wrong.filter(address=address).count() >= MOST_OF_ADDRESS
    )
