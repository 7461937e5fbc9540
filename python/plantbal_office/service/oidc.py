"""Signing in by OpenID Connect: Authlib asks the provider, and an account has to be there."""

from __future__ import annotations

from typing import Any

from django.conf import settings
from django.http import Http404, HttpRequest, HttpResponse
from django.urls import reverse
from django.utils.translation import gettext as _

from plantbal.faults import Fault
from plantbal_office.middleware import fault_page
from plantbal_office.people.models import Person
from plantbal_office.service import locks
from plantbal_office.service.models import Event
from plantbal_office.service.views import entered

_PROVIDER = "provider"


def _client() -> tuple[Any, tuple[type[Exception], ...]]:
    """Return the client of the provider that the configuration names, and how it fails.

    It fails by these errors if the provider doesn't answer, or answers something else than it
    should. A service without a provider needs no Authlib.
    """
    named = settings.PLANTBAL_OIDC
    if not named:
        raise Http404
    from authlib.common.errors import AuthlibBaseError
    from authlib.integrations.django_client import OAuth

    oauth = OAuth()
    oauth.register(
        _PROVIDER,
        client_id=named["client"],
        client_secret=named["secret"],
        server_metadata_url=named["server"],
        client_kwargs={"scope": "openid profile email", "code_challenge_method": "S256"},
    )
    return oauth.create_client(_PROVIDER), (AuthlibBaseError, OSError, ValueError, KeyError)


def leave(request: HttpRequest) -> HttpResponse:
    """Go to the provider."""
    client, failed = _client()
    back = request.build_absolute_uri(reverse("service:back"))
    try:
        answer: HttpResponse = client.authorize_redirect(request, back)
        return answer
    except failed as error:
        locks.note(request, Event.Kind.FAILED, "", f"oidc: {type(error).__name__}")
        what = _("the provider doesn't answer")
        return fault_page(
            request,
            Fault(what, remedy=_("try again later, or sign in with a name and password")),
            503,
        )


def back(request: HttpRequest) -> HttpResponse:
    """Come back from the provider: whoever it names signs in, if that account is there."""
    client, failed = _client()
    why, name = "", ""
    try:
        token = client.authorize_access_token(request)
        name = str((token.get("userinfo") or {}).get(settings.PLANTBAL_OIDC["claim"], ""))
    except failed as error:
        why = type(error).__name__
    if not name:
        locks.note(request, Event.Kind.FAILED, "", f"oidc: {why or 'no name'}")
        what = _("the provider didn't say who you are")
        return fault_page(request, Fault(what, remedy=_("start the sign-in again")), 403)
    person = Person.objects.filter(username=name, is_active=True).first()
    if person is None:
        locks.note(request, Event.Kind.FAILED, name, "oidc: no account")
        what = _("there is no account for you here")
        return fault_page(request, Fault(what, remedy=_("ask your administrator for it")), 403)
    return entered(request, person, "/")
