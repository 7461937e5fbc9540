"""Signing in with lockout and a second factor, by LDAP or OpenID Connect too; the log."""

from __future__ import annotations

import time
from urllib.parse import urlencode

from django import forms
from django.conf import settings
from django.contrib.auth import authenticate, login, logout, update_session_auth_hash
from django.contrib.auth.forms import PasswordChangeForm
from django.http import HttpRequest, HttpResponse
from django.shortcuts import redirect, render
from django.utils.http import url_has_allowed_host_and_scheme
from django.utils.translation import gettext as _
from django.utils.translation import gettext_lazy

from plantbal_office.people.models import Person
from plantbal_office.people.views import BY_MODEL, SignIn
from plantbal_office.service import factors, locks
from plantbal_office.service.models import Event

_PENDING, _SECONDS = "second", 300
_SHOWN = 500  # events


class CodeForm(forms.Form):
    """A code of a second factor."""

    code = forms.CharField(
        label=gettext_lazy("Six-digit code"),
        max_length=12,
        widget=forms.TextInput({"autocomplete": "one-time-code", "inputmode": "numeric"}),
    )


def safe_next(request: HttpRequest) -> str:
    """Return where to go after the sign-in: a page of this service."""
    then = request.GET.get("next", "/")
    return then if url_has_allowed_host_and_scheme(then, {request.get_host()}) else "/"


def service_signin(request: HttpRequest) -> HttpResponse:
    """Sign in by name and password."""
    form = SignIn(request.POST or None)
    then = safe_next(request)
    status = 200
    if request.method == "POST" and form.is_valid():
        name = form.cleaned_data["name"]
        if locks.is_locked(request, name):
            locks.note(request, Event.Kind.LOCKED, name)
            form.add_error(None, _("Too many failed attempts: wait a quarter of an hour."))
            status = 429
        else:
            person = authenticate(request, username=name, password=form.cleaned_data["password"])
            if person is not None:
                return entered(request, person, then)
            locks.note(request, Event.Kind.FAILED, name)
            form.add_error(None, _("The name or the password is wrong."))
            status = 403
    words = {"form": form, "next": urlencode({"next": then}), "oidc": settings.PLANTBAL_OIDC}
    return render(request, "service/signin.html", words, status=status)


def entered(request: HttpRequest, person: Person, then: str) -> HttpResponse:
    """Let a person in whose name is known, or ask for the second factor first."""
    backend = getattr(person, "backend", BY_MODEL)
    if factors.has_one(person):
        request.session.flush()
        request.session[_PENDING] = [person.pk, int(time.time()), backend, then]
        return redirect("service:second")
    return _signed_in(request, person, backend, then)


def _signed_in(request: HttpRequest, person: Person, backend: str, then: str) -> HttpResponse:
    login(request, person, backend=backend)
    request.session["since"] = int(time.time())
    locks.note(request, Event.Kind.SIGNED_IN, person.get_username())
    return redirect(then)


def second(request: HttpRequest) -> HttpResponse:
    """Ask for the second factor."""
    pending = request.session.get(_PENDING)
    if not pending or time.time() - pending[1] > _SECONDS:
        return redirect("people:signin")
    person = Person.objects.filter(pk=pending[0], is_active=True).first()
    if person is None:
        return redirect("people:signin")
    form, status = CodeForm(request.POST or None), 200
    if request.method == "POST" and form.is_valid():
        name = person.get_username()
        if locks.is_locked(request, name):
            locks.note(request, Event.Kind.LOCKED, name)
            form.add_error(None, _("Too many failed attempts: wait a quarter of an hour."))
            status = 429
        elif factors.takes(person, form.cleaned_data["code"]):
            del request.session[_PENDING]
            return _signed_in(request, person, pending[2], pending[3])
        else:
            locks.note(request, Event.Kind.SECOND_FAILED, name)
            form.add_error(None, _("This code is wrong, or has already been used."))
            status = 403
    return render(request, "service/second.html", {"form": form}, status=status)


def enroll(request: HttpRequest) -> HttpResponse:
    """Take a second factor: show its secret once, and ask for a code."""
    if factors.has_one(request.user):
        return redirect("/")
    secret = factors.secret_for(request.user)
    form = CodeForm(request.POST or None)
    if request.method == "POST" and form.is_valid():
        if factors.takes(request.user, form.cleaned_data["code"], confirm=True):
            locks.note(request, Event.Kind.ENROLLED, request.user.get_username())
            return redirect("/")
        form.add_error(None, _("This code is wrong, or has already been used."))
    words = {
        "form": form,
        "secret": secret,
        "picture": factors.secret_picture(request.user, secret),
    }
    return render(request, "service/enroll.html", words)


def password(request: HttpRequest) -> HttpResponse:
    """Take another password; all other sign-ins of the person end."""
    form = PasswordChangeForm(request.user, request.POST or None)
    if request.method == "POST" and form.is_valid():
        form.save()
        update_session_auth_hash(request, form.user)
        locks.note(request, Event.Kind.PASSWORD, request.user.get_username())
        return redirect("/")
    return render(request, "service/password.html", {"form": form})


def service_signout(request: HttpRequest) -> HttpResponse:
    """Sign out."""
    locks.note(request, Event.Kind.SIGNED_OUT, request.user.get_username())
    logout(request)
    return redirect("people:signin")


def log(request: HttpRequest) -> HttpResponse:
    """Show the log of sign-ins and exports, the latest first."""
    return render(request, "service/log.html", {"events": Event.objects.all()[:_SHOWN]})
