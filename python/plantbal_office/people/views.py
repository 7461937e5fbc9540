"""Signing in by the key of one person's desk or by name and password, and the language."""

from __future__ import annotations

from urllib.parse import urlencode

from django import forms
from django.conf import settings
from django.contrib.auth import authenticate, login, logout
from django.http import HttpRequest, HttpResponse, HttpResponseRedirect
from django.shortcuts import redirect, render
from django.utils import translation
from django.utils.crypto import constant_time_compare
from django.utils.http import url_has_allowed_host_and_scheme
from django.utils.translation import gettext as _
from django.utils.translation import gettext_lazy

from plantbal_office.people.models import Person

BY_MODEL = "django.contrib.auth.backends.ModelBackend"
ONE = "desk"  # the name of the one person of a desk without names


class SignIn(forms.Form):
    """A name and a password."""

    name = forms.CharField(
        label=gettext_lazy("Name"),
        max_length=150,
        widget=forms.TextInput({"autocomplete": "username"}),
    )
    password = forms.CharField(
        label=gettext_lazy("Password"),
        max_length=200,
        widget=forms.PasswordInput({"autocomplete": "current-password"}),
    )


def alive(request: HttpRequest) -> HttpResponse:
    """Say that the server answers."""
    return HttpResponse("alive\n", content_type="text/plain")


def signin(request: HttpRequest) -> HttpResponse:
    """Sign in by the key in the address, or by name and password."""
    then = request.GET.get("next", "/")
    if not url_has_allowed_host_and_scheme(then, {request.get_host()}):
        then = "/"
    if settings.PLANTBAL_KEY:
        key = request.GET.get("key", "")
        if key.isascii() and constant_time_compare(key, settings.PLANTBAL_KEY):
            login(request, Person.objects.get(username=ONE), backend=BY_MODEL)
            return redirect(then)
        return render(request, "people/key.html", status=403)
    form = SignIn(request.POST or None)
    if request.method == "POST" and form.is_valid():
        words = form.cleaned_data
        person = authenticate(request, username=words["name"], password=words["password"])
        if person is not None:
            login(request, person)
            return redirect(then)
        form.add_error(None, _("The name or the password is wrong."))
    return render(request, "people/signin.html", {"form": form, "next": urlencode({"next": then})})


def signout(request: HttpRequest) -> HttpResponse:
    """Sign out."""
    logout(request)
    return redirect("people:signin")


def language(request: HttpRequest) -> HttpResponse:
    """Take another language, and go back to the page that it was chosen on."""
    wanted = request.POST.get("language", "")
    then = request.POST.get("next", "/")
    if not url_has_allowed_host_and_scheme(then, {request.get_host()}):
        then = "/"
    answer = HttpResponseRedirect(then)
    if wanted in dict(settings.LANGUAGES):
        translation.activate(wanted)
        if request.user.is_authenticated:
            Person.objects.filter(pk=request.user.pk).update(language=wanted)
        age = 365 * 24 * 3600
        answer.set_cookie(
            settings.LANGUAGE_COOKIE_NAME, wanted, max_age=age, httponly=True, samesite="Strict"
        )
    return answer
