"""Asks each address with each method as each person, within Django as the office's service sets it up, without a server.

test_each_address.py starts it with a folder and reads what it prints, a line for each ask: the
address, the method, who, whether in another plant of theirs, the status, and what of rows and files
has changed. Each ask is undone before the next.
"""

from __future__ import annotations

import copy
import re
import sys
import time
from collections.abc import Iterator
from pathlib import Path
from typing import Any

import asks
from asks import ASKS, OF_PLANTS, Ask

from plantbal_office.service.command import ready

ready()

# Django has to be ready before these.
import behind  # noqa: E402
from django.core.files.uploadedfile import SimpleUploadedFile  # noqa: E402
from django.test import Client  # noqa: E402
from django.urls import get_resolver  # noqa: E402

from plantbal import Book  # noqa: E402
from plantbal.gates import Gate  # noqa: E402
from plantbal_office.access import IN_A_PLANT, RULES, SERVICE_RULES  # noqa: E402
from plantbal_office.deeds.once import new_key  # noqa: E402

METHODS = ("GET", "POST")
SLUGS = ("mill", "two", "other")
NOBODY = ""


class Asker:
    """Asks as one person or another, and undoes what comes of it."""

    def __init__(self, here: behind.Behind) -> None:
        self.here = here
        self.versions = {
            slug: str(Book(here.room / "behind" / slug).contents().version) for slug in SLUGS
        }
        self.clients = {who: self._client(who) for who in (*here.people, NOBODY)}
        self.rows = here.rows()

    def _client(self, who: str) -> Client:
        """A browser in which somebody has signed in."""
        client = Client(raise_request_exception=False, SERVER_NAME="localhost")
        if who != NOBODY:
            client.force_login(self.here.people[who], "django.contrib.auth.backends.ModelBackend")
            session = client.session
            session["since"] = int(time.time())
            session.save()
        return client

    def ask(self, key: tuple[str, str], who: str, ask: Ask, method: str, where: str) -> None:
        """Ask in each place, and print what came of it."""
        for path in ask.paths:
            words = self.here.words | {"done": behind.key_of(who or "stranger")}
            with self.here.put_back() as changed:
                answer = self._sent(who, ask, method, path.format(**words), words)
                is_form = method == "POST" and answer.status_code != 405
                if is_form and self.here.rows() != self.rows:
                    changed.append("rows")
            to = answer.headers.get("Location", "") or said_in(answer)
            status = str(answer.status_code)
            print("|".join((*key, who, where, status, to, "+".join(changed))), flush=True)

    def _sent(self, who: str, ask: Ask, method: str, path: str, words: dict[str, str]) -> Any:
        client = self.clients[who]
        kept = copy.deepcopy(client.cookies)
        try:
            if method == "GET":
                return client.get(path, secure=True)
            return client.post(path, self._form(ask, path, words), secure=True)
        finally:
            client.cookies = kept

    def _form(self, ask: Ask, path: str, words: dict[str, str]) -> dict[str, object]:
        """What a form sends: its key, the version of the book, and its fields."""
        slug = path.split("/")[2] if path.startswith("/p/") else "mill"
        form: dict[str, object] = {"deed": new_key(), "version": self.versions[slug]}
        for name, text in ask.data.items():
            names = [f"why-{gate.value}" for gate in Gate] if name == "why-*" else [name]
            form |= dict.fromkeys(names, text.format(**words) if name != "cells" else text)
        for name, file in ask.files.items():
            place = behind.FILES[file]
            form[name] = SimpleUploadedFile(place.name, place.read_bytes())
        return form


def said_in(answer: Any) -> str:
    """What a page says of a fault, in a line."""
    if answer.status_code < 400:
        return ""
    text = re.sub(r"<[^>]*>|\s+|\|", " ", answer.content.decode().partition("<main")[2])
    return " ".join(text.split())[:200]


def names_of(patterns: Any, names: str = "") -> Iterator[str]:
    """The names of all addresses that are served."""
    for each in patterns:
        if hasattr(each, "url_patterns"):
            yield from names_of(
                each.url_patterns, f"{names}{each.namespace}:" if each.namespace else names
            )
        else:
            yield names + each.name


def main() -> None:
    """Ask everything."""
    there = set(names_of(get_resolver().url_patterns))
    rules = RULES.keys() | SERVICE_RULES.keys()
    assert there == {name for name, _ in rules}, there ^ {name for name, _ in rules}
    asked = ASKS.keys() | asks.REPLACED
    assert asked == rules, f"each address of the table is asked: {asked ^ rules}"
    here = behind.made(Path(sys.argv[1]))
    asker, roles = Asker(here), [role.value for role in IN_A_PLANT]
    # What is made of a book is kept until one of its files changes: those who look come first.
    for key, ask in sorted(ASKS.items(), key=lambda each: each[0][1]):
        for who in (*here.people, NOBODY):
            asker.ask(key, who, ask, key[1], "")
        if ask.elsewhere:
            there_ = asks.below(OF_PLANTS[key], "other")
            for who in filter(lambda name: name.startswith(behind.ELSEWHERE), here.people):
                asker.ask(key, who, there_, key[1], "elsewhere")
    for name, ask in {name: ask for (name, _), ask in ASKS.items()}.items():
        for method in METHODS:
            if (name, method) not in rules:
                for who in (*roles, "root", NOBODY):
                    asker.ask((name, method), who, Ask(405, ask.paths[:1]), method, "")


main()
