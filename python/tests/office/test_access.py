"""Who may do what: each address with each role, as the table of `plantbal_office.access` says."""

from __future__ import annotations

import secrets
from collections.abc import Iterator
from pathlib import Path

import pytest
from office import site_of

# What stands in addresses; a role that may is answered by something else than 403 and 404.
WORDS = {
    "period": "2024-04",
    "name": "TAILS",
    "year": "2023-24",
    "identity": "FI-302_2024-04-18",
    "number": "1",
    "drop": "00000000-0000-4000-8000-000000000000",
    "note": "00000000-0000-4000-8000-000000000000",
    "key": "none",
    "task": "1",
}
KINDS = {"enter:grid": "readings"}
# These find nothing of this name, whoever asks.
NOTHING = {
    "enter:seen",
    "enter:mapping",
    "plants:done",
    "look:earlier",
    "notes:file",
    "deeds:outcome",
}


def addresses() -> Iterator[tuple[str, str]]:
    """The names of all addresses, and their paths."""
    from django.urls import get_resolver

    def walk(patterns: object, names: str, path: str) -> Iterator[tuple[str, str]]:
        for each in patterns:  # type: ignore[attr-defined]
            if hasattr(each, "url_patterns"):
                inner = f"{names}{each.namespace}:" if each.namespace else names
                yield from walk(each.url_patterns, inner, path + str(each.pattern))
            else:
                yield names + each.name, path + str(each.pattern)

    yield from walk(get_resolver().url_patterns, "", "/")


def path_of(pattern: str, plant: str) -> str:
    """The path of an address in a plant."""
    for name, word in (WORDS | {"plant": plant}).items():
        for kind in ("slug", "str", "int", "uuid"):
            pattern = pattern.replace(f"<{kind}:{name}>", word)
    return pattern


@pytest.mark.usefixtures("made")
def test_each_address_has_a_rule() -> None:
    """No address is without a rule, and no rule without an address."""
    from plantbal_office.access import RULES

    there = {name for name, _ in addresses()}
    assert there == {address for address, _ in RULES}, "addresses and rules are the same"


def test_roles(made: Path, tmp_path: Path) -> None:
    """Each role may what the table says, and nothing else; a stranger isn't even told of the plant."""
    from plantbal_office.access import IN_A_PLANT, RULES, Role, Scope

    patterns = dict(addresses())
    wrong = []
    for role in [*IN_A_PLANT, None]:
        name = "r" + secrets.token_hex(4)
        site = site_of.Site(tmp_path, name, (role.value,) if role else (), made)
        for (address, method), rule in RULES.items():
            if rule.scope is not Scope.PLANT or address in NOTHING:
                continue
            pattern = patterns[address].replace("<slug:kind>", KINDS.get(address, "report"))
            path = path_of(pattern, site.plant.slug)
            answer = site.client.get(path) if method == "GET" else site.client.post(path)
            may = role is not None and rule.allows([role])
            want = {False: (404,) if role is None else (403,), True: ()}[may]
            refused = answer.status_code in (403, 404, 405)
            if refused == may or (not may and answer.status_code not in want):
                wrong.append((role and role.value, method, address, answer.status_code))
            assert answer.status_code < 500, (address, method, role)
    assert not wrong
    assert Role.ADMINISTRATOR not in IN_A_PLANT, "an administrator has no role in a plant"


def test_administrator_sees_no_figure(made: Path, tmp_path: Path) -> None:
    """An administrator without a role in a plant isn't shown that there is one."""
    site = site_of.Site(tmp_path, "a" + secrets.token_hex(4), (), made)
    site.person.is_administrator = True
    site.person.save()
    for path in ("", "look/2024-04/", "look/journal", "look/2024-04/file/report"):
        assert site.get(path).status_code == 404, path
    assert site.client.get("/open").status_code == 200, "and may open a book"
    assert b"TAILS" not in site.client.get("/").content


@pytest.mark.usefixtures("made")
def test_without_a_key() -> None:
    """Without the key nobody is in, and a wrong one lets nobody in."""
    from django.test import Client

    client = Client()
    assert client.get("/").status_code == 302
    for path in ("/people/sign-in", "/people/sign-in?key=wrong", "/people/sign-in?key=%C3%A4"):
        assert client.get(path).status_code == 403, path
    answer = client.get("/people/sign-in")
    policy = answer["Content-Security-Policy"]
    assert "script-src 'self'" in policy and "unsafe" not in policy, "no script within a page"


def test_database_has_no_figure(made: Path, site: site_of.Site) -> None:
    """No column of the desk's own tables has a number but ids, times and yes or no."""
    from django.apps import apps

    for model in apps.get_models():
        if model.__module__.startswith("plantbal_office"):
            for field in model._meta.get_fields():
                kind = type(field).__name__
                assert kind not in ("IntegerField", "FloatField", "DecimalField"), (model, field)
