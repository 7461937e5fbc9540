"""Django's test client on the desk's own application, without a server: for what needs no browser."""

from __future__ import annotations

import os
import re
import shutil
from pathlib import Path
from typing import Any

TOP = Path(__file__).resolve().parents[3]
KEY = "the-key-of-the-tests"


def begun(state: Path) -> None:
    """Have Django ready, with a database in a folder."""
    os.environ["PLANTBAL_DESK_STATE"] = str(state)
    os.environ["PLANTBAL_DESK_SECRET"] = "s" * 50
    os.environ["PLANTBAL_DESK_KEY"] = KEY
    os.environ["DJANGO_SETTINGS_MODULE"] = "plantbal_office.settings.desk"
    import django
    from django.conf import settings
    from django.core.management import call_command

    django.setup()
    settings.ALLOWED_HOSTS = ["testserver", "127.0.0.1"]
    call_command("migrate", verbosity=0)


def mill(folder: Path) -> Path:
    """A book with April, reported."""
    from plantbal import Book
    from plantbal.workbook.options import ReadingOptions

    examples = TOP / "examples" / "month_end"
    book, german = Book(folder), ReadingOptions("de")
    book.begin("2023-24", examples / "plant", reading=german)
    book.add(examples / "april", reading=german)
    book.report("2024-04")
    return folder


class Site:
    """A client that has signed in, in a plant with a book."""

    def __init__(self, folder: Path, name: str, roles: tuple[str, ...], made: Path) -> None:
        from django.test import Client
        from plantbal_office.people.models import Membership, Person
        from plantbal_office.plants.models import Plant

        self.book = folder / name
        shutil.copytree(made, self.book)
        self.plant = Plant.objects.create(slug=name, name=name, folder=str(self.book))
        self.person = Person.objects.create(username=name)
        for role in roles:
            Membership.objects.create(person=self.person, plant=self.plant, role=role)
        self.client = Client()
        self.client.force_login(self.person)

    def get(self, path: str) -> Any:
        """A page of the plant."""
        return self.client.get(f"/p/{self.plant.slug}/{path}")

    def post(self, path: str, data: dict[str, Any]) -> Any:
        """What a form of the plant is answered."""
        return self.client.post(f"/p/{self.plant.slug}/{path}", data)

    def fields(self, path: str) -> dict[str, str]:
        """The hidden fields of the first form of a page that has a key."""
        text = self.get(path).content.decode()
        return {
            name: re.findall(rf'name="{name}" value="([^"]*)"', text)[0]
            for name in ("deed", "version")
            if f'name="{name}"' in text
        }

    def head(self) -> int:
        """How many actions the book has."""
        from plantbal import Book

        return Book(self.book).contents().version.number
