"""An office with something behind each of its addresses, and a person of each role.

The plant *mill* has a closed month that has changed since, an open one, an earlier report, a comment
with a file, a task, and workbooks that wait; *two* has rules and a submitted close. *other* is a
third plant, whose people have no role in these two. All of it is made within Django.
"""

from __future__ import annotations

import hashlib
import shutil
from collections.abc import Iterator, Mapping
from contextlib import contextmanager
from dataclasses import dataclass, field
from pathlib import Path

from asks import CLOSED, OPEN, PASSWORD, YEAR
from django.conf import settings
from django.db import transaction
from django.utils import timezone

from plantbal import Book
from plantbal.gates import Gate
from plantbal.workbook.options import ReadingOptions
from plantbal_office.access import IN_A_PLANT
from plantbal_office.deeds.models import Deed
from plantbal_office.enter.drops import folder_of
from plantbal_office.enter.models import Drop
from plantbal_office.notes.models import Note
from plantbal_office.people.models import Membership, Person
from plantbal_office.plants.models import Plant, Task

EXAMPLES = Path(__file__).resolve().parents[3] / "examples"
MILL, OWN = EXAMPLES / "month_end", EXAMPLES / "own_workbook"
# What forms send as files.
FILES = {
    "june": MILL / "june" / "readings.csv",
    "plant": MILL / "plant" / "streams.csv",
    "ticket": MILL / "tickets.csv",
}
ELSEWHERE = "other-"
REASONS = {gate: "as it is" for gate in Gate}


@dataclass
class Behind:
    """What there is: the words of addresses, the people by name, and how all of it is put back."""

    room: Path
    words: dict[str, str] = field(default_factory=dict)
    people: dict[str, Person] = field(default_factory=dict)
    kept: list[tuple[str, int, int]] = field(default_factory=list)

    @property
    def places(self) -> tuple[tuple[Path, Path], ...]:
        """The folders that asks may change, and where each is kept as it was."""
        books, files = self.room / "behind", Path(settings.MEDIA_ROOT)
        return (books, self.room / "kept-books"), (files, self.room / "kept-files")

    def keep(self) -> None:
        """Keep all files as they are."""
        for place, kept in self.places:
            shutil.copytree(place, kept)
        self.kept = self.files()

    @contextmanager
    def put_back(self) -> Iterator[list[str]]:
        """Have whatever is done within undone, rows of the database and files; say what has changed."""
        changed: list[str] = []
        with transaction.atomic():
            yield changed
            transaction.set_rollback(True)
        if self.files() != self.kept:
            changed.append("files")
            for place, kept in self.places:
                shutil.rmtree(place)
                shutil.copytree(kept, place)
            self.kept = self.files()

    def files(self) -> list[tuple[str, int, int]]:
        """All files that asks may change; those that a look makes aside."""
        found = []
        for place, _ in self.places:
            for path in sorted(place.rglob("*")):
                if path.is_file() and path.name not in (".lock", ".checks"):
                    about = path.stat()
                    found.append((str(path), about.st_size, about.st_mtime_ns))
        return found

    def rows(self) -> str:
        """A digest of all rows of the database but those of the log."""
        from django.apps import apps

        found = hashlib.sha256()
        for model in apps.get_models():
            name = model.__name__
            if model.__module__.startswith("plantbal_office") and name != "Event":
                found.update(repr((name, sorted(map(str, model.objects.values_list())))).encode())
        return found.hexdigest()


def made(room: Path) -> Behind:
    """Make all of it below a folder."""
    here = Behind(room)
    books = room / "behind"
    books.mkdir()
    _mill(books / "mill")
    for name in ("other", "spare"):
        shutil.copytree(books / "mill", books / name)
    here.words["head"] = _two(books / "two")
    here.words |= {"spare": str(books / "spare"), "new": str(books / "new")}
    plants = {
        name: Plant.objects.create(slug=name, name=name, folder=str(books / name))
        for name in ("mill", "two", "other")
    }
    _people(here, plants)
    _waiting(here, plants["mill"])
    here.keep()
    return here


def _mill(folder: Path) -> None:
    """April closed, and changed since; May open, with a fact that was amended."""
    book, german = Book(folder, who="eva"), ReadingOptions("de")
    book.begin(YEAR, MILL / "plant", reading=german)
    book.add(MILL / "april", reading=german)
    book.report(CLOSED)
    book.add(MILL / "assays.csv", reading=german)
    book.close(CLOSED, anyway=REASONS)
    book.add(MILL / "may", reading=german)
    book.amend("FI-302", "2024-04-18", "12188 t", why="a digit short")
    book.amend("FI-302", "2024-05-18", "12188 t", why="a digit short")
    for period in (CLOSED, OPEN):
        book.report(period)


def _two(folder: Path) -> str:
    """A book in which Eva has submitted April; the head of that."""
    import os

    book, german = Book(folder, who="eva"), ReadingOptions("de")
    book.begin(YEAR, MILL / "plant", reading=german)
    book.add(MILL / "april", reading=german)
    book.add(MILL / "may", reading=german)
    rules = folder.parent / "two.rules"
    rules.write_text(f"[wants]\nclose = true\n[sign]\nvouching = [{os.geteuid()}]\n")
    book.set_rules(rules)
    book.report(OPEN)
    return str(Book(folder, who="eva").submit(CLOSED, anyway=REASONS).head)


def _people(here: Behind, plants: Mapping[str, Plant]) -> None:
    """Somebody with each role in two plants, somebody with it in the other, an administrator, a stranger."""
    from django.contrib.auth.hashers import make_password

    password = make_password(PASSWORD)
    named: dict[str, tuple[str, ...]] = {"stranger": (), "root": ()}
    named |= {role.value: ("mill", "two") for role in IN_A_PLANT}
    named |= {ELSEWHERE + role.value: ("other",) for role in IN_A_PLANT}
    for name, some in named.items():
        person, _ = Person.objects.get_or_create(username=name)
        Person.objects.filter(pk=person.pk).update(password=password)
        for plant in some:
            role = name.removeprefix(ELSEWHERE)
            Membership.objects.create(person=person, plant=plants[plant], role=role)
        here.people[name] = Person.objects.get(pk=person.pk)
        Deed.objects.create(
            key=key_of(name), person=person, address="/", ended=timezone.now(), outcome="/"
        )


def key_of(name: str) -> str:
    """The key of a form that somebody has sent."""
    return f"the-form-of-{name}"


def _waiting(here: Behind, plant: Plant) -> None:
    """A comment with a file, a task, a workbook to be booked, one to be mapped, and a new plant's."""
    clerk, root = here.people["clerk"], here.people["root"]
    data = FILES["ticket"].read_bytes()
    note = Note.objects.create(
        plant=plant,
        person=clerk,
        about=f"month:{CLOSED}",
        period=CLOSED,
        text="the ticket",
        name="ticket.csv",
        kind="text/csv",
        sha256=hashlib.sha256(data).hexdigest(),
    )
    notes = Path(settings.MEDIA_ROOT) / "notes"
    notes.mkdir(parents=True)
    (notes / str(note.pk)).write_bytes(data)
    task = Task.objects.create(plant=plant, period=OPEN, what="look at the scale", by=clerk)
    here.words |= {"note": str(note.pk), "task": str(task.pk)}
    for word, of, person, workbook, locale in (
        ("drop", plant, clerk, MILL / "june", "de"),
        ("own", plant, clerk, OWN, ""),
        ("begun", None, root, OWN, ""),
    ):
        drop = Drop.objects.create(plant=of, person=person, name=workbook.name, locale=locale)
        shutil.copytree(workbook, folder_of(drop) / drop.name)
        here.words[word] = str(drop.pk)
