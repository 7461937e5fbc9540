"""Plants and their months: which there are, the state of each, a new book, the next year."""

from __future__ import annotations

from collections.abc import Mapping, Sequence
from dataclasses import dataclass
from pathlib import Path

from django import forms
from django.conf import settings
from django.contrib import messages
from django.http import HttpRequest, HttpResponse
from django.shortcuts import render
from django.urls import reverse
from django.utils.text import slugify
from django.utils.translation import gettext as _
from django.utils.translation import gettext_lazy

from plantbal.book.expected import BookVersion
from plantbal.book.library import Book
from plantbal.faults import Fault
from plantbal_office.access import Role
from plantbal_office.deeds.once import once
from plantbal_office.enter.drops import LOCALES, dropped, options_of, without_folders
from plantbal_office.people.models import Membership
from plantbal_office.plants.models import Plant, Task
from plantbal_office.plants.standing import Stand, Standing, stands_of, status_of
from plantbal_office.plants.tasks import names_by_role, open_tasks, people_of
from plantbal_office.sentences import day_written, fault_said
from plantbal_office.shelf import book_contents, book_of, plain_book

# What one person's desk lets its person be in each plant.
ALL = (Role.CLERK, Role.ENGINEER, Role.APPROVER)


YEAR = r"^[0-9]{4}[A-Za-z0-9_-]{0,28}$"


class OpenBook(forms.Form):
    """A folder with a book."""

    name = forms.CharField(label=gettext_lazy("Name of the plant"), max_length=80)
    folder = forms.CharField(label=gettext_lazy("Folder of its book"), max_length=1000)


class NextYear(forms.Form):
    """The next year of a book."""

    year = forms.RegexField(YEAR, label=gettext_lazy("Year"))
    first = forms.DateField(label=gettext_lazy("First day"), required=False)
    locale = forms.ChoiceField(
        label=gettext_lazy("Numbers and dates"), choices=LOCALES, required=False
    )


def plants(request: HttpRequest) -> HttpResponse:
    """Show the plants in which the person has a role, and how the months of each stand."""
    own = list(Plant.objects.filter(memberships__person=request.user).distinct())
    tasks = open_tasks(own)
    found = []
    for plant in own:
        try:
            stands: list[Stand] = stands_of(plant)
            fault = None
        except Fault as error:
            stands, fault = [], error
        waiting = _waiting(plant, stands, tasks)
        found.append({"plant": plant, "stands": stands[-14:], "waiting": waiting, "fault": fault})
    request.roles = frozenset({Role.ADMINISTRATOR} if request.user.is_administrator else ())
    return render(request, "plants/list.html", {"found": found})


@dataclass(frozen=True)
class WaitingMonth:
    """A month, with who has the roles that it waits for, and with its tasks."""

    stand: Stand
    whom: Sequence[tuple[Role, list[str]]] = ()
    tasks: Sequence[Task] = ()


def _waiting(
    plant: Plant, stands: Sequence[Stand], tasks: Mapping[tuple[int, str], list[Task]]
) -> list[WaitingMonth]:
    """Return the months that wait for something, each with for what, of whom, and its tasks."""
    names = {} if settings.PLANTBAL_KEY else names_by_role(plant)
    found = []
    for stand in stands:
        own = tasks.get((plant.pk, stand.month.name), [])
        if stand.standing is not Standing.CLOSED or own:
            whom = [(role, names.get(role, [])) for role in stand.whom]
            found.append(WaitingMonth(stand, whom, own))
    return found


def register(request: HttpRequest, name: str, folder: Path) -> Plant:
    """Return a plant of the desk; of one person's desk the person gets all roles in it.

    Raises
    ------
    Fault
        If the folder is another plant's already.
    """
    place = str(folder.expanduser().resolve())
    taken = Plant.objects.filter(folder=place).first()
    if taken is not None:
        raise Fault(
            _("{folder} is already the book of {name}").format(folder=place, name=taken.name),
            remedy=_("open it from the list of plants"),
        )
    plant = Plant.objects.create(slug=free_slug(name), name=name, folder=place)
    if settings.PLANTBAL_KEY:
        for role in ALL:
            Membership.objects.get_or_create(person=request.user, plant=plant, role=role.value)
    return plant


def free_slug(name: str) -> str:
    """Return how addresses name a plant: after its name, and as no other is named."""
    base = slugify(name)[:34] or "plant"
    slug, number = base, 1
    while Plant.objects.filter(slug=slug).exists():
        number += 1
        slug = f"{base}-{number}"
    return slug


def open_book(request: HttpRequest) -> HttpResponse:
    """Take a book that is there into the desk."""
    form = OpenBook(request.POST or None)
    if request.method == "POST" and form.is_valid():

        def act() -> str:
            folder = Path(form.cleaned_data["folder"])
            Book(folder).contents()  # raises if there is none
            plant = register(request, form.cleaned_data["name"], folder)
            return reverse("plants:months", args=[plant.slug])

        try:
            return once(request, act)
        except Fault as fault:
            form.add_error("folder", fault_said(fault))
    words = {"form": form, "title": _("Open a book")}
    return render(request, "plants/open.html", words, status=400 if form.errors else 200)


def months(request: HttpRequest) -> HttpResponse:
    """Show the months of a plant, and what each waits for, and of whom."""
    contents = book_contents(request.plant)
    stands = stands_of(request.plant)
    status = status_of(request.plant)
    waiting = _waiting(request.plant, stands, open_tasks([request.plant]))
    shown = {each.stand.month.name: each for each in waiting}
    rows = [shown.get(each.month.name, WaitingMonth(each)) for each in reversed(stands)]
    words = {
        "version": contents.version,
        "rows": rows,
        "members": people_of(request.plant),
        "status": status,
        "years": [(each, _used(each.facts)) for each in status.years],
        "windows": contents.windows,
        "latest": contents.lines[-1] if contents.lines else None,
        "next": NextYear(),
    }
    return render(request, "plants/months.html", words)


def _used(facts: int) -> float:
    """Return how much of the facts that a year takes it has, in percent."""
    from plantbal.schema import schema

    return 100 * facts / schema().limits["most_facts"]


def next_year(request: HttpRequest) -> HttpResponse:
    """Begin the next year, with the plant as it is or another."""
    form = NextYear(request.POST or None)
    if request.method == "POST" and form.is_valid():
        words = form.cleaned_data

        def act() -> str:
            with dropped(request) as workbook:
                made = book_of(request, expected=True).next(
                    words["year"],
                    plant=workbook,
                    first=words["first"],
                    reading=options_of(words["locale"]),
                )
            what = _("{year} begins on {first}.").format(
                year=made.year, first=day_written(str(made.first or ""))
            )
            messages.success(request, what)
            return reverse("plants:months", args=[request.plant.slug])

        try:
            return once(request, act)
        except Fault as fault:
            form.add_error(None, without_folders(fault_said(fault)))
    version: BookVersion = book_contents(request.plant).version
    answer = {"form": form, "version": version, "title": _("Begin the next year")}
    return render(request, "plants/next.html", answer, status=400 if form.errors else 200)


def retire_page(request: HttpRequest) -> HttpResponse:
    """End the service of a tank or a stream."""

    def act() -> str:
        name, day = request.POST.get("name", "")[:32], request.POST.get("day", "")[:10]
        made = book_of(request, expected=True).retire(name, day)
        what = _("{name} has its last day on {day}: {year} begins after it.")
        messages.success(request, what.format(name=name, day=day_written(day), year=made.year))
        return reverse("plants:months", args=[request.plant.slug])

    return once(request, act)


def verify_page(request: HttpRequest) -> HttpResponse:
    """Test every file of the book against its journal, and show the head."""
    found = plain_book(request.plant).verify()
    return render(request, "plants/verify.html", {"found": found})
