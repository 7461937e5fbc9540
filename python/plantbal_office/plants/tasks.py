"""Who is to do what of a month, and by when: kept by the desk alone, beside what each month waits for."""

from __future__ import annotations

from collections import defaultdict
from collections.abc import Iterable

from django import forms
from django.http import HttpRequest, HttpResponse
from django.shortcuts import get_object_or_404, redirect
from django.urls import reverse
from django.utils import timezone
from django.utils.translation import gettext as _

from plantbal.faults import Fault
from plantbal_office.access import Role
from plantbal_office.deeds.once import once
from plantbal_office.people.models import Membership, Person
from plantbal_office.plants.models import Plant, Task
from plantbal_office.shelf import book_contents

MOST = 200  # tasks of a plant that aren't done


class TaskForm(forms.Form):
    """A task as a person gives it."""

    what = forms.CharField(max_length=200)
    doer = forms.IntegerField(required=False)
    due = forms.DateField(required=False)


def people_of(plant: Plant) -> list[Person]:
    """Return the people with a role in a plant."""
    return list(Person.objects.filter(memberships__plant=plant).distinct().order_by("username"))


def names_by_role(plant: Plant) -> dict[Role, list[str]]:
    """Return who has each role in a plant."""
    found: dict[Role, list[str]] = defaultdict(list)
    some = Membership.objects.filter(plant=plant).select_related("person").order_by("pk")
    for each in some:
        found[Role(each.role)].append(each.person.shown_name)
    return found


def open_tasks(plants: Iterable[Plant]) -> dict[tuple[int, str], list[Task]]:
    """Return what isn't done yet, by the plant and the month."""
    found: dict[tuple[int, str], list[Task]] = defaultdict(list)
    some = Task.objects.filter(plant__in=list(plants), done=None).select_related("doer")
    for task in some[: MOST * 10]:
        found[task.plant_id, task.period].append(task)
    return found


def give(request: HttpRequest) -> HttpResponse:
    """Give somebody a task of a month."""
    form = TaskForm(request.POST)

    def act() -> str:
        month = book_contents(request.plant).month(request.POST.get("month", ""))
        if month is None:
            raise Fault(_("a task belongs to a month of the book"), remedy=_("choose a month"))
        if not form.is_valid():
            raise Fault(_("a task needs a description of at most 200 characters"))
        if Task.objects.filter(plant=request.plant, done=None).count() >= MOST:
            raise Fault(_("there are too many tasks"), remedy=_("mark those that are done"))
        doer = form.cleaned_data["doer"]
        people = {person.pk: person for person in people_of(request.plant)}
        Task.objects.create(
            plant=request.plant,
            period=month.name,
            what=form.cleaned_data["what"].strip(),
            doer=people.get(doer) if doer is not None else None,
            due=form.cleaned_data["due"],
            by=request.user,
        )
        return reverse("plants:months", args=[request.plant.slug]) + f"#m-{month.name}"

    return once(request, act)


def done(request: HttpRequest, task: int) -> HttpResponse:
    """Note that a task is done."""
    found = get_object_or_404(Task, pk=task, plant=request.plant)
    if found.done is None:
        found.done = timezone.now()
        found.save()
    return redirect(reverse("plants:months", args=[request.plant.slug]) + f"#m-{found.period}")
