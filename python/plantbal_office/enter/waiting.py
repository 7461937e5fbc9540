"""The workbooks of a plant that were dropped: which wait, which were rejected, and what replaces one.

Only what can still be booked is gone on to by itself. What has faults, or was dropped or booked anew
under the same name since, is listed with its day and its state until somebody drops it.
"""

from __future__ import annotations

import datetime
from collections.abc import Iterable, Sequence
from dataclasses import dataclass

from django.utils import timezone

from plantbal.book.journal import Act, JournalLine
from plantbal.faults import Fault
from plantbal_office.enter.drops import forget
from plantbal_office.enter.mapped import unmap
from plantbal_office.enter.models import Drop, DropState
from plantbal_office.enter.picture import all_of
from plantbal_office.plants.models import Plant
from plantbal_office.shelf import book_contents

# What books a workbook by its name.
_BOOKS = (Act.NEW, Act.ADD, Act.NEXT)


@dataclass(frozen=True)
class WaitingDrop:
    """A workbook that was dropped, with what has replaced it since.

    Attributes
    ----------
    drop : Drop
        The workbook.
    since : datetime or None
        When one of the same name was dropped or booked later; None if none was.
    is_booked : bool
        Whether that one was booked.
    """

    drop: Drop
    since: datetime.datetime | None = None
    is_booked: bool = False

    @property
    def is_current(self) -> bool:
        """Whether it can be gone on to: nothing replaces it, and it has no faults."""
        return self.since is None and self.drop.state != DropState.REJECTED


def waiting_drops(plant: Plant) -> list[WaitingDrop]:
    """Return the workbooks of a plant that aren't booked, the oldest first."""
    found = list(Drop.objects.filter(plant=plant).select_related("person").order_by("made"))
    lines = book_contents(plant).lines
    return [_waiting(each, found, lines) for each in found if each.state != DropState.BOOKED]


def waiting_drop(drop: Drop) -> WaitingDrop:
    """Return a workbook of a plant with what has replaced it since."""
    assert drop.plant is not None
    others = Drop.objects.filter(plant=drop.plant, name=drop.name)
    return _waiting(drop, list(others), book_contents(drop.plant).lines)


def _waiting(drop: Drop, others: Iterable[Drop], lines: Sequence[JournalLine]) -> WaitingDrop:
    if drop.is_typed or drop.booked is not None:
        return WaitingDrop(drop)
    same = [each for each in others if each.name == drop.name and not each.is_typed]
    times = [each.booked for each in same if each.booked is not None]
    times += [
        _when(line) for line in lines if line.act in _BOOKS and line.what == drop.name and line.when
    ]
    booked = [when for when in times if when > drop.made]
    if booked:
        return WaitingDrop(drop, max(booked), True)
    return WaitingDrop(drop, max((e.made for e in same if e.made > drop.made), default=None))


def _when(line: JournalLine) -> datetime.datetime:
    """Return the time of a line of the journal."""
    found = datetime.datetime.fromisoformat(line.when)
    return found if found.tzinfo is not None else found.replace(tzinfo=datetime.UTC)


def next_of(drop: Drop) -> Drop | None:
    """Return what is gone on to after a workbook: another one that was dropped with it."""
    if drop.batch is None or drop.plant is None:
        return None
    for each in waiting_drops(drop.plant):
        if each.drop.batch == drop.batch and each.drop.pk != drop.pk and each.is_current:
            return each.drop
    return None


def put_state(drop: Drop, state: DropState, fault: Fault | None = None) -> None:
    """Keep what was found as somebody looked at a workbook."""
    count = len(all_of(fault)) if fault is not None else 0
    if (drop.state, drop.faults) != (state, count) and drop.booked is None:
        drop.state, drop.faults = state.value, count
        drop.save(update_fields=["state", "faults"])


# ---- the last one that was booked


def last_booked(plant: Plant) -> Drop | None:
    """Return the last workbook that was booked at the desk, if it is still here."""
    return Drop.objects.filter(plant=plant, state=DropState.BOOKED).order_by("-booked").first()


def keep_booked(drop: Drop) -> None:
    """Keep a workbook that was booked, in place of the one before it; what was typed isn't kept."""
    if drop.is_typed or drop.plant is None:
        forget(drop)
        return
    unmap(drop)  # the book has it now
    for other in Drop.objects.filter(plant=drop.plant, state=DropState.BOOKED).exclude(pk=drop.pk):
        forget(other)
    drop.state, drop.faults, drop.batch = DropState.BOOKED.value, 0, None
    drop.booked = timezone.now()
    drop.save()
