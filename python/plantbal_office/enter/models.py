"""Workbooks that were dropped and aren't booked yet: where the files are, and whose they are."""

from __future__ import annotations

import uuid
from enum import StrEnum

from django.conf import settings
from django.db import models


class DropState(StrEnum):
    """What is known of a workbook that was dropped."""

    NEW = "new"  # nobody has looked at it yet
    ASKED = "asked"  # how it is read is still a question
    READY = "ready"  # it can be booked
    REJECTED = "rejected"  # it has faults, and nothing of it is booked
    BOOKED = "booked"  # it is kept to see what another mapping would make of it


class Drop(models.Model):
    """A workbook that waits to be looked at and booked.

    Attributes
    ----------
    id : UUID
        Its name in addresses.
    person, plant : Person, Plant
        Who dropped it, and of which plant; None if its book isn't begun yet.
    name : str
        What it is called, as the journal will have it.
    locale : str
        Whose numbers and days it has.
    is_typed : bool
        Whether it was typed into the grid.
    cleared : list of [str, str]
        The cells of the grid that were cleared: tag, stream or tank, and day.
    made : datetime
        When it was dropped.
    batch : UUID or None
        What the workbooks have that were dropped together.
    state : DropState
        What was found when it was last looked at.
    faults : int
        How many faults it had then.
    booked : datetime or None
        When it was booked; of each plant the last one is kept.
    """

    id = models.UUIDField(primary_key=True, default=uuid.uuid4, editable=False)
    person = models.ForeignKey(settings.AUTH_USER_MODEL, on_delete=models.CASCADE)
    plant = models.ForeignKey("plants.Plant", on_delete=models.CASCADE, null=True, blank=True)
    name = models.CharField(max_length=120)
    locale = models.CharField(max_length=12, default="", blank=True)
    is_typed = models.BooleanField(default=False)
    cleared = models.JSONField(default=list, blank=True)
    made = models.DateTimeField(auto_now_add=True)
    batch = models.UUIDField(null=True, blank=True)
    state = models.CharField(
        max_length=12,
        choices=[(each.value, each.value) for each in DropState],
        default=DropState.NEW.value,
    )
    faults = models.PositiveIntegerField(default=0)
    booked = models.DateTimeField(null=True, blank=True)
