"""Comments and files on a fact, a stream or a month. What they say is people's; no figure is booked."""

from __future__ import annotations

import uuid

from django.conf import settings
from django.db import models


class Note(models.Model):
    """A comment, perhaps with a file.

    Attributes
    ----------
    id : UUID
        Its name in addresses.
    plant, person : Plant, Person
        Of which plant it is, and who wrote it.
    about : str
        What it is on: ``month:2024-04``, ``stream:TAILS`` or ``fact:2024:FI-302_2024-04-18``.
    period : str
        The month in whose bundle it goes; empty of a stream, whose notes go into each.
    text : str
        What it says.
    name : str
        What its file is called; empty if it has none.
    kind : str
        The type of its file.
    sha256 : str
        The digest of its file.
    made : datetime
        When it was written.
    """

    id = models.UUIDField(primary_key=True, default=uuid.uuid4, editable=False)
    plant = models.ForeignKey("plants.Plant", on_delete=models.CASCADE)
    person = models.ForeignKey(settings.AUTH_USER_MODEL, on_delete=models.PROTECT)
    about = models.CharField(max_length=120)
    period = models.CharField(max_length=40, default="", blank=True)
    text = models.CharField(max_length=2000, default="", blank=True)
    name = models.CharField(max_length=120, default="", blank=True)
    kind = models.CharField(max_length=60, default="", blank=True)
    sha256 = models.CharField(max_length=64, default="", blank=True)
    made = models.DateTimeField(auto_now_add=True)

    class Meta:
        """In the order in which they were written."""

        ordering = ["made"]
        indexes = [models.Index(fields=["plant", "about"])]
