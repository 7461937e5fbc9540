"""Which plants there are, where each has its book, and who is to do what. Figures are in books alone."""

from __future__ import annotations

import datetime

from django.conf import settings
from django.db import models


class Plant(models.Model):
    """A plant whose book the desk shows.

    Attributes
    ----------
    slug : str
        How addresses name it.
    name : str
        What it is called.
    folder : str
        The folder of its book.
    locale : str
        Whose numbers and days its workbooks have, as it was said last.
    """

    slug = models.SlugField(max_length=40, unique=True)
    name = models.CharField(max_length=80)
    folder = models.CharField(max_length=1000, unique=True)
    locale = models.CharField(max_length=12, default="", blank=True)

    class Meta:
        """In the order of their names."""

        ordering = ["name"]

    def __str__(self) -> str:
        return self.name


class Task(models.Model):
    """What somebody is to do of a month.

    Attributes
    ----------
    plant, period : Plant, str
        Of which month it is.
    what : str
        What there is to do.
    doer : Person or None
        Who is to do it; None if anybody may.
    due : date or None
        By when.
    by : Person or None
        Who gave it.
    made, done : datetime
        When it was given, and when it was done; None if it isn't yet.
    """

    plant = models.ForeignKey(Plant, on_delete=models.CASCADE)
    period = models.CharField(max_length=40)
    what = models.CharField(max_length=200)
    doer = models.ForeignKey(
        settings.AUTH_USER_MODEL, on_delete=models.SET_NULL, null=True, blank=True, related_name="+"
    )
    due = models.DateField(null=True, blank=True)
    by = models.ForeignKey(
        settings.AUTH_USER_MODEL, on_delete=models.SET_NULL, null=True, related_name="+"
    )
    made = models.DateTimeField(auto_now_add=True)
    done = models.DateTimeField(null=True, blank=True)

    class Meta:
        """Those that are due first come first."""

        ordering = ["due", "made"]

    @property
    def is_late(self) -> bool:
        """Whether it was due before today."""
        due: datetime.date | None = self.due
        return due is not None and due < datetime.date.today()
