"""What a person did once, and which version of a book a person was shown when doing it."""

from __future__ import annotations

from django.conf import settings
from django.db import models


class Deed(models.Model):
    """A form that was sent: its key comes once, so that nothing is done twice.

    Attributes
    ----------
    key : str
        What the form has of its own.
    person, plant : Person, Plant
        Who sent it, and of which plant.
    address : str
        The address it was sent to.
    shown : str
        The version of the book that the person was shown.
    begun, ended : datetime
        When it began, and when it had ended.
    outcome : str
        The address of the page that shows what came of it.
    """

    key = models.CharField(max_length=64, unique=True)
    person = models.ForeignKey(settings.AUTH_USER_MODEL, on_delete=models.PROTECT)
    plant = models.ForeignKey("plants.Plant", on_delete=models.CASCADE, null=True)
    address = models.CharField(max_length=200)
    shown = models.CharField(max_length=80, default="", blank=True)
    begun = models.DateTimeField(auto_now_add=True)
    ended = models.DateTimeField(null=True)
    outcome = models.CharField(max_length=500, default="", blank=True)
