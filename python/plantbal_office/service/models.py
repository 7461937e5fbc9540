"""The log of sign-ins and of what left the house, and second factors."""

from __future__ import annotations

from enum import StrEnum

from django.conf import settings
from django.db import models


class Event(models.Model):
    """What somebody did, or tried, at the door: no figure is kept here.

    Attributes
    ----------
    when : datetime
        When.
    kind : str
        What it was.
    name, address : str
        The name that was said, and from where.
    what : str
        The page, of an export or a refusal.
    """

    class Kind(StrEnum):
        """What is logged."""

        SIGNED_IN = "signed-in"
        SIGNED_OUT = "signed-out"
        FAILED = "failed"
        LOCKED = "locked"
        SECOND_FAILED = "second-failed"
        ENROLLED = "enrolled"
        PASSWORD = "password"
        EXPORTED = "exported"
        REFUSED = "refused"
        ENDED = "ended"

    when = models.DateTimeField(auto_now_add=True, db_index=True)
    kind = models.CharField(max_length=16, choices=[(each.value, each.value) for each in Kind])
    name = models.CharField(max_length=150, db_index=True)
    address = models.CharField(max_length=64, db_index=True)
    what = models.CharField(max_length=300, blank=True, default="")

    class Meta:
        """The latest first."""

        ordering = ["-when", "-pk"]


class Factor(models.Model):
    """The second factor of a person: a secret of a time-based code (RFC 6238).

    Attributes
    ----------
    secret : str
        The secret, in base 32.
    is_confirmed : bool
        Whether a code of it was typed once.
    used : int
        The last step whose code was used: each is used once.
    """

    person = models.OneToOneField(
        settings.AUTH_USER_MODEL, on_delete=models.CASCADE, related_name="factor"
    )
    secret = models.CharField(max_length=64)
    is_confirmed = models.BooleanField(default=False)
    used = models.BigIntegerField(default=0)
