"""Second factors: codes of six digits that change each half minute, each of which counts once."""

from __future__ import annotations

import base64
import io
import time

import pyotp
import segno
from django.db import transaction

from plantbal_office.access import Role
from plantbal_office.people.models import Person
from plantbal_office.service.config import Second
from plantbal_office.service.models import Factor

_STEP = 30  # seconds
_AROUND = 1  # steps before and after, for clocks that differ


def wants_factor(person: Person, second: Second) -> bool:
    """Say whether a person has to have a second factor."""
    if second is Second.APPROVERS:
        approves = person.memberships.filter(role=Role.APPROVER.value).exists()
        return approves or person.is_administrator
    return second is Second.ALL


def has_one(person: Person) -> bool:
    """Say whether a person has a second factor."""
    return Factor.objects.filter(person=person, is_confirmed=True).exists()


def secret_for(person: Person) -> str:
    """Return the secret that a person is about to enroll, made if there is none."""
    made, _ = Factor.objects.get_or_create(
        person=person, defaults={"secret": pyotp.random_base32()}
    )
    return str(made.secret)


def secret_picture(person: Person, secret: str) -> str:
    """Return the secret as a picture for a phone, as the address of an image."""
    address = pyotp.TOTP(secret).provisioning_uri(person.get_username(), issuer_name="plantbal")
    out = io.BytesIO()
    segno.make(address).save(out, kind="svg", scale=4)
    return "data:image/svg+xml;base64," + base64.b64encode(out.getvalue()).decode("ascii")


def takes(person: Person, code: str, *, confirm: bool = False) -> bool:
    """Say whether a code is right now, and use it up.

    Parameters
    ----------
    person : Person
        Whose it is.
    code : str
        The code.
    confirm : bool
        Whether the factor counts from now on.
    """
    digits = code.replace(" ", "")
    if not (digits.isascii() and digits.isdigit() and len(digits) == 6):
        return False
    with transaction.atomic():
        factor = Factor.objects.select_for_update().filter(person=person).first()
        if factor is None or not (factor.is_confirmed or confirm):
            return False
        totp, now = pyotp.TOTP(factor.secret), int(time.time()) // _STEP
        for step in range(now - _AROUND, now + _AROUND + 1):
            if step > factor.used and pyotp.utils.strings_equal(totp.at(step * _STEP), digits):
                factor.used = step
                factor.is_confirmed = True
                factor.save()
                return True
    return False
