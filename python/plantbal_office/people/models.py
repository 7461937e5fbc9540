"""Who signs in, and the roles of each in each plant. No figure is kept here."""

from __future__ import annotations

from django.contrib.auth.models import AbstractUser
from django.db import models
from django.utils.translation import gettext_lazy as _

from plantbal_office.access import IN_A_PLANT, Role


class Person(AbstractUser):
    """Somebody who signs in.

    Attributes
    ----------
    is_administrator : bool
        Whether the person keeps people and plants, and sees no figure by that.
    language : str
        The language of what the person reads.
    """

    is_administrator = models.BooleanField(_("administrator"), default=False)
    language = models.CharField(_("language"), max_length=8, default="", blank=True)

    @property
    def shown_name(self) -> str:
        """The name that a journal gets."""
        return self.get_full_name() or self.get_username()

    def roles_in(self, plant: object) -> frozenset[Role]:
        """Return the roles of the person in a plant, and the administrator's if it is one."""
        kept = self.memberships.filter(plant=plant).values_list("role", flat=True)
        found = {Role(each) for each in kept}
        return frozenset(found | ({Role.ADMINISTRATOR} if self.is_administrator else set()))


class Membership(models.Model):
    """A role of a person in a plant."""

    person = models.ForeignKey(Person, on_delete=models.CASCADE, related_name="memberships")
    plant = models.ForeignKey("plants.Plant", on_delete=models.CASCADE, related_name="memberships")
    role = models.CharField(
        max_length=16, choices=[(role.value, role.value) for role in IN_A_PLANT]
    )

    class Meta:
        """Each role once."""

        unique_together = [("person", "plant", "role")]
