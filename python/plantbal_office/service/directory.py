"""Signing in by LDAP: a directory says who somebody is, and whoever is off here stays out."""

from __future__ import annotations

from django_auth_ldap.backend import LDAPBackend

from plantbal_office.people.models import Person


class Directory(LDAPBackend):
    """The backend of django-auth-ldap, which doesn't ask whether an account is off."""

    def authenticate_ldap_user(self, ldap_user: object, password: str) -> Person | None:
        """Return the person of a directory's entry, if the password is right and the account on."""
        return _if_on(super().authenticate_ldap_user(ldap_user, password))

    def get_user(self, user_id: int) -> Person | None:
        """Return the person of a sign-in that is there already, if the account is still on."""
        return _if_on(super().get_user(user_id))


def _if_on(person: Person | None) -> Person | None:
    return person if person is not None and person.is_active else None
