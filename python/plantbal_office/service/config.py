"""The configuration of the office's service: a file of TOML that its administrator writes.

    hosts = ["accounts.mill.example"]
    books = "/srv/plantbal-office/books"
    state = "/var/lib/plantbal-office"

    [database]
    name = "plantbal_office"            # by PostgreSQL's socket, as the user of the service
    host = "/run/postgresql"

    [sign_in]
    second = "approvers"                # who has to have a second factor: all, approvers or none
    idle_minutes = 30
    hours = 12

    [ldap]
    server = "ldaps://ldap.mill.example"
    base = "ou=people,dc=mill,dc=example"
    user = "(uid=%(user)s)"
    bind = "cn=plantbal,dc=mill,dc=example"
    password_file = "/etc/plantbal-office/ldap"

    [oidc]
    name = "Mill"
    server = "https://login.mill.example/.well-known/openid-configuration"
    client = "plantbal"
    secret_file = "/etc/plantbal-office/oidc"
    claim = "preferred_username"

    [backup]
    recipients = ["age1.."]             # of age, or keys of gpg; without one it isn't encrypted
"""

from __future__ import annotations

import importlib.util
import os
import tomllib
from collections.abc import Mapping
from dataclasses import dataclass, field
from enum import StrEnum
from pathlib import Path
from typing import Any

from plantbal.faults import Fault, InputFault, Place, ToolMissing, decoded, read_bytes
from plantbal.limits import RULES_BYTES

NAMED = "PLANTBAL_OFFICE"  # the variable that names the file
USUAL = Path("/etc/plantbal-office/office.toml")
_KNOWN = {
    "": ("hosts", "books", "state", "program", "database", "sign_in", "ldap", "oidc", "backup"),
    "database": ("name", "host", "port", "user", "password_file"),
    "sign_in": ("second", "idle_minutes", "hours"),
    "ldap": ("server", "base", "user", "bind", "password_file", "start_tls"),
    "oidc": ("name", "server", "client", "secret_file", "claim"),
    "backup": ("recipients",),
}
# What a table of the configuration needs beside what the package depends on: the module, and its package.
_NEEDS = (
    ("ldap", "django_auth_ldap", "python3-django-auth-ldap"),
    ("oidc", "authlib", "python3-authlib"),
    ("oidc", "requests", "python3-requests"),
)


class Second(StrEnum):
    """Who has to have a second factor."""

    ALL = "all"
    APPROVERS = "approvers"
    NONE = "none"


@dataclass(frozen=True)
class Config:
    """The configuration.

    Attributes
    ----------
    path : Path
        Its file.
    hosts : tuple of str
        The names by which browsers call the service.
    books, state : Path
        The folder of books, and that of what the service keeps of its own.
    program : str
        The program; empty for the usual one.
    database, ldap, oidc : mapping
        How each is reached; empty without it.
    second : Second
        Who has to have a second factor.
    idle, longest : int
        After how many seconds a sign-in ends, without a click and in any case.
    recipients : tuple of str
        For whom backups are encrypted.
    """

    path: Path
    hosts: tuple[str, ...]
    books: Path
    state: Path
    program: str = ""
    database: Mapping[str, Any] = field(default_factory=dict)
    ldap: Mapping[str, Any] = field(default_factory=dict)
    oidc: Mapping[str, Any] = field(default_factory=dict)
    second: Second = Second.APPROVERS
    idle: int = 1800
    longest: int = 43200
    recipients: tuple[str, ...] = ()


def named_file() -> Path:
    """Return the file of the configuration: that of the variable, or the usual one."""
    return Path(os.environ.get(NAMED) or USUAL)


def read_config(path: Path | None = None) -> Config:
    """Return the configuration of a file.

    Raises
    ------
    Fault
        If it can't be read, or has the wrong form.
    """
    found = path or named_file()
    source, data = read_bytes(found, RULES_BYTES)
    try:
        values = tomllib.loads(decoded(source, data))
        return _config(found, values)
    except (ValueError, KeyError, TypeError) as error:
        raise InputFault(f"{error}", place=Place(file=source), remedy="docs/OFFICE.md") from error


def _config(path: Path, values: dict[str, Any]) -> Config:
    for table, names in _KNOWN.items():
        inner = values.get(table, {}) if table else values
        for name in inner:
            if name not in names:
                raise ValueError(f"[{table}] has no setting {name}: it may have {', '.join(names)}")
    for table, module, package in _NEEDS:
        if values.get(table) and importlib.util.find_spec(module) is None:
            raise ToolMissing(module, package)
    hosts = values["hosts"]
    if not isinstance(hosts, list) or not hosts or "*" in hosts:
        raise ValueError("hosts isn't a list of names by which browsers call the service")
    sign_in = values.get("sign_in", {})
    ldap = values.get("ldap", {})
    if ldap and not _is_safe(ldap):
        raise ValueError("ldap.server sends passwords in plain text: use ldaps://, or start_tls")
    oidc = values.get("oidc", {})
    if oidc and not str(oidc["server"]).startswith(("https://", "http://127.0.0.1:")):
        raise ValueError("oidc.server sends codes in plain text: use https://")
    return Config(
        path,
        tuple(map(str, hosts)),
        Path(values["books"]),
        Path(values["state"]),
        str(values.get("program", "")),
        values.get("database", {}),
        ldap,
        oidc,
        Second(sign_in.get("second", "approvers")),
        60 * int(sign_in.get("idle_minutes", 30)),
        3600 * int(sign_in.get("hours", 12)),
        tuple(values.get("backup", {}).get("recipients", ())),
    )


def _is_safe(ldap: Mapping[str, Any]) -> bool:
    """Say whether no password goes over a network as it is."""
    server = str(ldap["server"])
    near = server.startswith(("ldap://127.0.0.1", "ldap://localhost", "ldapi://"))
    return server.startswith("ldaps://") or bool(ldap.get("start_tls")) or near


def secret_of(path: str | Path) -> str:
    """Return a secret that stands in a file that others can't read.

    Raises
    ------
    Fault
        If it can't be read, or others can.
    """
    source, data = read_bytes(path, RULES_BYTES)
    if Path(path).stat().st_mode & 0o007:
        raise Fault(f"other users may read {source}", text=source, remedy=f"chmod o= {source}")
    return decoded(source, data).strip()
