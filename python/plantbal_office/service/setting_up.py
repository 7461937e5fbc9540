"""Sets the service up: its configuration, secret, folders and database, and who comes first.

Each step leaves what is there, so that it may be done again, as after an upgrade.
"""

from __future__ import annotations

import os
import pwd
import secrets
import shutil
import subprocess
from collections.abc import Iterator
from pathlib import Path

from plantbal.faults import Fault, ToolMissing
from plantbal.files import write_text
from plantbal_office.service.config import USUAL, read_config
from plantbal_office.service.proxy import put_in_front

_CONFIG = """# plantbal-office: docs/OFFICE.md describes every setting
hosts = ["{host}"]
books = "{books}"
state = "{state}"

[database]
name = "plantbal_office"

[sign_in]
second = "approvers"
"""
BOOKS, STATE = Path("/srv/plantbal-office/books"), Path("/var/lib/plantbal-office")


def set_up(config: Path, host: str, admin: str, user: str) -> Iterator[str]:
    """Set the service up, and give what was done, in lines.

    Parameters
    ----------
    config : Path
        The file of the configuration.
    host : str
        The name by which browsers call it.
    admin : str
        The first administrator.
    user : str
        The user of the system whose service it is.

    Raises
    ------
    Fault
        If a step fails.
    """
    if not config.exists():
        config.parent.mkdir(parents=True, exist_ok=True)
        write_text(config, _CONFIG.format(host=host, books=BOOKS, state=STATE))
        yield f"{config} is written"
    secret = config.with_name("secret")
    if not secret.exists():
        write_text(secret, secrets.token_urlsafe(48) + "\n")
    found = read_config(config)
    for path in (found.books, found.state):
        path.mkdir(parents=True, exist_ok=True)
    _own([config, secret, found.books, found.state], user)
    if os.geteuid() == 0 and not found.database.get("host"):
        _make_database(str(found.database.get("name", "plantbal_office")), user)
        yield "PostgreSQL has the database"
        if config == USUAL:
            yield from put_in_front(host)
        _become(user)
    from plantbal_office.service.command import ready

    ready()
    yield from _filled(admin)
    yield f"start it with systemctl enable --now plantbal-office.socket; it is then at https://{host}"


def _own(paths: list[Path], user: str) -> None:
    """Have the service own what it writes, and others read nothing of it."""
    for path in paths:
        os.chmod(path, 0o750 if path.is_dir() else 0o640)
        if os.geteuid() == 0:
            try:
                shutil.chown(path, user if path.is_dir() else "root", user)
            except LookupError as error:
                what = f"there is no user {user}"
                raise Fault(
                    what, remedy="install the package plantbal-office, which makes this user"
                ) from error


def _make_database(name: str, user: str) -> None:
    """Have PostgreSQL make the role of the service and its database."""
    for words, asks in (
        (["createuser", user], f"SELECT 1 FROM pg_roles WHERE rolname = '{user}'"),
        (
            ["createdb", "--owner", user, "--encoding", "UTF8", "--template", "template0", name],
            f"SELECT 1 FROM pg_database WHERE datname = '{name}'",
        ),
    ):
        if not _as_postgres(["psql", "-Atqc", asks]).strip():
            _as_postgres(words)


def _as_postgres(words: list[str]) -> str:
    if shutil.which(words[0]) is None:
        raise ToolMissing(f"program {words[0]}", "postgresql")
    done = subprocess.run(
        ["runuser", "-u", "postgres", "--", *words], capture_output=True, text=True, cwd="/"
    )
    if done.returncode != 0:
        raise Fault(f"{words[0]}: {done.stderr.strip()[:300]}", remedy="is PostgreSQL running?")
    return done.stdout


def _become(user: str) -> None:
    """Go on as the user of the service, as whom PostgreSQL knows it."""
    found = pwd.getpwnam(user)
    os.initgroups(user, found.pw_gid)
    os.setgid(found.pw_gid)
    os.setuid(found.pw_uid)
    os.environ["HOME"] = found.pw_dir


def _filled(admin: str) -> Iterator[str]:
    """Give the database its tables, and the first administrator a password."""
    from django.core.management import call_command

    from plantbal_office.people.models import Person

    call_command("migrate", verbosity=0, interactive=False)
    yield "the database has its tables"
    if not Person.objects.filter(is_administrator=True).exists():
        password = secrets.token_urlsafe(12)
        person = Person(username=admin, is_administrator=True)
        person.set_password(password)
        person.save()
        yield f"the password of {admin}: {password}"
