"""The command plantbal-office: sets up the service, manages its accounts, and backs it up."""

from __future__ import annotations

import argparse
import os
import secrets
import sys
from collections.abc import Callable, Sequence
from pathlib import Path

from plantbal.faults import Fault
from plantbal.statuses import ExitStatus
from plantbal_office.access import IN_A_PLANT
from plantbal_office.service.config import NAMED, USUAL, read_config

SETTINGS = "plantbal_office.settings.office"

EPILOG = """
examples:
  plantbal-office init --host accounts.mill.example --admin anna
  plantbal-office user paul --name "Paul Meyer"
  plantbal-office role paul mill engineer
  plantbal-office backup /var/backups/plantbal/today.tar.age
  plantbal-office restore today.tar.age --identity key.txt
  plantbal-office check
"""


def ready() -> None:
    """Have Django ready for the configuration that is there."""
    import django

    os.environ["DJANGO_SETTINGS_MODULE"] = SETTINGS
    django.setup()


def _init(options: argparse.Namespace) -> int:
    from plantbal_office.service.setting_up import set_up

    for line in set_up(Path(options.config), options.host, options.admin, options.user):
        print(line)
    return 0


def _user(options: argparse.Namespace) -> int:
    """Make an account or change one; the password is printed once."""
    ready()
    from plantbal_office.people.models import Person
    from plantbal_office.service.models import Factor

    person, is_new = Person.objects.get_or_create(username=options.name)
    if options.full:
        person.first_name, _, person.last_name = options.full.partition(" ")
    if options.administrator:
        person.is_administrator = True
    person.is_active = not options.off
    if options.elsewhere:
        person.set_unusable_password()
    elif is_new or options.password:
        password = secrets.token_urlsafe(12)
        person.set_password(password)
        print(f"the password of {options.name}: {password}")
    if options.forget_second:
        Factor.objects.filter(person=person).delete()
    person.save()
    state = "can sign in" if person.is_active else "can no longer sign in"
    print(f"{options.name} {state}")
    return 0


def _role(options: argparse.Namespace) -> int:
    """Give a person a role in a plant, or take it away."""
    ready()
    from plantbal_office.people.models import Membership, Person
    from plantbal_office.plants.models import Plant

    person = Person.objects.filter(username=options.name).first()
    plant = Plant.objects.filter(slug=options.plant).first()
    if person is None or plant is None:
        what = f"person {options.name}" if person is None else f"plant {options.plant}"
        there = Person.objects.values_list("username", flat=True)
        if person is not None:
            there = Plant.objects.values_list("slug", flat=True)
        raise Fault(f"there is no {what}", remedy=f"use one of {', '.join(there)}")
    words = {"person": person, "plant": plant, "role": options.role}
    if options.off:
        Membership.objects.filter(**words).delete()
    else:
        Membership.objects.get_or_create(**words)
    some = Membership.objects.filter(person=person, plant=plant).values_list("role", flat=True)
    print(f"{options.name} in {options.plant}: {', '.join(sorted(some)) or 'no role'}")
    return 0


def _backup(options: argparse.Namespace) -> int:
    ready()
    from plantbal_office.service.backup import back_up

    found = back_up(read_config(), Path(options.file), options.to or None)
    print(f"{found.files} files of {found.books} books and the database are in {options.file}")
    print(f"SHA-256 {found.digest}")
    if not found.is_encrypted:
        print(
            "it isn't encrypted: use --to RECIPIENT, or name recipients in [backup] of the configuration"
        )
    return 0


def _restore(options: argparse.Namespace) -> int:
    ready()
    from plantbal_office.service.restore import restore

    wrong = 0
    for line in restore(read_config(), Path(options.file), options.identity):
        print(f"{line.kind}: {line.said}", flush=True)
        wrong += line.is_wrong
    return ExitStatus.LOOK if wrong else ExitStatus.GOOD


def _check(options: argparse.Namespace) -> int:
    del options
    ready()
    from plantbal_office.service.checking import restore_findings

    wrong = 0
    for line in restore_findings(read_config()):
        print(f"{line.kind}: {line.said}", flush=True)
        wrong += line.is_wrong
    return ExitStatus.LOOK if wrong else ExitStatus.GOOD


def parser() -> argparse.ArgumentParser:
    """Return the parser of the command."""
    made = argparse.ArgumentParser(
        prog="plantbal-office",
        description=__doc__,
        epilog=EPILOG,
        formatter_class=argparse.RawDescriptionHelpFormatter,
    )
    config = os.environ.get(NAMED) or str(USUAL)
    made.add_argument("--config", metavar="FILE", default=config, help="the configuration")
    words = made.add_subparsers(metavar="COMMAND", required=True)

    def add(
        word: str, run: Callable[[argparse.Namespace], int], about: str
    ) -> argparse.ArgumentParser:
        found = words.add_parser(word, help=about, description=about)
        found.set_defaults(run=run)
        return found

    init = add("init", _init, "set up the service: configuration, database, first administrator")
    init.add_argument(
        "--host", metavar="NAME", required=True, help="the host name that browsers use"
    )
    init.add_argument("--admin", metavar="NAME", required=True, help="the first administrator")
    init.add_argument(
        "--user", metavar="NAME", default="plantbal-office", help="the user that runs the service"
    )
    user = add("user", _user, "make or change an account; a new password is printed once")
    user.add_argument("name", metavar="NAME")
    user.add_argument("--name", metavar="TEXT", dest="full", default="", help="the person's name")
    user.add_argument(
        "--administrator", action="store_true", help="let the person manage people and plants"
    )
    user.add_argument("--password", action="store_true", help="set a new password")
    user.add_argument(
        "--elsewhere", action="store_true", help="let the person sign in only by LDAP or OIDC"
    )
    user.add_argument("--forget-second", action="store_true", help="remove the second factor")
    user.add_argument("--off", action="store_true", help="disable the account")
    role = add("role", _role, "give a person a role in a plant, or take it away")
    role.add_argument("name", metavar="NAME")
    role.add_argument("plant", metavar="PLANT")
    role.add_argument("role", metavar="ROLE", choices=[each.value for each in IN_A_PLANT])
    role.add_argument("--off", action="store_true", help="take the role away")
    backup = add("backup", _backup, "write the books and the database into one file")
    backup.add_argument("file", metavar="FILE")
    to = "encrypt it for an age recipient (age1..) or a gpg key"
    backup.add_argument("--to", metavar="RECIPIENT", action="append", default=[], help=to)
    back = add("restore", _restore, "restore a backup into an empty service, and verify everything")
    back.add_argument("file", metavar="FILE")
    back.add_argument("--identity", metavar="FILE", help="the age key that decrypts it")
    add(
        "check",
        _check,
        "check that everything is in order: database, books, permissions, free space",
    )
    return made


def main(words: Sequence[str] | None = None) -> int:
    """Do what the words say, and return the status."""
    options = parser().parse_args(words)
    os.environ[NAMED] = str(Path(options.config).resolve())
    os.umask(0o027)
    try:
        status: int = options.run(options)
        return status
    except Fault as fault:
        print(f"plantbal-office: {fault}", file=sys.stderr)
        return ExitStatus.LOOK
    except BrokenPipeError:
        return ExitStatus.FAILED
