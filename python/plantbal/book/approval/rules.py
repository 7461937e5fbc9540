"""The rules of a book: what needs an approval, whose, and whether it is signed.

They stand in `rules.toml`, a file of the book that only an approval by the rules before can change:

    approvers = 1                 # how many, beside whoever submits
    changed = "last"              # the last one who changed a figure can't approve; or "any"

    [wants]
    close = true                  # each close
    amend = true                  # what changes a closed period
    anyway = true                 # a close with --anyway, a rule that is quieted, a strike of most
    estimates = "5 %"             # a close with estimates above this part of a stream's flow

    [sign]
    keys = true                   # submissions and approvals are signed
    stamps = "https://tsa.example/"
    vouching = [997]              # users whose word on who acts counts: the office's service

    [people."anna@mill"]
    users = [1001, 1007]
    may = ["submit"]
"""

from __future__ import annotations

import re
import tomllib
from collections.abc import Iterator, Mapping
from dataclasses import dataclass, field
from enum import StrEnum
from fractions import Fraction
from typing import Any

from plantbal.faults import Fault, InputFault, Place

_SHARE = re.compile(r"([0-9]{1,3}(?:\.[0-9]{1,6})?) ?%")
_NAME = re.compile(r"[A-Za-z0-9][A-Za-z0-9@._+-]{0,99}")
_MOST_APPROVERS = 9


class Want(StrEnum):
    """Why an action needs an approval."""

    CLOSE = "close"
    AMEND = "amend"
    ANYWAY = "anyway"
    ESTIMATES = "estimates"
    ACCEPT = "accept"
    RULES = "rules"


class May(StrEnum):
    """What a person may do with what needs an approval."""

    SUBMIT = "submit"
    APPROVE = "approve"


class Changers(StrEnum):
    """Who of those that changed a figure can't approve it."""

    LAST = "last"
    ANY = "any"


@dataclass(frozen=True)
class Approver:
    """A person: the users that are theirs, by number, and what they may do."""

    name: str
    users: frozenset[int] = frozenset()
    may: frozenset[May] = frozenset()


@dataclass(frozen=True)
class Rules:
    """What a book wants to be approved.

    Attributes
    ----------
    wants : frozenset of Want
        What needs an approval.
    estimates : Fraction or None
        The part of a stream's flow above which estimates want one.
    approvers : int
        How many, beside whoever submits.
    changed : Changers
        Who can't approve what they changed.
    keys : bool
        Whether submissions and approvals are signed.
    stamps : str
        The server of time stamps; empty if there is none.
    vouching : frozenset of int
        Users whose word on who acts counts.
    people : mapping of str to Approver
        The people, by name; empty if anybody may.
    """

    wants: frozenset[Want] = frozenset()
    estimates: Fraction | None = None
    approvers: int = 1
    changed: Changers = Changers.LAST
    keys: bool = False
    stamps: str = ""
    vouching: frozenset[int] = frozenset()
    people: Mapping[str, Approver] = field(default_factory=dict)

    def who(self, user: int) -> str:
        """Return the person whose user a number is; nothing if that isn't said."""
        return next((p.name for p in self.people.values() if user in p.users), "")

    def may(self, name: str, what: May) -> bool:
        """Say whether a person may do something: anybody may if no people are named."""
        return not self.people or (name in self.people and what in self.people[name].may)


def read_rules(file: str, text: str) -> Rules:
    """Return the rules of a text.

    Parameters
    ----------
    file : str
        The file, for what is said of it.
    text : str
        Its text.

    Raises
    ------
    InputFault
        If it isn't of their form, or nothing could be approved by them.
    """
    try:
        found = tomllib.loads(text)
        rules = _rules(found)
        _check_people(rules)
    except (ValueError, RecursionError, Fault) as error:
        said = error.what if isinstance(error, Fault) else f"{error}"
        remedy = "docs/OPERATIONS.md, `Four eyes`, has rules to begin with"
        raise InputFault(said, place=Place(file=file), remedy=remedy) from error
    return rules


def _rules(found: dict[str, Any]) -> Rules:
    """Return rules by the values of their text."""
    _check_known(found, "", "approvers", "changed", "wants", "sign", "people")
    wants = _table(found, "wants")
    sign = _table(found, "sign")
    _check_known(wants, "wants.", "close", "amend", "anyway", "estimates")
    _check_known(sign, "sign.", "keys", "stamps", "vouching")
    named = [want for want in (Want.CLOSE, Want.AMEND, Want.ANYWAY) if _flag(wants, want)]
    approvers = found.get("approvers", 1)
    if type(approvers) is not int or not 1 <= approvers <= _MOST_APPROVERS:
        raise Fault(f"approvers is {approvers!r}, and isn't a number from 1 to {_MOST_APPROVERS}")
    changed = found.get("changed", "last")
    if changed not in list(Changers):
        raise Fault(f"changed is {changed!r}, and isn't one of {', '.join(Changers)}")
    stamps = sign.get("stamps", "")
    if not isinstance(stamps, str) or (stamps and not stamps.startswith(("http://", "https://"))):
        raise Fault(f"sign.stamps is {stamps!r}, and isn't the address of a server")
    return Rules(
        frozenset(named),
        _share(wants["estimates"]) if "estimates" in wants else None,
        approvers,
        Changers(changed),
        _flag(sign, "keys"),
        stamps,
        frozenset(_numbers(sign.get("vouching", []), "sign.vouching")),
        {name: _person(name, each) for name, each in _table(found, "people").items()},
    )


def _table(found: Mapping[str, Any], name: str) -> dict[str, Any]:
    table = found.get(name, {})
    if not isinstance(table, dict):
        raise Fault(f"{name} isn't a table: write [{name}]")
    return table


def _check_known(found: Mapping[str, Any], where: str, *names: str) -> None:
    for name in found:
        if name not in names:
            raise Fault(f"{where}{name} isn't a rule: these are {', '.join(names)}")


def _flag(found: Mapping[str, Any], name: str) -> bool:
    value = found.get(name, False)
    if not isinstance(value, bool):
        raise Fault(f"{name} is {value!r}, and isn't true or false")
    return value


def _share(text: Any) -> Fraction:
    share = _SHARE.fullmatch(text) if isinstance(text, str) else None
    if share is None:
        raise Fault(f"estimates is {text!r}, and isn't a share such as '5 %'")
    return Fraction(share[1]) / 100


def _numbers(found: Any, name: str) -> Iterator[int]:
    if not isinstance(found, list) or any(type(each) is not int for each in found):
        raise Fault(f"{name} is {found!r}, and isn't a list of users' numbers such as [1001]")
    yield from found


def _person(name: str, found: Any) -> Approver:
    if not isinstance(found, dict) or not _NAME.fullmatch(name):
        raise Fault(f'{name!r} isn\'t a person: write [people."anna@mill"]')
    _check_known(found, f"people.{name}.", "users", "may")
    may = found.get("may", [])
    if not isinstance(may, list) or any(each not in list(May) for each in may):
        raise Fault(f"people.{name}.may is {may!r}, and isn't a list of {', '.join(May)}")
    users = frozenset(_numbers(found.get("users", []), f"people.{name}.users"))
    return Approver(name, users, frozenset(map(May, may)))


def _check_people(rules: Rules) -> None:
    """Raise if a user is of two people, or nothing could be approved."""
    owners: dict[int, str] = {}
    for person in rules.people.values():
        for user in person.users:
            if owners.setdefault(user, person.name) != person.name:
                raise Fault(f"the user {user} is of {owners[user]} and of {person.name}")
            if user in rules.vouching:
                raise Fault(f"the user {user} vouches for others, and is {person.name}'s own")
    if not rules.people:
        return
    submits = [each for each in rules.people.values() if May.SUBMIT in each.may]
    approves = [each for each in rules.people.values() if May.APPROVE in each.may]
    both = {each.name for each in (*submits, *approves)}
    if not submits or len(approves) < rules.approvers or len(both) <= rules.approvers:
        what = f"nothing could be approved: {len(submits)} people may submit"
        raise Fault(f"{what}, {len(approves)} may approve, and {rules.approvers} more have to")
