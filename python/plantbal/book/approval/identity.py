"""Who somebody is: by the number of the user, by the people of the rules, and by the key.

A person may have two logins and two keys. So each act has a set of marks, and two acts are one
person's if they share a mark: the same user, the same name in the rules, or the same name of a key.
"""

from __future__ import annotations

import re

from plantbal.book.approval.rules import Rules
from plantbal.book.journal import JournalLine

_NUMBER = re.compile(r"(?:.* \()?([0-9]+)\)?")
Marks = frozenset[str]


def number_of(user: str) -> int | None:
    """Return the number of a user as the journal has it: `anna (1001)`."""
    found = _NUMBER.fullmatch(user)
    return int(found[1]) if found else None


def person_named(user: str, who: str, rules: Rules) -> str:
    """Return the person who acts as a user; nothing if neither the rules nor a voucher says it.

    Parameters
    ----------
    user : str
        The user, as the journal has it.
    who : str
        Who it is, as the command's words say it: that counts if the user vouches for others.
    rules : Rules
        The rules of the book.
    """
    number = number_of(user)
    if number is None:
        return ""
    return who if number in rules.vouching else rules.who(number)


def marks_of(user: str, who: str, rules: Rules, signed: str = "") -> Marks:
    """Return the marks of an act; the parameters are those of `name_of`, and who has signed it."""
    number = number_of(user)
    name = person_named(user, who, rules)
    found = {f"name {each}" for each in (name, signed) if each}
    if not name or number not in rules.vouching:
        found.add(f"user {number if number is not None else user}")
    return frozenset(found)


def marks_of_line(line: JournalLine, rules: Rules, signed: str = "") -> Marks:
    """Return the marks of a line of the journal."""
    return marks_of(line.user, line.who, rules, signed)
