"""The named calls of the libraries, on which other programs rely, and whether each is still as it was."""

from __future__ import annotations

import re
from dataclasses import dataclass, replace

from .rust import Function, Types, of_libraries
from .sources import Sources, Unknown

CALLS = ".ci/gate/documentation/calls.txt"
# A clause of a contract: what it demands or promises, and its name if it has one.
CLAUSE = re.compile(r"^\s*(requires|ensures)(?: (\w+))? \{", re.M)
# How the list writes a clause without a name.
UNNAMED = "_"


@dataclass(frozen=True)
class Call:
    """A call as the list has it: its crate, its head in one line, and the names of its clauses."""

    crate: str
    head: str
    requires: tuple[str, ...]
    ensures: tuple[str, ...]

    @property
    def named(self) -> str:
        """The crate and the name, by which a reader looks for it."""
        return f"{self.crate}::{self.head.partition('(')[0]}"

    @property
    def line(self) -> str:
        """The line of the list."""
        asked = f" | requires {', '.join(self.requires)}" if self.requires else ""
        given = f" | ensures {', '.join(self.ensures)}" if self.ensures else ""
        return f"    {self.head}{asked}{given}"


def call_of(function: Function) -> Call:
    """Return a function of the code as the list has it."""
    inside = re.sub(r"\s+", " ", function.head[function.head.index("fn ") + 3 :]).strip()
    head = re.sub(r"\( | \)|,\s*\)", lambda found: found[0].strip(" ,"), inside)
    owner = f"{function.owner}::" if function.owner else ""
    clauses = CLAUSE.findall(function.contract)
    requires, ensures = (
        tuple(name or UNNAMED for kind, name in clauses if kind == wanted)
        for wanted in ("requires", "ensures")
    )
    return Call(function.crate, owner + head, requires, ensures)


def standing(sources: Sources) -> dict[str, list[Call]]:
    """Return the public calls of the libraries as they stand, by crate and name.

    A call is also one of each library that hands it on, or the type whose method it is.
    """
    types = Types(sources)
    found: dict[str, list[Call]] = {}
    for function in of_libraries(sources):
        if types.is_public(function):
            call = call_of(function)
            for crate in types.givers(call.crate, function.owner or function.name):
                given = replace(call, crate=crate)
                found.setdefault(given.named, []).append(given)
    return found


def listed(sources: Sources) -> list[Call]:
    """Return the calls of the list."""
    found: list[Call] = []
    crate = ""
    for line in sources.text(CALLS).splitlines():
        if line.startswith("    "):
            head, *parts = line.strip().split(" | ")
            clauses = dict(part.split(" ", 1) for part in parts)
            requires, ensures = (
                tuple(filter(None, clauses.get(kind, "").split(", ")))
                for kind in ("requires", "ensures")
            )
            found.append(Call(crate, head, requires, ensures))
        elif re.fullmatch(r"pb_\w+", line):
            crate = line
        elif line and not line.startswith("#"):
            raise Unknown(f"{CALLS}: what is this? {line}")
    return found


def wrong_with(call: Call, there: list[Call]) -> str | None:
    """Return what is wrong with a call of the list, given the calls of its name that stand."""
    if not there:
        return "there is no such public call"
    same = [one for one in there if one.head == call.head]
    if not same:
        return f"it is now {there[0].head}"
    more = [
        name
        for name in same[0].requires
        if same[0].requires.count(name) > call.requires.count(name)
    ]
    if more:
        return f"it now requires more: {', '.join(dict.fromkeys(more))}"
    gone = [name for name in call.ensures if call.ensures.count(name) > same[0].ensures.count(name)]
    if gone:
        return f"it has lost clauses: {', '.join(dict.fromkeys(gone))}"
    return None


def complaints(sources: Sources) -> list[str]:
    """Return which calls of the list are missing, changed, or promise less or demand more."""
    there = standing(sources)
    found = ((call, wrong_with(call, there.get(call.named, []))) for call in listed(sources))
    return [f"{CALLS}: {call.named}: {why}" for call, why in found if why]
