"""The definitions of the second proof beside those of docs/STATEMENT.md: coq/names.txt."""

from __future__ import annotations

import re
from dataclasses import dataclass

from .sources import Sources, Unknown

NAMES = "coq/names.txt"
# The commands that define a name in Coq; a field of a record is a name too.
COMMANDS = "Definition|Fixpoint|Inductive|Record|Lemma|Theorem"


@dataclass(frozen=True)
class Pair:
    """A definition of the page, and the one in Coq that says the same.

    Attributes
    ----------
    place, name : str
        The file of the page's definition, as chapters name it, and its name.
    file, other : str
        The file of the definition in Coq, and its name.
    """

    place: str
    name: str
    file: str
    other: str


def pairs(sources: Sources) -> list[Pair]:
    """Return the pairs of coq/names.txt."""
    found = []
    for line in sources.text(NAMES).splitlines():
        words = line.split()
        if words and not line.startswith("#"):
            if len(words) != 4:
                raise Unknown(f"{NAMES}: a line has four words, and not: {line}")
            found.append(Pair(*words))
    return found


def beside(sources: Sources, place: str, names: set[str]) -> str:
    """Return a sentence for each file of Coq on its names for a file's definitions."""
    found: dict[str, list[str]] = {}
    for pair in pairs(sources):
        if pair.place == place and pair.name in names:
            found.setdefault(pair.file, []).append(f"`{pair.name}` is `{pair.other}`")
    return " ".join(f"In `coq/{file}.v`: {', '.join(here)}." for file, here in found.items())


def missing(sources: Sources, shown: dict[str, set[str]]) -> list[str]:
    """Return the names of pairs that aren't there: on the page, by its files, or in Coq."""
    found = []
    for pair in pairs(sources):
        if pair.name not in shown.get(pair.place, set()):
            found.append(f"{NAMES}: docs/STATEMENT.md has no {pair.name} of {pair.place}")
        path = f"coq/{pair.file}.v"
        name = re.escape(pair.other)
        defined = rf"^(?:{COMMANDS}) {name}\b|^  {name} :"
        if not sources.has(path) or not re.search(defined, sources.text(path), re.M):
            found.append(f"{NAMES}: {path} doesn't define {pair.other}")
    return found
