"""Laws that a reader already assumes, with their functions and with wrong bodies that the prover refuses."""

from __future__ import annotations

import re
from dataclasses import dataclass

from .sources import Sources

LAWS = "<!-- laws: made by .ci/documents write from .ci/gate/documentation/laws.txt -->"
LIST = ".ci/gate/documentation/laws.txt"


@dataclass(frozen=True)
class Law:
    """What a law says, the functions whose contract it is, and edits that the prover refuses."""

    says: str
    functions: list[str]
    edits: list[str]


def laws(sources: Sources) -> list[Law]:
    """Return the laws of the list, in its order."""
    lines = [line for line in sources.text(LIST).splitlines() if line and line[0] != "#"]
    parts = [[part.strip() for part in line.split("|")] for line in lines]
    return [Law(says, functions.split(), edits.split()) for says, functions, edits in parts]


def table(sources: Sources) -> list[str]:
    """Return the table of the laws."""
    lines = ["| law | function | wrong bodies that are refused |", "|---|---|---|"]
    for law in laws(sources):
        functions = ", ".join(f"`{name}`" for name in law.functions)
        edits = ", ".join("`" + edit.replace("/", "`: `") + "`" for edit in law.edits)
        lines.append(f"| {law.says} | {functions} | {edits} |")
    return lines


def has_function(sources: Sources, name: str) -> bool:
    """Return whether a crate has this public function."""
    crate, _, function = name.partition("::")
    paths = sources.files(rf"crates/{crate}/src/.*\.rt")
    head = re.compile(rf"^pub fn {function}\b", re.M)
    return any(head.search(sources.text(path)) for path in paths)


def has_edit(sources: Sources, name: str) -> bool:
    """Return whether a crate has this edit."""
    crate, _, edit = name.partition("/")
    return bool(sources.files(rf"crates/{crate}/(?:must-fail|planted)/{edit}\.edit"))


def complaints(sources: Sources) -> list[str]:
    """Return the functions and edits of the list that aren't there, and laws that lack one."""
    found = []
    for law in laws(sources):
        found += [
            f"{LIST}: there is no {it}" for it in law.functions if not has_function(sources, it)
        ]
        found += [f"{LIST}: there is no edit {it}" for it in law.edits if not has_edit(sources, it)]
        if not law.functions or not law.edits:
            found.append(f"{LIST}: '{law.says}' lacks a function or an edit")
    return found
