"""The chapters of what must be believed: each with what its roots rest on, less what an earlier one has."""

from __future__ import annotations

import re
from collections.abc import Iterable
from dataclasses import dataclass, field

from .reach import Part, Reach, Reached
from .sources import Definition, Sources, Spec, Unknown

CHAPTERS = ".ci/gate/documentation/chapters.txt"
OPENINGS = ".ci/gate/documentation/openings"


@dataclass
class Chapter:
    """A chapter: where it is, and what it has.

    Attributes
    ----------
    path, opening, title : str
        Its page, the file of its opening, and its title.
    roots : list
        The files and names from which it begins.
    definitions, types, toolchain : list
        Its definitions with their files, and the types and words that it is the first to name.
    """

    path: str
    opening: str
    title: str
    roots: list[tuple[str, str]]
    definitions: list[tuple[Spec, Definition]] = field(default_factory=list)
    types: list[tuple[str, str]] = field(default_factory=list)
    toolchain: list[tuple[str, str]] = field(default_factory=list)

    def files(self) -> list[Reached]:
        """Return the files of its definitions, each with these in the file's order."""
        return Reach.by_file(self.definitions)

    def lines(self) -> int:
        """Return how many lines its definitions have, without comments and blank ones."""
        return sum(bool(line.strip()) for _, one in self.definitions for line in one.lines)


def plan(sources: Sources) -> list[Chapter]:
    """Return the chapters with their roots alone."""
    found = []
    for block in re.sub(r"(?m)^#.*\n", "", sources.text(CHAPTERS)).strip().split("\n\n"):
        head, *lines = block.split("\n")
        path, opening, title = head.split(" ", 2)
        roots = [(place, name) for place, *names in map(str.split, lines) for name in names]
        found.append(Chapter(path, opening, title, roots))
    if not found or any(not chapter.roots for chapter in found[:-1]) or found[-1].roots:
        raise Unknown(f"{CHAPTERS}: each chapter has roots, and the last one none")
    return found


def chapters(sources: Sources, parts: Iterable[Part], whole: Reach) -> list[Chapter]:
    """Return the chapters of what parts of code reach, which is all of `whole` and no more."""
    found = plan(sources)
    reach = Reach(sources)
    for chapter in found:
        at = len(reach.definitions), len(reach.types), len(reach.toolchain)
        for place, name in chapter.roots:
            crate, _, file = place.partition("/")
            reach.visit(f"Rattle.{crate}.specs.{file.replace('/', '.')}", name)
            if name in reach.unknown:
                raise Unknown(
                    f"{CHAPTERS} begins a chapter with what isn't there: {name} of {place}"
                )
        if not chapter.roots:
            for part in parts:
                reach.words(part.text, part.imports)
        chapter.definitions = reach.definitions[at[0] :]
        chapter.types = list(reach.types)[at[1] :]
        chapter.toolchain = list(reach.toolchain)[at[2] :]
    shown, wanted = (
        {(spec.path, it.name) for spec, it in one.definitions} for one in (reach, whole)
    )
    if shown != wanted:
        names = ", ".join(sorted(f"{name} of {path}" for path, name in shown ^ wanted))
        raise Unknown(f"{CHAPTERS}: the chapters and the contract don't reach the same: {names}")
    return found
