"""The cases of examples/worked: each an input with what the program gives for it.

A file has some lines about its cases, and then the cases, each with five parts: a line `== TITLE`,
a line `-- WORDS` with the words of the program, the input, a line `-- STATUS`, and the output. One
empty line between two cases belongs to neither.
"""

from __future__ import annotations

from dataclasses import dataclass

FOLDER = "examples/worked"


class Unreadable(Exception):
    """A file of cases of another form, with its line."""


@dataclass(frozen=True)
class Case:
    """What the program gives for an input with some words."""

    title: str
    words: list[str]
    given: str
    status: int
    wanted: str


def parts(text: str, mark: str) -> list[tuple[str, str]]:
    """Return what stands after each line that begins with a mark, with the rest of that line."""
    found: list[tuple[str, list[str]]] = []
    for line in text.splitlines(keepends=True):
        if line.startswith(mark):
            found.append((line.removeprefix(mark).rstrip("\n"), []))
        elif found:
            found[-1][1].append(line)
    return [(head, "".join(lines)) for head, lines in found]


def cases(text: str) -> list[Case]:
    """Return the cases of a file."""
    found = []
    for title, body in parts(text.replace("\n\n== ", "\n== "), "== "):
        match parts(body, "-- "):
            case [(words, given), (status, wanted)] if body.startswith("-- ") and status.isdigit():
                found.append(Case(title, words.split(), given, int(status), wanted))
            case _:
                raise Unreadable(f"the case {title!r} has no words, or no status")
    if not found or len({case.title for case in found}) < len(found):
        raise Unreadable("there is no case, or two have one title")
    return found
