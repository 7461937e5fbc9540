"""The checkout: its folder, its crates with what each names, and a copy of its sources."""

from __future__ import annotations

import re
import subprocess
from collections.abc import Iterator
from dataclasses import dataclass
from pathlib import Path

TOP = Path(__file__).resolve().parents[2]
CRATES = "crates.txt"
# What the program is built from.
SOURCES = ("plantbal", "build", CRATES, "HANDLES", "crates")


@dataclass(frozen=True)
class Crate:
    """A line of crates.txt.

    Attributes
    ----------
    layer : str
        The line of comment above its layer.
    name : str
        Its name.
    below : list of str
        The libraries that it names, those of the kit among them.
    """

    layer: str
    name: str
    below: list[str]


def crates_in(text: str) -> Iterator[Crate]:
    """Give the crates of a text of crates.txt, lowest first."""
    layer = ""
    for line in text.splitlines():
        if line.startswith("#"):
            layer = line.lstrip("# ").strip()
            continue
        name, colon, below = line.split("#")[0].partition(":")
        if name.strip() and colon:
            yield Crate(layer, name.split()[0], below.split())


def copied(into: Path) -> Path:
    """Copy the sources of the program, without what was built of them, and return their folder."""
    into.mkdir()
    packed = subprocess.run(
        ["tar", "-cf", "-", "--exclude=out", *SOURCES], cwd=TOP, check=True, stdout=subprocess.PIPE
    )
    subprocess.run(["tar", "-xf", "-", "-C", into], input=packed.stdout, check=True)
    return into


def numbers_in(text: str) -> dict[str, int]:
    """Return the numbers of a text of names and numbers, such as that of docs/times.txt."""
    rows = (line.split()[:2] for line in text.splitlines() if re.match(r"[^#\s]", line))
    return {name: int(number) for name, number in rows}
