"""The files of a checkout: its crates, with what each depends on, and the texts of their files."""

from __future__ import annotations

from functools import cache
from pathlib import Path

from gate.checkout import CRATES, crates_in
from gate.planting.tokens import without_comments


class Tree:
    """A checkout, whose files are read once.

    Parameters
    ----------
    top : Path
        Its folder, with crates.txt and crates/.
    """

    def __init__(self, top: Path) -> None:
        self.top = top

    def crate(self, name: str) -> Path:
        """Return the folder of a crate."""
        return self.top / "crates" / name

    def crate_of(self, path: Path) -> str:
        """Return the crate that a file is in."""
        return path.relative_to(self.top).parts[1]

    @cache
    def crates(self) -> dict[str, list[str]]:
        """Return each crate of crates.txt with the libraries that it names."""
        text = self.read(self.top / CRATES)
        return {crate.name: crate.below for crate in crates_in(text)}

    @cache
    def reached(self, crate: str) -> tuple[str, ...]:
        """Return the crates of the checkout that a crate stands on, lowest first."""
        found: list[str] = []
        for name in self.crates()[crate]:
            if name in self.crates():
                found += [each for each in (*self.reached(name), name) if each not in found]
        return tuple(found)

    def files(self, crate: str, *patterns: str) -> list[Path]:
        """Return the files of a crate that fit a pattern, by name."""
        folder = self.crate(crate)
        found = {path for pattern in patterns for path in folder.glob(pattern)}
        return sorted(path for path in found if path.is_file())

    @cache
    def read(self, path: Path) -> str:
        """Return a file's text."""
        return path.read_text(encoding="utf-8")

    @cache
    def plain(self, path: Path) -> str:
        """Return a source file's text without its comments and its blank lines."""
        return without_comments(self.read(path), path.suffix == ".rt")
