"""What the answer to a planted edit rests on.

An edit changes the body of a function, and the prover refuses one of that function's goals. The
goals come from the body and from what it says of the things that it uses, so the answer rests on

1. the edit, the whole function, and the proofs of this function;
2. the functions that the body calls, as callers read them: their contracts. What these contracts
   name are definitions and types, never another function, so no contract of a function that isn't
   called counts, and no body of any other function;
3. the types, traits, constants and macros that 1, 2 and these themselves name; the bodies of macros
   and of const functions count as if they stood in 1;
4. the definitions and lemmas that all of these name, and those that they name in turn;
5. the kit's logic, and the tactics that the crate asks for.

A function counts as called if its name is among the words of 1, and it is a function by itself that
the file can name, or of a type that was reached. So rather too much is taken than too little: every
`len` of every type that may be at hand. An edit of anything but bodies rests on the whole crate, as
if all of it stood in 1, since another function's proof may be what refuses it.

Imports of the code aren't taken: if a file imports another function of the same name, and both were
reached before, the sum stays.
"""

from __future__ import annotations

import hashlib
import re
from collections.abc import Iterable
from dataclasses import dataclass
from functools import cache
from pathlib import Path

from gate.planting.code import WORD, Code, Item, functions_in
from gate.planting.meanings import Meanings, digest_of
from gate.planting.tree import Tree


@dataclass(frozen=True)
class Replaced:
    """A replacement of an edit: in a file of the crate, an old text by a new one."""

    file: str
    old: str
    new: str


class Sums:
    """The sums of the planted edits of a checkout.

    Parameters
    ----------
    top : Path
        Its folder.
    logic : str
        What the kit says of its logic.
    """

    def __init__(self, top: Path, logic: str) -> None:
        self.tree = Tree(top)
        self.logic = logic
        self.code = Code(self.tree)
        self.meanings = Meanings(self.tree)

    def sum_of(
        self, crate: str, replaced: Iterable[Replaced], functions: Iterable[tuple[str, str]]
    ) -> str:
        """Return the sum of all that the answer to an edit rests on.

        Parameters
        ----------
        crate : str
            The crate.
        replaced : iterable of Replaced
            What the edit changes.
        functions : iterable of (str, str)
            The functions whose bodies it changes, each as file and name; none, if it changes
            anything else.
        """
        reach = _Reach(self, crate)
        reach.digests.update(
            digest_of(each, is_code=True) for each in (self.logic, *self._asked(crate))
        )
        folder = self.tree.crate(crate)
        for each in replaced:
            if each.file.endswith(".rt"):
                reach.take_body(folder / each.file, f"{each.old}\n{each.new}")
            else:
                reach.digests.add(digest_of(f"{each.old}\n{each.new}", is_code=False))
        own = list(functions)
        for file, name in own:
            for item in self.code.items_of(folder / file):
                if name in functions_in(item.whole):
                    reach.take_body(item.path, item.whole)
            for proof in self._proofs_of(crate, file, name):
                reach.take_body(proof, self.tree.plain(proof))
        if not own:
            for path in self.tree.files(crate, "src/**/*.*", "specs/**/*.*", "proofs/**/*.*"):
                reach.take_body(path, self.tree.plain(path))
        return reach.sum()

    def _asked(self, crate: str) -> list[str]:
        """Return the tactics that a crate asks for."""
        roots = self.tree.files(crate, "src/lib.rt", "src/main.rt")
        return [each for path in roots for each in re.findall(r"(?m)^#!\[.*", self.tree.read(path))]

    def _proofs_of(self, crate: str, file: str, function: str) -> list[Path]:
        """Return the files of the proofs of a function."""
        module = file.removeprefix("src/").removesuffix(".rt")
        patterns = (f"proofs/{module}/**/*.antt", f"proofs/{function}/**/*.antt")
        return [each for each in self.tree.files(crate, *patterns) if function in each.parts]

    @cache
    def read_in(self, path: Path, text: str) -> tuple[str, frozenset[str], frozenset[str]]:
        """Return what a text comes to: its digest, the things that it names, and its words."""
        meaning = self.meanings.meaning_in(path, text)
        is_code = path.suffix == ".rt"
        things = self.code.things_in(path, text) if is_code else frozenset[str]()
        words = frozenset(WORD.findall(text)) if is_code else frozenset[str]()
        return digest_of(meaning.text, is_code), things | meaning.declared, words


class _Reach:
    """What is reached from texts of a crate."""

    def __init__(self, sums: Sums, crate: str) -> None:
        self._sums = sums
        self._items = sums.code.items_by_name(crate)
        self.digests: set[str] = set()
        self._things: set[str] = set()
        self._called: set[str] = set()
        self._taken: set[Item] = set()

    def take_body(self, path: Path, text: str) -> None:
        """Take a text that calls what it names, and all that it leads to."""
        self._take([(path, text, True)])

    def _take(self, ahead: list[tuple[Path, str, bool]]) -> None:
        while ahead:
            path, text, calls = ahead.pop()
            digest, things, words = self._sums.read_in(path, text)
            self.digests.add(digest)
            fresh = things - self._things
            self._things |= things
            if calls:
                fresh |= (words | things) - self._called
                self._called |= words | things
            for name in sorted(fresh & self._items.keys()):
                for item in self._items[name]:
                    if item not in self._taken and self._is_reached(item):
                        self._taken.add(item)
                        ahead.append((item.path, item.read, item.computes))

    def _is_reached(self, item: Item) -> bool:
        """Return whether a thing is named, and a function is called besides."""
        return item.thing in self._things and (not item.function or item.function in self._called)

    def sum(self) -> str:
        """Return the sum of all that was reached."""
        return hashlib.sha256(" ".join(sorted(self.digests)).encode()).hexdigest()[:24]
