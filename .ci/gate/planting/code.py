"""The things of a source file: its functions as their callers read them, its types, traits,
constants and macros.

The sources have the layout of `rt fmt`, so that a thing ends where a line of its own depth closes
it.
"""

from __future__ import annotations

import re
from collections.abc import Iterator
from dataclasses import dataclass
from functools import cache
from pathlib import Path

from gate.planting.tree import Tree

# An import of definitions or lemmas: its path, and the names or the name for the module.
IMPORT = re.compile(r"(?m)^ *(?:pub )?(?:ghost )?use (Rattle\.[\w.]+?)(?:\.\{(.*)\}| as (\w+))?;?$")
WORD = re.compile(r"[^\W\d]\w*")
# What stands before `fn`: who sees a function, and whether constants or C call it.
QUALIFIERS = r"(?:pub(?:\([a-z]+\))? )?(?:const )?(?:unsafe )?(?:extern \"C\" )?"
_FUNCTION = re.compile(rf"(?m)^ *{QUALIFIERS}fn (\w+)")
_NAMED = re.compile(rf"{QUALIFIERS}(?:fn|struct|enum|trait|type|const|static|macro_rules!) (\w+)")
_IMPL = re.compile(r"impl(?:<.*?>)? (?:.*\bfor )?(\w+)")
_USE_OR_MODULE = re.compile(r"(?:pub(?:\([a-z]+\))? )?(?:ghost )?(?:use|mod)\b")
_RUST_USE = re.compile(r"(?m)^(?:pub(?:\([a-z]+\))? )?use ([^;]*);")
_RENAMED = re.compile(r"\b(\w+) as (\w+)")
_QUALIFIED = re.compile(r"\b[a-z]\w*::(\w+)")
_MACRO = re.compile(r"\b(\w+)!")


@dataclass(frozen=True)
class Item:
    """A thing of a source file, or a function of a type.

    Attributes
    ----------
    path : Path
        The file.
    thing : str
        The name of the thing, or of the type.
    function : str
        The name of the function, if it is one; it is `thing` itself for a function without a type.
    read : str
        Its text as others read it: a function without its body.
    whole : str
        Its whole text.
    computes : bool
        Whether others read its body, too: a macro, or a function that constants are computed by.
    """

    path: Path
    thing: str
    function: str
    read: str
    whole: str
    computes: bool = False

    @property
    def names(self) -> tuple[str, ...]:
        """The names by which it is looked for."""
        return tuple(dict.fromkeys(filter(None, (self.thing, self.function))))


def functions_in(text: str) -> list[str]:
    """Return the names of the functions of a text."""
    return _FUNCTION.findall(text)


def without_body(text: str, depth: int) -> str:
    """Return a function as its callers read it.

    The body of a const function stays, since a caller may compute with it.
    """
    margin = " " * depth
    lines = text.split("\n")
    found = _FUNCTION.search(text)
    if not found or "const fn" in found[0]:
        return text
    for at, line in enumerate(lines):
        if line in (f"{margin}{{", f"{margin}{{}}"):
            return "\n".join(lines[:at])
        if line.startswith(margin) and line[depth : depth + 1].strip() and line.endswith("{"):
            return "\n".join([*lines[:at], line.removesuffix("{").rstrip()])
    return text


def blocks_in(text: str, depth: int) -> Iterator[str]:
    """Yield the things that begin at a depth of a text, each with its attributes."""
    margin = " " * depth
    lines: list[str] = []
    head = ""
    for line in text.split("\n"):
        is_outer = line.startswith(margin) and line[depth : depth + 1].strip() != ""
        if not lines and not is_outer:
            continue
        lines.append(line)
        if is_outer and not head and line[depth] == "#":
            continue
        if _ends(line, head, depth, is_outer):
            yield "\n".join(lines)
            lines, head = [], ""
        elif is_outer and not head:
            head = line
    if lines:
        yield "\n".join(lines)


def _ends(line: str, head: str, depth: int, is_outer: bool) -> bool:
    """Return whether a line is the last one of a thing with that first line, if there was one."""
    if not is_outer:
        return line.endswith(";") and head.endswith("=")  # a value on the line after its name
    if not head:
        return line.endswith((";", "}"))
    first = line[depth]
    return line[depth:] == "{}" or first == "}" or (first in ")]" and line.endswith(";"))


class Code:
    """The source files of a checkout, as things.

    Parameters
    ----------
    tree : Tree
        The checkout.
    """

    def __init__(self, tree: Tree) -> None:
        self.tree = tree

    @cache
    def items_of(self, path: Path) -> tuple[Item, ...]:
        """Return the things of a source file, without its imports and modules."""
        text = re.sub(r"(?m)^#!.*\n", "", self.tree.plain(path))
        blocks = (each for each in blocks_in(text, 0) if not _USE_OR_MODULE.match(each))
        return tuple(item for block in blocks for item in _items_of_block(path, block))

    @cache
    def items_by_name(self, crate: str) -> dict[str, list[Item]]:
        """Return what the functions of a crate can name: things of it and of the crates below."""
        found: dict[str, list[Item]] = {}
        for name in (*self.tree.reached(crate), crate):
            for path in self.tree.files(name, "src/**/*.rt"):
                for item in self.items_of(path):
                    for word in item.names:
                        found.setdefault(word, []).append(item)
        return found

    @cache
    def names_in(self, path: Path) -> dict[str, str]:
        """Return the names that a file has for things, its own and imported ones."""
        found = {word: item.thing for item in self.items_of(path) for word in (item.thing,)}
        for names in _RUST_USE.findall(self.tree.plain(path)):
            renamed = {new: old for old, new in _RENAMED.findall(names)}
            found.update({each: renamed.get(each, each) for each in WORD.findall(names)})
        return found

    def things_in(self, path: Path, text: str) -> frozenset[str]:
        """Return the things that a text of a file names: by name, after a path, or as a macro."""
        names = self.names_in(path)
        things = {names[each] for each in WORD.findall(text) if each in names}
        return frozenset(things | set(_QUALIFIED.findall(text)) | set(_MACRO.findall(text)))


def _items_of_block(path: Path, block: str) -> Iterator[Item]:
    """Yield a thing of a file as items: one, or each function of a type with the head of its impl."""
    head = next((line for line in block.split("\n") if not line.startswith("#")), "")
    of_type, named = _IMPL.match(head), _NAMED.match(head)
    if not of_type:
        name = named[1] if named else ""
        if _FUNCTION.match(head):
            yield Item(path, name, name, without_body(block, 0), block, "const fn" in head)
        else:  # a trait is read as a whole, with the contracts of its functions
            yield Item(path, name, "", block, block, "macro_rules!" in head)
        return
    inside = block[block.index(head) + len(head) + 1 :].rpartition("\n")[0]
    inner = list(blocks_in(inside, 4))
    if " for " in head:
        read = "\n".join([head, *(without_body(each, 4) for each in inner)])
        yield Item(path, of_type[1], "", read, block)
        return
    top = "\n".join([head, *(each for each in inner if IMPORT.match(each)), ""])
    for each in inner:
        if not IMPORT.match(each):
            name = "".join(functions_in(each)[:1])
            read = top + without_body(each, 4)
            yield Item(path, of_type[1], name, read, top + each, "const fn" in each)
