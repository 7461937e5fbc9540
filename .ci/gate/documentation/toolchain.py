"""The words of the toolchain that the page of statements uses, as the kit's own files define them."""

from __future__ import annotations

import re
import shutil
import textwrap
from collections.abc import Iterable, Iterator
from dataclasses import dataclass
from functools import cache
from pathlib import Path

from .sources import Unknown, imports

# The folders of the kit that hold the modules of its own libraries, by the first word of a module.
FOLDERS = {"lib": ("logic/Lib", "antt/lib/src"), "mathlib": ("antt/port/mathlib/src",)}
# What a kit's file hands on from another module.
HANDED_ON = re.compile(r"^pub use (?P<module>[\w.]+)(?:\.\{(?P<names>[^}]*)\})?$", re.M)
# Words of the language itself, and those whose definitions in the kit are of another form.
KNOWN = {
    "zero": "0",
    "suc": "the next whole number",
    "min": "the lesser of two numbers",
    "max": "the greater of two numbers",
    "map": "`map f xs`: f of each item of the list xs, in order",
    "true": "one of the two truth values",
    "false": "the other one",
}


@cache
def kit() -> Path:
    """Return the folder of the kit's libraries, beside the command `rt`."""
    command = shutil.which("rt")
    if command is None:
        raise Unknown("rt isn't on the path: the words of the toolchain are read from its kit")
    return Path(command).resolve().parents[1] / "rattle"


@cache
def file_of(module: str) -> tuple[str, str]:
    """Return the library that has a module of the kit, and the module's text, empty if it has no file.

    The modules of `std` that aren't in its folder are those of the libraries below it, which it
    hands on whole.
    """
    first, *rest = module.split(".")
    places = {first: FOLDERS.get(first, ())}
    if first == "Rattle" and rest[1:2] == ["specs"]:
        libraries = (rest[0], "core", "std_alloc", "std_io")
        places = {library: (f"{library}/specs",) for library in libraries}
        rest = rest[2:]
    for library, folders in places.items():
        for folder in folders:
            path = kit() / folder / f"{'/'.join(rest)}.antt"
            if path.is_file():
                return library, path.read_text(encoding="utf-8")
    return first, ""


@dataclass(frozen=True)
class Word:
    """A word of the toolchain: the library that defines it, what its comment says, and its lines."""

    name: str
    library: str
    comment: str
    lines: tuple[str, ...]


def handed_on(module: str, name: str) -> tuple[str, str] | None:
    """Return the module from which a module hands a name on, and the name there."""
    for found in HANDED_ON.finditer(file_of(module)[1]):
        for one in (found["names"] or "").split(","):
            there, _, here = one.strip().partition(" as ")
            if name == (here or there):
                return found["module"], there
    return None


def defined(text: str, name: str) -> tuple[str, tuple[str, ...]] | None:
    """Return the comment and the lines of a definition, without what the module indents them by."""
    lines = text.splitlines()
    head = re.compile(
        rf"( *)(?:abbrev |unfoldable )?(?:pub )?(?:record |data )?{re.escape(name)}(?![\w'-])"
    )
    for at, line in enumerate(lines):
        found = head.match(line)
        if found and not line.lstrip().startswith(("use ", "pub use ")):
            indent = found[1]
            end = at + 1
            while end < len(lines) and (
                lines[end].startswith((f"{indent} ", f"{indent}{name} ")) and lines[end].strip()
            ):
                end += 1
            begin = at
            while begin > 0 and lines[begin - 1].startswith(f"{indent}--"):
                begin -= 1
            comment = " ".join(one.strip().removeprefix("--").strip() for one in lines[begin:at])
            return comment, tuple(one.removeprefix(indent) for one in lines[at:end])
    return None


@cache
def word(module: str, name: str) -> Word | None:
    """Return what a word means, or None if it is a type of the toolchain's code."""
    if ".declared." in module:
        return None
    library, text = file_of(module)
    found = defined(text, name)
    if name in KNOWN:
        return Word(name, library, KNOWN[name], ())
    if found:
        return Word(name, library, *found)
    there = handed_on(module, name) or imports(text).names.get(name)
    return word(*there) if there else None


def in_code(lines: Iterable[str]) -> str:
    """Return lines of a definition as one piece of code in a cell of a table."""
    text = "; ".join(re.sub(r"\s+", " ", line).strip() for line in lines)
    text = re.sub(r"^(?:abbrev |unfoldable )?pub ", "", text.replace("where;", "where"))
    return f"`{text.replace('=;', '=')}`".replace("|", "\\|") if text else ""


def table(words: Iterable[tuple[str, str]]) -> Iterator[str]:
    """Return the table of words, each with its module there, and the types of the code after it."""
    rows: dict[tuple[str, Word], None] = {}
    types = []
    for module, name in words:
        meant = word(module, name)
        if meant is None:
            types.append(name)
        else:
            rows[name, meant] = None
    if rows:
        yield "| word | library | in words | defined as |"
        yield "|---|---|---|---|"
    for name, meant in sorted(rows, key=lambda it: (it[0].lower(), it[0], it[1].library)):
        comment = meant.comment.replace("|", "\\|")
        yield f"| `{name}` | {meant.library} | {comment} | {in_code(meant.lines)} |"
    if rows and types:
        yield ""
    if types:
        names = ", ".join(f"`{name}`" for name in sorted(set(types)))
        yield from textwrap.wrap(f"Types of the toolchain's code, and their values: {names}.", 120)
