"""What texts reach: the definitions and types that a reader must know to understand them."""

from __future__ import annotations

import re
from dataclasses import dataclass, field

from .rust import item_of
from .sources import Definition, Imports, Sources, Spec

WORD = re.compile(r"[A-Za-z_][A-Za-z0-9_']*(?:\.[A-Za-z_][A-Za-z0-9_']*)*")
# A file with what is reached of it.
Reached = tuple[Spec, list[Definition]]


def words_in(text: str) -> list[str]:
    """Return the words of definitions or of code, without comments and texts."""
    return WORD.findall(re.sub(r'codes "[^"]*"', "", re.sub(r"(--|//).*", "", text)))


@dataclass
class Part:
    """A part of the page: a file, what is shown of it, and where its words come from."""

    path: str
    text: str
    imports: Imports


def part_of(reached: Reached) -> Part:
    """Return what is reached of a file as a part, without comments."""
    spec, definitions = reached
    return Part(spec.path, "\n".join(it.code for it in definitions), spec.imports)


@dataclass
class Reach:
    """What texts reach, in the order in which a reader meets it.

    Attributes
    ----------
    definitions : list
        The definitions, each with its file.
    types : dict
        The files and texts of types and constants of the code.
    toolchain : dict
        The words of the toolchain's libraries, each with its module.
    unknown : dict
        The words that stand nowhere, each with its module.
    """

    sources: Sources
    definitions: list[tuple[Spec, Definition]] = field(default_factory=list)
    types: dict[tuple[str, str], None] = field(default_factory=dict)
    toolchain: dict[tuple[str, str], None] = field(default_factory=dict)
    unknown: dict[str, str] = field(default_factory=dict)
    seen: set[tuple[str, str]] = field(default_factory=set)

    def words(self, text: str, known: Imports, own: Spec | None = None) -> None:
        """Visit what the words of a text mean."""
        for word in words_in(text):
            front = word.partition(".")[0]
            if own and front in own.names:
                self.visit(own.module, front)
            elif home := known.home(word):
                self.visit(*home)

    def visit(self, module: str, name: str) -> None:
        """Visit a word of a module."""
        if not module.split(".")[1].startswith("pb_"):
            self.toolchain.setdefault((module, name))
        elif (module, name) not in self.seen:
            self.seen.add((module, name))
            if ".specs.declared." in module:
                self.visit_code(module, name)
            elif module in self.sources.specs:
                self.visit_definition(self.sources.specs[module], name)
            else:
                self.unknown[name] = module

    def visit_code(self, module: str, name: str) -> None:
        """Visit a type or a constant of the code that a definition names."""
        found = declared(self.sources, module, name)
        if found:
            self.types.setdefault(found)
        else:
            self.unknown[name] = module

    def visit_definition(self, spec: Spec, name: str) -> None:
        """Visit a definition, that of a constructor, or what a file hands on."""
        definition = spec.names.get(name) or spec.homes.get(name)
        if definition is None and name in spec.imports.names:
            self.visit(*spec.imports.names[name])
        elif definition is None:
            self.unknown[name] = spec.module
        elif definition.name != name:
            self.visit(spec.module, definition.name)
        else:
            self.definitions.append((spec, definition))
            self.words(definition.code, spec.imports, spec)

    def files(self) -> list[Reached]:
        """Return each file with what is reached of it, in the file's order."""
        return self.by_file(self.definitions)

    @staticmethod
    def by_file(definitions: list[tuple[Spec, Definition]]) -> list[Reached]:
        """Return the files of definitions, each with these in the file's order."""
        met: dict[str, tuple[Spec, set[Definition]]] = {}
        for spec, definition in definitions:
            met.setdefault(spec.module, (spec, set()))[1].add(definition)
        return [(spec, [d for d in spec.definitions if d in some]) for spec, some in met.values()]


def declared(sources: Sources, module: str, name: str) -> tuple[str, str] | None:
    """Return the file and the text of a type or a constant that a definition names."""
    _, crate, _, _, *place = module.split(".")
    for depth in range(len(place), -1, -1):
        path = f"crates/{crate}/src/{'/'.join(place[:depth]) or 'lib'}.rt"
        if not sources.has(path):
            continue
        for wanted in [name, *place[depth:]]:
            text = item_of(sources.text(path), "struct|enum|const", wanted)
            if text:
                return path, text
    return None
