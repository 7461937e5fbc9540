"""The sources of the repository as the documents see them: files, crates and definitions."""

from __future__ import annotations

import itertools
import os
import re
from collections.abc import Iterator, Mapping
from dataclasses import dataclass, field
from functools import cached_property

from gate.checkout import CRATES, TOP, crates_in

# Folders of what tools make.
MADE = {".git", "out", "__pycache__", ".mypy_cache", ".pytest_cache", ".hypothesis"}
USE = re.compile(
    r"^\s*(?:pub |ghost )?use (?P<module>Rattle\.[A-Za-z_.0-9]+)"
    r"(?:\.\{(?P<names>[^}]*)\}| as (?P<alias>\w+))?;?\s*$"
)
DEFINED = re.compile(
    r"(?:abbrev |unfoldable )?(?:pub )?(?:(?P<form>record|data) )?(?P<name>[A-Za-z_][A-Za-z0-9_']*)"
)
MEMBER = re.compile(r"\s+(?:pub )?([A-Za-z_][A-Za-z0-9_']*) :")


class Unknown(SystemExit):
    """A form of a source or a document that these scripts don't know."""


@dataclass
class Imports:
    """What a file's words mean that come from elsewhere.

    Attributes
    ----------
    names : dict
        Each word with its module and its name there.
    modules : dict
        Each word that stands for a module.
    """

    names: dict[str, tuple[str, str]] = field(default_factory=dict)
    modules: dict[str, str] = field(default_factory=dict)

    def home(self, word: str) -> tuple[str, str] | None:
        """Return the module and the name there of a word, which may have its module in front."""
        front, dot, name = word.partition(".")
        if dot and front in self.modules:
            return self.modules[front], name.partition(".")[0]
        return self.names.get(front)


def imports(text: str) -> Imports:
    """Return what a file imports."""
    found = Imports()
    for line in text.splitlines():
        use = USE.match(line)
        if not use:
            continue
        if use["alias"]:
            found.modules[use["alias"]] = use["module"]
        for item in filter(None, map(str.strip, (use["names"] or "").split(","))):
            there, _, here = item.partition(" as ")
            found.names[here.strip() or there.strip()] = (use["module"], there.strip())
    return found


@dataclass(eq=False)
class Definition:
    """A definition: its name, the lines of comment before it, and its own lines."""

    name: str
    form: str | None
    comment: list[str]
    lines: list[str] = field(default_factory=list)

    @property
    def text(self) -> str:
        """The definition with its comment."""
        return "\n".join([*self.comment, *self.lines]).rstrip()

    @property
    def code(self) -> str:
        """The definition alone."""
        return "\n".join(self.lines)

    @property
    def members(self) -> list[str]:
        """The constructors of a `data`, or the fields of a `record`."""
        if self.form is None:
            return []
        return [found[1] for line in self.lines if (found := MEMBER.match(line))]


class Spec:
    """A file of definitions.

    Attributes
    ----------
    path, crate, module : str
        Where it is, from the top; its crate; and what `use` calls it.
    head : str
        The comment that it begins with, as one line.
    definitions : list of Definition
        What it defines, in order.
    """

    def __init__(self, path: str, text: str) -> None:
        found = re.match(r"crates/([^/]+)/specs/(.*)\.antt$", path)
        assert found
        self.path, self.crate = path, found[1]
        self.module = f"Rattle.{self.crate}.specs.{found[2].replace('/', '.')}"
        self.imports = imports(text)
        lines = text.splitlines()
        heading = list(itertools.takewhile(lambda line: line.startswith("--"), lines))
        self.head = " ".join(
            [*heading[:1], *(line.removeprefix("--").strip() for line in heading[1:])]
        )
        self.definitions: list[Definition] = []
        self._read(lines[len(heading) :])
        self.names = {definition.name: definition for definition in self.definitions}
        self.homes = {
            member: definition
            for definition in self.definitions
            if definition.form == "data"
            for member in definition.members
        }

    def _read(self, lines: list[str]) -> None:
        comment: list[str] = []
        for line in lines:
            if not line.strip() or re.match(r"(?:pub )?(?:use|mod) ", line):
                comment = []
            elif line.startswith("--"):
                comment.append(line)
            elif line[0].isspace() or line[0] in "})]":
                self.definitions[-1].lines.append(line)
            else:
                found = DEFINED.match(line)
                if found is None:
                    raise Unknown(f"{self.path}: what is this? {line}")
                if not self.definitions or self.definitions[-1].name != found["name"]:
                    self.definitions.append(Definition(found["name"], found["form"], comment))
                comment = []
                self.definitions[-1].lines.append(line)

    @property
    def kind(self) -> str | None:
        """`Statement` or `Inside`, as its first line says."""
        found = re.match(r"-- (Statement|Inside)\. ", self.head)
        return found[1] if found else None


class Sources:
    """The files of the repository, each read once.

    Parameters
    ----------
    instead : mapping of str to str
        Texts that stand in place of those of files, by their paths from the top.
    """

    def __init__(self, instead: Mapping[str, str] | None = None) -> None:
        self._texts = dict(instead or {})

    def text(self, path: str) -> str:
        """Return the text of a file."""
        if path not in self._texts:
            self._texts[path] = (TOP / path).read_text(encoding="utf-8")
        return self._texts[path]

    def has(self, path: str) -> bool:
        """Return whether there is such a file."""
        return path in self._texts or (TOP / path).is_file()

    @cached_property
    def paths(self) -> list[str]:
        """All files, but for those that tools make."""
        return sorted(self._walk())

    def _walk(self) -> Iterator[str]:
        for folder, inner, names in os.walk(TOP):
            inner[:] = [name for name in inner if name not in MADE]
            for name in names:
                yield os.path.relpath(os.path.join(folder, name), TOP)

    def files(self, pattern: str) -> list[str]:
        """Return the paths that match a pattern of regular expressions as a whole."""
        wanted = re.compile(pattern)
        return [path for path in self.paths if wanted.fullmatch(path)]

    @cached_property
    def layers(self) -> dict[str, list[str]]:
        """The crates of each layer of crates.txt, lowest first."""
        found: dict[str, list[str]] = {}
        for crate in crates_in(self.text(CRATES)):
            found.setdefault(crate.layer, []).append(crate.name)
        return found

    @cached_property
    def crates(self) -> list[str]:
        """The crates in the order of crates.txt, lowest first."""
        return [crate for crates in self.layers.values() for crate in crates]

    @cached_property
    def specs(self) -> dict[str, Spec]:
        """The files of definitions, by what `use` calls them."""
        found = [
            Spec(path, self.text(path))
            for path in self.files(r"crates/[^/]+/specs/.*\.antt")
            if not path.endswith("/Lib.antt")
        ]
        return {spec.module: spec for spec in found}

    def spec(self, module: str) -> Spec:
        """Return the file of definitions of a module, such as `pb_rows.specs.Name`."""
        if f"Rattle.{module}" not in self.specs:
            raise Unknown(f"there is no file of definitions {module}")
        return self.specs[f"Rattle.{module}"]

    def is_of_tests(self, path: str) -> bool:
        """Return whether a source file has tests alone: by its name, or by its crate's."""
        crate = path.split("/")[1]
        return "tests" in path.split("/src/")[1] or crate in self.crates_of_tests

    @cached_property
    def crates_of_tests(self) -> set[str]:
        """The crates whose lib.rt names modules for tests, and has nothing else."""
        found = set()
        for path in self.files(r"crates/[^/]+/src/lib\.rt"):
            text = re.sub(r"(?m)^(//.*|#!\[.*\])$", "", self.text(path))
            if re.fullmatch(r"(\s*#\[cfg\(test\)\]\s*mod \w+;)+\s*", text):
                found.add(path.split("/")[1])
        return found

    @cached_property
    def code(self) -> list[str]:
        """The source files of the crates, but for those of tests."""
        found = self.files(r"crates/[^/]+/src/.*\.rt")
        return [path for path in found if not self.is_of_tests(path)]
