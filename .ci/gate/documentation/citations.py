"""Whether what documents cite is there.

Names of the sources, files, edits, rows of examples and lemma files.
"""

from __future__ import annotations

import re
from collections.abc import Iterator
from functools import cached_property

from .guide import PAGES
from .sources import Sources, Unknown

# Documents of those who change the sources, and those of users.
INNER = (
    "README.md",
    "docs/ARCHITECTURE.md",
    "docs/ASSURANCE.md",
    "docs/DECISIONS.md",
    "docs/DEFINITIONS.md",
    ".ci/gate/documentation/clauses.md",
)
OUTER = (
    "CHANGELOG.md",
    "CONTRIBUTING.md",
    "docs/AUDIT.md",
    "docs/CORE.md",
    "docs/FORMAT.md",
    "docs/GUIDE.md",
    "docs/LIBRARY.md",
    "docs/MONTH_END.md",
    "docs/OFFICE.md",
    "docs/OPERATIONS.md",
    "docs/PAGE.md",
    "docs/PYTHON.md",
    "docs/REFERENCE.md",
    "docs/STYLE.md",
)
# Folders of the repository: a path that begins with one of these is one of its files.
FOLDERS = ("bench", "crates", "docs", "examples", "packaging", "python", ".ci")
# Folders of a crate.
PARTS = ("src", "specs", "proofs")
# A file by its ending; the documents of users name files of theirs.
FILE = re.compile(r"\w\.(?:rt|antt|py|edit|csv|md|txt|jsonl)$")
QUOTED = re.compile(r"`([^`\n]+)`")
PATH = re.compile(r"[A-Za-z0-9_.*-]+(?:/[A-Za-z0-9_.*-]+)*/?")
# A word in the place of which a name is to be put, and a folder of what tools make.
OPEN = re.compile(r"(?:^|[/.])(?:[A-Z]+|\.\.|out)(?:[/.]|$)")
NAME = re.compile(r"[A-Za-z_][A-Za-z0-9_']*(?:(?:::|\.)[A-Za-z_][A-Za-z0-9_']*)*")
# The crates of the kit that documents speak of: what is theirs isn't looked up.
KIT = {"csv", "jiff", "jiff_core", "clap", "serde_json", "indexmap", "thiserror", "std"}


def quotes(sources: Sources, path: str) -> Iterator[tuple[int, str]]:
    """Return what stands between backticks in a document, outside of code, with its line."""
    block = False
    for number, line in enumerate(sources.text(path).splitlines(), 1):
        if line.startswith("```"):
            block = not block
        elif not block and not line.startswith("    "):
            for quoted in QUOTED.findall(line):
                yield number, quoted


class Known:
    """The names and files of the sources."""

    def __init__(self, sources: Sources) -> None:
        self.sources = sources

    @cached_property
    def defined(self) -> set[str]:
        """Crates and definitions; functions, types, constants and variants of the code."""
        found = {*self.sources.crates, *KIT, *PARTS}
        for spec in self.sources.specs.values():
            found |= set(spec.names)
        for path in self.sources.code:
            text = self.sources.text(path)
            found |= set(re.findall(r"\b(?:fn|struct|enum|trait|const|static) (\w+)", text))
            found |= set(re.findall(r"^    ([A-Z][A-Za-z]+)[,({ ]", text, re.M))
        return found

    @cached_property
    def names(self) -> set[str]:
        """These; members, fields, clauses, lemmas, tests, modules, edits, scripts, what is used."""
        found = {*self.defined, *self.scripts}
        for spec in self.sources.specs.values():
            found |= {*spec.module.split("."), *(name for _, name in spec.imports.names.values())}
            for definition in spec.definitions:
                found |= set(definition.members)
        for path in self.sources.files(r"crates/[^/]+/(?:src|proofs)/.*"):
            text = self.sources.text(path)
            found |= {*path.partition(".")[0].split("/")}
            found |= set(re.findall(r"^(?:pub )?([A-Za-z_][\w']*) :", text, re.M))
            found |= set(re.findall(r"\b(?:ensures|fn) (\w+)", text))
            for used in re.findall(r"^ *(?:pub )?use ([^;]*);", text, re.M):
                found |= set(re.findall(r"\w+", used))
            found |= set(re.findall(r"^ +(?:pub(?:\([a-z]+\))? )?(\w+): ", text, re.M))
        for path in self.sources.files(r"crates/.*\.edit"):
            found.add(path.rpartition("/")[2].partition(".")[0])
        return found

    @cached_property
    def scripts(self) -> set[str]:
        """The names of scripts: modules, functions, classes, and what is assigned or annotated."""
        found = {"plantbal"}
        for path in self.sources.files(r".*\.py|(?:\.ci|examples|packaging|bench)/[^/.]+"):
            text = self.sources.text(path)
            found.add(path.rpartition("/")[2].partition(".")[0])
            found |= set(re.findall(r"\b(?:def|class) (\w+)", text))
            found |= set(re.findall(r"^ *(?:self\.)?(\w+)(?::| =)", text, re.M))
        return found

    @cached_property
    def ends(self) -> set[str]:
        """All files and folders, from each of their folders on."""
        found = set()
        for path in self.sources.paths:
            parts = path.split("/")
            for begin in range(len(parts)):
                for end in range(begin + 1, len(parts) + 1):
                    found.add("/".join(parts[begin:end]))
        return found

    def has_path(self, path: str) -> bool:
        """Return whether a path is that of a file or a folder, from some folder on."""
        path = path.rstrip("/")
        if path.rpartition("/")[2][:1].isupper() and "." not in path:
            path += ".antt"
        if "*" in path:
            pattern = re.compile(re.escape(path).replace(r"\*", "[^/]*"))
            return any(pattern.fullmatch(one) for one in self.ends)
        return path in self.ends


def is_path(quoted: str, inner: bool) -> bool:
    """Return whether a quoted text is a path into the sources."""
    if not PATH.fullmatch(quoted) or OPEN.search(quoted) or quoted.startswith("/"):
        return False
    first, slash, _ = quoted.partition("/")
    if slash and first in FOLDERS:
        return True
    in_crate = bool(slash) and (first in PARTS or first.startswith("pb_"))
    return inner and (in_crate or FILE.search(quoted) is not None)


def is_name(quoted: str) -> bool:
    """Return whether a quoted text is a name of the sources, and no word of a format."""
    if not NAME.fullmatch(quoted) or quoted.isupper():
        return False
    return re.search(r"::|[a-z0-9]_[a-z]|[a-z][A-Z]", quoted) is not None


def missing(sources: Sources) -> list[str]:
    """Return the paths and names of the sources that a document cites and that aren't there."""
    known, found = Known(sources), []
    for path in (*INNER, *OUTER):
        inner = path in INNER
        for line, quoted in quotes(sources, path):
            if is_path(quoted, inner):
                if not known.has_path(quoted):
                    found.append(f"{path}:{line}: there is no `{quoted}`")
            elif inner and is_name(quoted):
                words = re.split(r"::|\.", quoted)
                if words[0] not in KIT and not known.names.issuperset(words):
                    found.append(f"{path}:{line}: `{quoted}` is no name of the sources")
    return found + not_defined(sources, known) + conformance(sources)


def not_defined(sources: Sources, known: Known) -> list[str]:
    """Return the words of docs/DEFINITIONS.md that are no definition, crate, type or call."""
    path = "docs/DEFINITIONS.md"
    return [
        f"{path}:{line}: `{quoted}` is defined nowhere"
        for line, quoted in quotes(sources, path)
        if re.fullmatch(r"[A-Za-z_0-9:]+", quoted)
        and not known.defined.issuperset(quoted.split("::"))
    ]


def conformance(sources: Sources) -> list[str]:
    """Return the conformance files that docs/FORMAT.md names and that aren't there."""
    path = "docs/FORMAT.md"
    _, _, table = sources.text(path).partition("\n## Conformance files\n")
    cells = re.findall(r"^\| (`.*?`) \|", table, re.M)
    if not cells:
        raise Unknown(f"{path} has no table of conformance files")
    return [
        f"{path}: there is no examples/conformance/{name}.in"
        for cell in cells
        for name in QUOTED.findall(cell)
        if not sources.has(f"examples/conformance/{name}.in")
    ]


def edits(sources: Sources) -> list[str]:
    """Return the edits that docs/ASSURANCE.md names and that aren't there."""
    path = "docs/ASSURANCE.md"
    cited = re.findall(r"^\| `(\w+)`, `(\w+)` \|", sources.text(path), re.M)
    return [
        f"{path}: there is no edit {name} of {crate}"
        for crate, name in cited
        if not sources.files(rf"crates/{crate}/(?:must-fail|planted)/{name}\.edit")
    ]


def rows_of_examples(sources: Sources) -> list[str]:
    """Return the rows that the pages for users quote and that no example has.

    What a command writes isn't looked up: the tests type it again.
    """
    rows: set[str] = set()
    for example in sources.files(r"examples/.*\.csv"):
        rows |= set(sources.text(example).splitlines())
    return [
        f"{path}:{number}: no example has the row {quoted}"
        for path in PAGES
        for number, quoted in quoted_rows(sources.text(path), rows)
        if not any(row.startswith(quoted) for row in rows)
    ]


def quoted_rows(text: str, rows: set[str]) -> Iterator[tuple[int, str]]:
    """Return the rows that a page quotes, with their lines, but not what a command writes.

    A row in capitals is the form of one.
    """
    kinds, typed = "|".join(sorted({row.split(",")[0] for row in rows if "," in row})), False
    for number, line in enumerate(text.splitlines(), 1):
        quoted = line[4:]
        typed = line.startswith("    ") and (typed or quoted.startswith("$ "))
        if line.startswith("    ") and not typed and re.match(rf"({kinds}),", quoted):
            if not re.search(r",[A-Z]+,[A-Z]+", quoted):
                yield number, quoted


def lemmas(sources: Sources) -> list[str]:
    """Return the lemma files that other crates cite and docs/ARCHITECTURE.md doesn't list."""
    text = sources.text("docs/ARCHITECTURE.md")
    listed = set(re.findall(r"`(pb_[a-z]+\.proofs\.[A-Za-z]+)`", text))
    whole = set(re.findall(r"`(pb_[a-z]+)\.proofs`", text))
    found = []
    for path in sources.files(r"crates/[^/]+/(?:proofs/.*\.antt|src/.*\.rt)"):
        cited = re.findall(r"Rattle\.(pb_[a-z]+)\.proofs\.([A-Za-z]+)", sources.text(path))
        for crate, module in sorted(set(cited)):
            name = f"{crate}.proofs.{module}"
            if crate != path.split("/")[1] and crate not in whole and name not in listed:
                found.append(f"{path} cites {name}, which docs/ARCHITECTURE.md does not list")
    return found
