"""The tables of docs/ARCHITECTURE.md: each crate and each module of Python by the head of its own text."""

from __future__ import annotations

import ast
import re

from .guide import between
from .sources import Sources, Unknown

ARCHITECTURE = "docs/ARCHITECTURE.md"
CRATES = "<!-- crates: made by .ci/documents write from crates.txt and the head of each crate -->"
MODULES = "<!-- modules: made by .ci/documents write from the head of each module -->"
# The packages of Python, and the folders of modules that scripts beside them call.
PACKAGES = ("python/plantbal", "python/plantbal_office", ".ci/gate", "packaging", "libplantbal")


def cell(text: str) -> str:
    """Return a text as a cell of a table."""
    return re.sub(r"\s+", " ", text).strip().replace("|", "\\|")


def head_of_crate(sources: Sources, crate: str) -> str:
    """Return the first paragraph of the comment with which a crate begins."""
    for name in ("lib", "main"):
        path = f"crates/{crate}/src/{name}.rt"
        if sources.has(path):
            lines = sources.text(path).splitlines()
            found: list[str] = []
            for line in lines:
                if not line.startswith("//!") or (found and line.strip() == "//!"):
                    break
                found.append(line.removeprefix("//!").strip())
            if found:
                return " ".join(found).replace("[`", "`").replace("`]", "`")
    raise Unknown(f"{crate}: neither src/lib.rt nor src/main.rt begins with what the crate is")


def crates(sources: Sources) -> list[str]:
    """Return the table of crates, by layers, lowest first."""
    lines = ["| layer | crate | what it is |", "|---|---|---|"]
    for layer, names in sources.layers.items():
        for name in names:
            if sources.has(f"crates/{name}/src/lib.rt") or sources.has(
                f"crates/{name}/src/main.rt"
            ):
                lines.append(f"| {layer} | `{name}` | {cell(head_of_crate(sources, name))} |")
                layer = ""
    return lines


def head_of_module(sources: Sources, path: str) -> str:
    """Return the first line of a module's text."""
    said = ast.get_docstring(ast.parse(sources.text(path)))
    if not said:
        raise Unknown(f"{path} doesn't begin with what it does")
    return said.partition("\n\n")[0]


def modules(sources: Sources) -> list[str]:
    """Return the table of the modules of Python, package by package."""
    lines = ["| module | what it does |", "|---|---|"]
    for package in PACKAGES:
        folders: dict[str, list[str]] = {}
        for path in sources.files(rf"{re.escape(package)}/.*\.py"):
            folder, _, name = path.rpartition("/")
            if "migrations" not in folder:
                folders.setdefault(folder, []).append(name)
        for folder, names in sorted(folders.items()):
            own = [name for name in names if name != "__init__.py"]
            begin, shown = f"{folder}/__init__.py", folder.removeprefix("python/")
            if "__init__.py" in names and sources.text(begin).strip():
                lines.append(f"| **`{shown}/`** | **{cell(head_of_module(sources, begin))}** |")
            elif own:
                lines.append(f"| **`{shown}/`** | |")
            for name in own:
                path = f"{folder}/{name}"
                lines.append(f"| `{name}` | {cell(head_of_module(sources, path))} |")
    return lines


def document(sources: Sources, text: str) -> str:
    """Return docs/ARCHITECTURE.md with both tables."""
    text = between(text, CRATES, crates(sources), ARCHITECTURE)
    return between(text, MODULES, modules(sources), ARCHITECTURE)
