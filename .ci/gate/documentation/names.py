"""Names of Python that two modules of python/plantbal and python/plantbal_office define: one name is one thing."""

from __future__ import annotations

import ast
from functools import cache

from .sources import Sources

MODULES = r"python/plantbal(?:_office)?/.*\.py"
# Django names the class of each migration so.
MIGRATIONS = "/migrations/"
# What each subcommand's module has, and each program's: the protocol of `desk.Handler`.
PROTOCOL = {"add_arguments", "main", "run"}


@cache
def defined(sources: Sources) -> dict[str, list[tuple[str, bool]]]:
    """Return each name of a class or function at the top of a module, the modules, and whether it is a class there."""
    found: dict[str, list[tuple[str, bool]]] = {}
    for path in sources.files(MODULES):
        if MIGRATIONS in path:
            continue
        for node in ast.parse(sources.text(path)).body:
            if isinstance(node, (ast.ClassDef, ast.FunctionDef, ast.AsyncFunctionDef)):
                is_class = isinstance(node, ast.ClassDef)
                found.setdefault(node.name, []).append((path.removeprefix("python/"), is_class))
    return found


def _twice(sources: Sources, classes: bool) -> list[str]:
    found = []
    for name, places in sorted(defined(sources).items()):
        paths = sorted({path for path, is_class in places if is_class == classes})
        if len(paths) > 1:
            found.append(f"{name}: {', '.join(paths)}")
    return found


def classes_twice(sources: Sources) -> list[str]:
    """Return the names that classes of two modules have."""
    return _twice(sources, True)


def functions_twice(sources: Sources) -> list[str]:
    """Return the names that functions of two modules have; those with an underscore are a module's own."""
    found = _twice(sources, False)
    return [one for one in found if not one.startswith("_") and one.split(":")[0] not in PROTOCOL]
