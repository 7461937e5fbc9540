"""The list of the sentences that the Python packages print, docs/MESSAGES.md, each with a test that has it."""

from __future__ import annotations

import ast
import bisect
import re
from collections.abc import Iterator
from dataclasses import dataclass
from functools import cache

from .guide import between
from .sources import Sources

MESSAGES = "docs/MESSAGES.md"
LIST = "<!-- list: made by .ci/documents write -->"
# Pages whose commands the gate types again are tests too.
TYPED = r"docs/(?:GUIDE|AUDIT|MONTH_END|PYTHON)\.md"
# What has words and isn't said to anybody: SQL, tags of HTML, patterns, rows.
OTHER = re.compile(
    r"\s*(?:[A-Z]+ (?:INTO|TABLE|FROM|query)|SELECT|CREATE|PRAGMA|INSERT|<|\()|.*(?:\(\?|\\[dws]|;\n|</)",
    re.S,
)
# Calls whose texts nobody reads.
UNREAD = {"compile", "execute", "executemany", "split"}
WORDS = re.compile(r"(?:[A-Za-z'’]+[,;:]? ){2}[A-Za-z'’]")
PLACE = "…"
LONGEST = 300


@dataclass(frozen=True)
class Form:
    """A form of sentences: its text with dots for what differs, and the module that says it."""

    text: str
    module: str

    @property
    def package(self) -> str:
        """The package of the module, such as `plantbal/book`."""
        parts = self.module.split("/")
        return "/".join(parts[:2]) if len(parts) > 2 else parts[0]


def text_of(node: ast.AST) -> str | None:
    """Return the text of a string, with dots in place of what is filled in; None if it is none."""
    if isinstance(node, ast.Constant) and isinstance(node.value, str):
        return re.sub(r"\{[^{}]*\}|%\(\w+\)\w", PLACE, node.value)
    if not isinstance(node, ast.JoinedStr):
        return None
    parts = [
        each.value if isinstance(each, ast.Constant) and isinstance(each.value, str) else PLACE
        for each in node.values
    ]
    return "".join(parts)


class Reader:
    """Reads the sentences of a module."""

    def __init__(self, module: str, text: str) -> None:
        self.module = module
        self.found: list[Form] = []
        self._read(ast.parse(text))

    def _read(self, node: ast.AST) -> None:
        text = text_of(node)
        if text is not None:
            if len(text) <= LONGEST and WORDS.search(text) and not OTHER.match(text):
                self.found.append(Form(" ".join(text.split()), self.module))
            return
        if isinstance(node, ast.Expr) and isinstance(node.value, ast.Constant):
            return  # the text of a module, a class or a function
        if (
            isinstance(node, ast.Call)
            and isinstance(node.func, ast.Attribute)
            and node.func.attr in UNREAD
        ):
            return
        for inner in ast.iter_child_nodes(node):
            self._read(inner)


@cache
def forms(sources: Sources) -> list[Form]:
    """Return the forms of sentences, each once for a module."""
    found: dict[Form, None] = {}
    for path in sources.files(r"python/plantbal(?:_office)?/.*\.py"):
        if "/migrations/" not in path and not path.endswith("_declarations.py"):
            module = path.removeprefix("python/").removesuffix(".py")
            found.update(dict.fromkeys(Reader(module, sources.text(path)).found))
    return list(found)


class Tests:
    """The texts of the tests, in which sentences are looked up."""

    def __init__(self, sources: Sources) -> None:
        self.names: list[str] = []
        self.begins: list[int] = []
        texts, length = [], 0
        for path in sources.files(rf"python/tests/.*\.py|{TYPED}"):
            # strings that go on in the next line are one
            text = re.sub(r"[\"']\s*\n\s*f?[\"']", "", sources.text(path))
            self.names.append(path.removeprefix("python/tests/"))
            self.begins.append(length)
            texts.append(" ".join(text.split()))
            length += len(texts[-1]) + 1
        self.text = "\n".join(texts)

    def of(self, form: Form) -> str:
        """Return the first test that has the longest part of a sentence, or nothing."""
        part = max(form.text.replace('"', PLACE).split(PLACE), key=len).strip(" ,:;.")
        place = self.text.find(part) if len(part) > 7 else -1
        return "" if place < 0 else self.names[bisect.bisect_right(self.begins, place) - 1]


def cell(text: str) -> str:
    """Return a sentence as a cell of a table."""
    text = text.replace("|", "\\|").replace("<", "&lt;").replace("`", "")
    return re.sub(r"([*_\[\]])", r"\\\1", text)


def rows(sources: Sources) -> Iterator[str]:
    """Return the list, package by package."""
    tests = Tests(sources)
    shown = [
        (form, tests.of(form)) for form in sorted(forms(sources), key=lambda form: form.package)
    ]
    package = ""
    for form, test in shown:
        if form.package != package:
            package = form.package
            yield from ("", f"## {package}", "", "| sentence | said by | test |", "|---|---|---|")
        yield f"| {cell(form.text)} | {form.module.removeprefix(package + '/')} | {test} |"


def document(sources: Sources) -> str:
    """Return docs/MESSAGES.md with its list."""
    return between(sources.text(MESSAGES), LIST, list(rows(sources)), MESSAGES)
