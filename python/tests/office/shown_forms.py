"""The forms of sentences that the desk in the browser can show, read from where they are written."""

from __future__ import annotations

import ast
import re
from collections.abc import Iterator, Mapping
from pathlib import Path

from gate.documentation.messages import OTHER, UNREAD, WORDS
from plantbal.accounts.account import Level
from plantbal.accounts.entries import AccountLine
from plantbal.accounts.month import Basis
from plantbal.accounts.posting import PROCESS
from plantbal.accounts.sheet import NO_ACCOUNT, NOBODY
from plantbal.accounts.stock import Opened, Why
from plantbal.book import causes
from plantbal.book.difference import NOW, POSTED
from plantbal.gates import Gate, about
from plantbal.lint import lacking
from plantbal.model import remedies, words
from plantbal.page import measured
from plantbal.page.drawing import KINDS
from plantbal.page.verdict import STOPS
from plantbal.report.chart import HEADINGS, LEGEND_LABELS, STATISTIC_LABEL
from plantbal.study.recovering import WAYS
from plantbal.volumes.standard import DensityInstrument
from plantbal.workbook.mapping.words import LANGUAGES
from plantbal.workbook.sheetkinds import SHEETS
from plantbal_office.causes import GridCause, GridRemedy
from plantbal_office.remedies import AT_DESK

HOME = Path(__file__).parents[2]
# What is made of forms, and in which places of its call they are.
MAKERS = {"Sentence": (0,), "counted": (1, 2), "Phrase": (0,), "phrase": (0,)}
# Modules of the package all of whose sentences a page of the desk can show.
WHOLE = (
    *(
        "accounts/account",
        "accounts/reading",
        "diagnosis/candidates",
        "diagnosis/rounds",
        "diagnosis/words",
        "gates/words",
    ),
    *(
        f"lint/{name}"
        for name in (
            *("accounts", "components", "gates", "lacking", "plant", "remedies", "silent"),
            *("studies", "values"),
        )
    ),
    *("model/meant", "model/remedies", "model/words", "page/verdict"),
    *("workbook/causes", "workbook/remedies", "volumes/causes"),
    *(
        "workbook/acrosshours",
        "workbook/assays",
        "workbook/bookings",
        "workbook/celldays",
        "workbook/cells",
        "workbook/cellforms",
    ),
    *("workbook/daily", "workbook/dips", "workbook/drying", "workbook/estimates"),
    *("workbook/fates", "workbook/figures", "workbook/hours", "workbook/kinds"),
    *("workbook/measuresheets", "workbook/measuring", "workbook/missing", "workbook/moisture"),
    *("workbook/packed", "workbook/periods", "workbook/plant", "workbook/readings"),
    *("workbook/settings", "workbook/shapeparts", "workbook/shapes", "workbook/tables"),
    *("workbook/tickets", "workbook/wide"),
    *(
        f"book/{name}"
        for name in (
            *("accounting", "adding", "answers", "beginning", "chain", "changes", "closing"),
            *("contents", "declaring", "difference", "editing", "estimating", "expected"),
            *("following", "handing", "journal", "ledger", "lock", "looking", "measures"),
            *(
                "meters",
                "naming",
                "owners",
                "pending",
                "posting",
                "proposed",
                "quieting",
                "reading",
            ),
            *("remedies", "reporting", "showing", "store", "verifying", "window", "writing"),
            "years",
        )
    ),
    *(
        f"book/approval/{name}"
        for name in (
            *("approving", "guard", "identity", "proposal", "record", "ruling", "state"),
            *("submitting", "writing"),
        )
    ),
    *("signing/signatures", "signing/stamps", "signing/tools"),
    *(f"volumes/{name}" for name in ("factor", "groups", "liquid", "standard", "tank")),
    *("page/books", "page/measured", "page/statement", "report/carried", "report/reasons"),
    *(
        f"workbook/mapping/{name}"
        for name in (
            *("acrosshours", "applying", "columns", "counting", "dating", "finding", "form"),
            *("kinds", "profile", "proposing", "unitsof", "why", "written"),
        )
    ),
)
# How files of signatures begin and end.
_OF_SIGNATURES = ("-----", "untrusted comment")
_TEMPLATE = re.compile(r'(?<![\w.])_\("((?:[^"\\]|\\.)*)"')
_DJANGO = re.compile(r'{% translate (?:"([^"]*)"|\'([^\']*)\')')
_FILLED = re.compile(r"\{[a-z]\w*[^{}]*\}|%\(\w+\)[sd]")


def fields(form: str) -> list[str]:
    """Return what a form is filled with, in an order of their own."""
    return sorted(_FILLED.findall(form))


def of_calls(text: str) -> Iterator[str]:
    """Give the forms that stand in a module where sentences are made of them, or in a name for them."""
    tree = ast.parse(text)
    yield from _of_scope(tree, {})
    for node in ast.walk(tree):
        if isinstance(node, ast.FunctionDef):
            yield from _of_scope(node, _named(tree))


def _of_scope(scope: ast.AST, outer: Mapping[str, list[str]]) -> Iterator[str]:
    """Give the forms of the sentences that a function or a module makes."""
    named = {**outer, **_named(scope)}
    for node in ast.walk(scope):
        if isinstance(node, ast.Call) and isinstance(node.func, ast.Name):
            for at in MAKERS.get(node.func.id, ()):
                for inner in ast.walk(node.args[at]) if at < len(node.args) else ():
                    yield from _texts(inner)
                    if isinstance(inner, ast.Name):
                        yield from named.get(inner.id, ())


def _named(scope: ast.AST) -> dict[str, list[str]]:
    """Return the texts that names are given in a function or a module."""
    found: dict[str, list[str]] = {}
    for node in ast.walk(scope):
        if isinstance(node, ast.Assign):
            names = [each.id for each in ast.walk(node.targets[0]) if isinstance(each, ast.Name)]
            texts = list(_chosen(node.value))
            for name in names:
                found.setdefault(name, []).extend(texts)
    return found


def _chosen(node: ast.AST) -> Iterator[str]:
    """Give the texts of several words, or with values, of which one is chosen."""
    if isinstance(node, ast.IfExp | ast.Tuple):
        for inner in (node.body, node.orelse) if isinstance(node, ast.IfExp) else node.elts:
            yield from _chosen(inner)
    yield from (text for text in _texts(node) if WORDS.search(text) or _FILLED.search(text))


def _texts(node: ast.AST) -> Iterator[str]:
    """Give the text of a constant."""
    if isinstance(node, ast.Constant) and isinstance(node.value, str):
        yield node.value


def of_module(node: ast.AST) -> Iterator[str]:
    """Give the texts of several words in a module, and those that are filled, if somebody reads them."""
    if isinstance(node, ast.Constant) and isinstance(node.value, str):
        is_said = WORDS.search(node.value) or _FILLED.search(node.value)
        if is_said and not OTHER.match(node.value) and not node.value.startswith(_OF_SIGNATURES):
            yield node.value
    is_text = isinstance(node, ast.Expr) and isinstance(node.value, ast.Constant)
    called = node.func if isinstance(node, ast.Call) else None
    is_unread = isinstance(called, ast.Attribute) and called.attr in UNREAD
    is_unread |= isinstance(called, ast.Name) and called.id == "ValueError"
    if is_text or is_unread or isinstance(node, ast.Assert):
        return
    if isinstance(node, ast.JoinedStr):
        return  # `formless` has it
    for inner in ast.iter_child_nodes(node):
        yield from of_module(inner)


# Texts that aren't said: what a command writes into a journal, what a report is called, words of a
# command, a fault of the package.
_KEPT = ("the digests begin here", "the report of {}", "--anyway", "{} can't be written exactly")


def formless(text: str) -> Iterator[str]:
    """Give the texts of several words that a module's functions fill in where they stand: no catalogue has them."""
    made = (node for node in ast.walk(ast.parse(text)) if isinstance(node, ast.FunctionDef))
    for node in (inner for each in made for inner in ast.walk(each)):
        if isinstance(node, ast.JoinedStr):
            parts = "".join(
                str(each.value) if isinstance(each, ast.Constant) else "{}" for each in node.values
            )
            is_rows = parts.endswith("\n") or parts.startswith(_KEPT) or " " not in parts
            if not is_rows and len(re.findall(r"[A-Za-z']{2,}", parts.replace("{}", " "))) > 1:
                yield parts


def of_templates(text: str) -> Iterator[str]:
    """Give the texts of a template."""
    for found in _TEMPLATE.findall(text):
        yield found.replace('\\"', '"')


def of_tables() -> Iterator[str]:
    """Give the forms that are chosen by a reason, a gate, a class or another enum."""
    for cause in (*GridCause, *GridRemedy):
        yield str(cause.value)
    for line in AccountLine:
        yield from (line.value, line.value.capitalize())
    yield from (
        each.value for table in (Basis, Opened, Why, Level, DensityInstrument) for each in table
    )
    yield from (*causes._WORDS.values(), PROCESS, NOBODY, NO_ACCOUNT, POSTED, NOW)
    yield from (*measured._KINDS.values(), *WAYS, "out")
    yield from (*HEADINGS, STATISTIC_LABEL, *LEGEND_LABELS)
    yield from ("unaccounted loss", "unaccounted gain")
    for name, look in KINDS.items():
        yield from (name, look.about)
    yield from map(about, Gate)
    for table in (remedies._DO, remedies._NO_END, remedies._NEVER_LATE, remedies._OTHER_STREAM):
        yield from table.values()
    for greater, _count, own in (each for some in remedies._SCALES.values() for each in some):
        yield from (greater, own)
    yield from (words._SAID | words._THINGS).values()
    yield from (words.FORM_OF_TEXT, words.FORM_OF_NOTHING, remedies.NAME_FORM)
    yield from (remedies.NAME_LETTERS, remedies.NAME_LONG, remedies.NAME_SUCH)
    yield from (*lacking._MEANS.values(), *STOPS.values())
    yield from (kind.about for kind in SHEETS.values())
    yield from LANGUAGES.values()
    yield from AT_DESK.values()


def shown_forms() -> set[str]:
    """Return all forms that a page of the desk can show."""
    found = set(of_tables())
    for path in (HOME / "plantbal").rglob("*.py"):
        text = path.read_text(encoding="utf-8")
        if "from plantbal.sentence import" in text:
            found.update(of_calls(text))
    for name in WHOLE:
        found.update(of_module(ast.parse((HOME / f"plantbal/{name}.py").read_text("utf-8"))))
    for path in (HOME / "plantbal/page/templates").glob("*.j2"):
        found.update(of_templates(path.read_text(encoding="utf-8")))
    for path in (HOME / "plantbal_office").rglob("*.html"):
        for one, other in _DJANGO.findall(path.read_text(encoding="utf-8")):
            found.add(one or other)
    found -= {str(cause.value) for cause in AT_DESK}
    return {form for form in found if re.search(r"[A-Za-z]{2}", _FILLED.sub("", form))}
