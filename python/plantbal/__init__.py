"""Sessions, runs and reports of plantbal, data reconciliation for production accounting.

The names below are imported where they are first used, so that the package itself loads quickly and
pandas, scipy and the others load only for the calls that need them.

Examples
--------
>>> import plantbal
>>> session = plantbal.Session()
>>> session.unit("U")
>>> session.stream("A", "env", "U", deviation_tonnes="1")
"""

from __future__ import annotations

import importlib
from typing import TYPE_CHECKING, Any

if TYPE_CHECKING:
    from plantbal.book.library import Book
    from plantbal.faults import Fault, InputFault, ProgramFault, Refusal, ToolMissing
    from plantbal.lint import lint_session
    from plantbal.lint import Finding
    from plantbal.program import find_program
    from plantbal.report.output import Output, read_report
    from plantbal.runs import arun, check, run, run_text
    from plantbal.session import Session
    from plantbal.study.advice import advise
    from plantbal.study.solver import certify, solve
    from plantbal.study.uncertainty import uncertainty_of
    from plantbal.study.uncertified import Uncertified
    from plantbal.workbook.conversion import convert

__all__ = [
    "Book",
    "Fault",
    "Finding",
    "InputFault",
    "Output",
    "ProgramFault",
    "Refusal",
    "Session",
    "ToolMissing",
    "Uncertified",
    "__version__",
    "advise",
    "arun",
    "certify",
    "check",
    "convert",
    "find_program",
    "lint_session",
    "read_report",
    "run",
    "run_text",
    "solve",
    "uncertainty_of",
]

_HOMES = {
    "Book": "book.library",
    "Fault": "faults",
    "Finding": "lint",
    "InputFault": "faults",
    "Output": "report.output",
    "ProgramFault": "faults",
    "Refusal": "faults",
    "Session": "session",
    "ToolMissing": "faults",
    "Uncertified": "study.uncertified",
    "advise": "study.advice",
    "arun": "runs",
    "certify": "study.solver",
    "check": "runs",
    "convert": "workbook.conversion",
    "find_program": "program",
    "lint_session": "lint",
    "read_report": "report.output",
    "run": "runs",
    "run_text": "runs",
    "solve": "study.solver",
    "uncertainty_of": "study.uncertainty",
}


def _version() -> str:
    """Return the version: that of the checkout, or of the installed package."""
    from pathlib import Path

    top = Path(__file__).resolve().parent.parent.parent
    if (top / "pyproject.toml").is_file() and (top / "VERSION").is_file():
        return (top / "VERSION").read_text(encoding="ascii").strip()
    own = Path(__file__).resolve().parent / "VERSION"
    if own.is_file():
        return own.read_text(encoding="ascii").strip()
    from importlib.metadata import PackageNotFoundError, version

    try:
        return version("plantbal")
    except PackageNotFoundError:
        return "unknown"


def __getattr__(name: str) -> Any:
    if name == "__version__":
        value: Any = _version()
    elif name in _HOMES:
        value = getattr(importlib.import_module(f"plantbal.{_HOMES[name]}"), name)
    else:
        raise AttributeError(f"module 'plantbal' has no attribute {name!r}")
    globals()[name] = value
    return value


def __dir__() -> list[str]:
    return sorted(set(globals()) | set(__all__))
