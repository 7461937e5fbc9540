"""Refused rows of a session in sentences, each with its line, its field and what was meant."""

from plantbal.explain.command import is_report, same_refusals
from plantbal.explain.sessions import explain, explain_bytes
from plantbal.explain.text import Field, Text, marked_line, shown_bytes
from plantbal.explain.told import ExplainedRow, Explanation

__all__ = [
    "ExplainedRow",
    "Explanation",
    "Field",
    "Text",
    "explain",
    "explain_bytes",
    "is_report",
    "marked_line",
    "same_refusals",
    "shown_bytes",
]
