"""What is accepted but looks wrong in a session: rules, findings, and the command."""

from plantbal.lint.findings import RULES, SEVERITIES, Finding
from plantbal.lint.rules import find
from plantbal.lint.sessions import brief, lint_session, say_brief, summary

__all__ = [
    "RULES",
    "SEVERITIES",
    "Finding",
    "brief",
    "find",
    "lint_session",
    "say_brief",
    "summary",
]
