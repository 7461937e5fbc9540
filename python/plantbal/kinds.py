"""The words of rows as types: a checker of types finds one that is misspelt, such as ``metred``."""

from __future__ import annotations

from typing import Literal

# The kinds of a stream, the tests that have critical values, and the classes of a stream.
StreamKind = Literal["metered", "batch", "plain"]
TestKind = Literal["global", "nodal", "measure"]
StreamClass = Literal["observable", "unobservable", "redundant", "nonredundant"]
# How a report ended, and the verdict of its global test.
State = Literal["converged", "unconverged"]
Verdict = Literal["accept", "reject", "undecided", "nocritical", "notest"]
# How grave what lint finds is.
Severity = Literal["error", "warning", "note"]
