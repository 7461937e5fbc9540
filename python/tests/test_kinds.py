"""The words as types are those of the rows; that mypy finds a misspelt one is in .ci/gate/misspelt.py."""

from __future__ import annotations

import json
from typing import Any, get_args

import pytest
from conftest import TOP

import plantbal
from plantbal import kinds
from plantbal.lint.findings import SEVERITIES

SCHEMA = json.loads((TOP / "python" / "plantbal" / "schema.json").read_text(encoding="utf-8"))


def words_of(side: str, kind: str, column: str) -> set[str]:
    """The words that a column of a kind of rows may have."""
    return {
        word
        for row in SCHEMA[side]
        if row["kind"] == kind
        for each in row["columns"]
        if each["name"] == column
        for word in each.get("words", ())
    }


ALIKE: list[tuple[Any, set[str]]] = [
    (kinds.StreamKind, {"metered", "batch", "plain"}),
    (kinds.TestKind, {"global", "nodal", "measure"}),
    (kinds.StreamClass, words_of("output", "class", "class")),
    (kinds.State, words_of("output", "solved", "state")),
    (kinds.Verdict, words_of("output", "global", "verdict")),
    (kinds.Severity, set(SEVERITIES)),
]


@pytest.mark.parametrize("kind, words", ALIKE, ids=[" ".join(sorted(words)) for _, words in ALIKE])
def test_they_are_the_words_of_rows(kind: Any, words: set[str]) -> None:
    assert set(get_args(kind)) == words and words


def test_each_kind_is_taken() -> None:
    session = plantbal.Session()
    session.unit("U")
    for kind in get_args(kinds.StreamKind):
        session.stream(kind.upper(), "env", "U", kind, variance=None if kind == "plain" else 1)
    for test in get_args(kinds.TestKind):
        session.critical(test, dof=1 if test == "global" else None, value="3.841")
    assert len(session.streams) == 3


def test_a_report_has_them() -> None:
    output = plantbal.read_report(TOP / "examples" / "heat_exchanger_suspect.out.csv")
    block = output.reports[0]
    assert (block.state, block.tested) == ("converged", "reject")
    assert set(block.classes.values()) <= set(get_args(kinds.StreamClass))
    day = plantbal.read_report(TOP / "examples" / "refinery_day.out.csv").reports[-1]
    assert (day.classes["RESIDUE"], day.tested) == ("unobservable", None)
