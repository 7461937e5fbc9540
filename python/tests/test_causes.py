"""Causes of faults: each sentence is made of its cause and its values, and faults are grouped by them."""

from __future__ import annotations

import ast
import json
import pickle
from collections.abc import Iterator
from pathlib import Path
from string import Formatter

from conftest import TOP

from plantbal import convert
from plantbal.balance.causes import BalanceCause
from plantbal.causes import CausedFault, Causes
from plantbal.faults import Place
from plantbal.study.causes import OfferCause
from plantbal.volumes.causes import VolumeCause
from plantbal.workbook.causes import SheetCause

PACKAGE = TOP / "python" / "plantbal"
ENUMS: dict[str, type[Causes]] = {
    each.__name__: each for each in (BalanceCause, SheetCause, OfferCause, VolumeCause)
}
OTHERS = ("model", "explain", "book", "lint", "report", "audit", "session", "commands", "forms")


def uses() -> Iterator[tuple[str, str, set[str] | None]]:
    """The causes that the sources name: enum, member, and the values of a call; None without one."""
    for path in sorted(PACKAGE.rglob("*.py")):
        if path.name == "causes.py" or path.relative_to(PACKAGE).parts[0] in OTHERS:
            continue
        tree = ast.parse(path.read_text(encoding="utf-8"))
        calls = {id(node.func): node for node in ast.walk(tree) if isinstance(node, ast.Call)}
        for node in ast.walk(tree):
            if isinstance(node, ast.Attribute) and isinstance(node.value, ast.Name):
                if node.value.id in ENUMS:
                    call = calls.get(id(node))
                    given = {str(each.arg) for each in call.keywords} if call else None
                    yield node.value.id, node.attr, given


def test_each_sentence_has_its_values() -> None:
    """Every call gives just the values that the sentence names, and every cause is used."""
    seen = set()
    for enum, name, given in uses():
        cause = ENUMS[enum][name]
        wanted = {str(field) for _, field, _, _ in Formatter().parse(cause.value) if field}
        assert given is None or given == wanted, (enum, name, given, wanted)
        seen.add(cause)
    unused = {cause for enum in ENUMS.values() for cause in enum} - seen
    assert not unused, unused


def sheets(streams: list[list[str]], readings: list[list[str]] | None = None) -> dict[str, str]:
    heads = [["tag", "stream", "from", "to", "kind", "error"]]
    found = {"streams": heads + streams, "readings": readings or []}
    return {name: "\n".join(map(",".join, rows)) + "\n" for name, rows in found.items() if rows}


def said(room: Path, texts: dict[str, str]) -> list[str]:
    room.mkdir()
    for name, text in texts.items():
        (room / f"{name}.csv").write_text(text, encoding="utf-8")
    return [line.partition("csv: ")[2] for line in convert(room).said()]


def test_faults_of_a_cause_are_a_line(tmp_path: Path) -> None:
    """With their count and the first three places, however different the sentences are."""
    streams = [[f"F{at}", f"S{at}", "env", "A", "metered", ""] for at in range(145)]
    lines = said(tmp_path / "a", sheets(streams))
    first = "line 2, column 6 (error): the meter F0 has no error"
    assert lines[0].startswith(first), lines
    more = "(145 like this; the next: "
    assert more in lines[0] and lines[0].count("column 6 (error)") == 3, lines[0]
    assert not any("has no error" in line for line in lines[1:])


def test_faults_of_two_causes_are_two_lines(tmp_path: Path) -> None:
    """Though a pattern on their sentences would take them for one: the quoted texts differ alone."""
    readings = [["day", "F1"], *([f"2024-04-0{at}", text] for at, text in enumerate("abcd", 1))]
    readings += [[f"nonsense {at}", "1"] for at in range(4)]
    plant = [
        ["F1", "IN", "env", "A", "metered", "1 %"],
        ["F2", "OUT", "A", "env", "metered", "1 %"],
    ]
    lines = said(tmp_path / "b", sheets(plant, readings))
    figures = [line for line in lines if "isn't a number" in line]
    days = [line for line in lines if "isn't a day" in line]
    assert len(figures) == len(days) == 1, lines
    assert "(4 like this" in figures[0] and "(4 like this" in days[0]


def test_a_fault_is_sent_and_written() -> None:
    """To another process with its cause, and as JSON with the cause's word."""
    fault = CausedFault(SheetCause.NO_TANK(name="T9"), place=Place(file="x"), text="T9")
    again = pickle.loads(pickle.dumps(fault))
    assert again.case == fault.case and str(again) == "x: there is no tank 'T9'"
    assert json.loads(json.dumps(fault.as_dict()))["cause"] == "no-tank"


# What may be asked of a sentence: to show it, to put it into another one, to write it.
READS = (
    "startswith",
    "endswith",
    "find",
    "index",
    "split",
    "partition",
    "count",
    "search",
    "match",
)


def test_no_code_reads_a_sentence() -> None:
    """Nothing in the package compares what a fault says, or looks for words in it."""
    for path in sorted(PACKAGE.rglob("*.py")):
        for node in ast.walk(ast.parse(path.read_text(encoding="utf-8"))):
            asked: list[ast.expr] = []
            if isinstance(node, ast.Compare):
                asked = [node.left, *node.comparators]
            elif isinstance(node, ast.Call) and isinstance(node.func, ast.Attribute):
                if node.func.attr in READS:
                    asked = [node.func.value, *node.args]
            for each in asked:
                of_fault = isinstance(each, ast.Attribute) and each.attr in ("what", "remedy")
                owner = each.value.id if of_fault and isinstance(each.value, ast.Name) else ""  # type: ignore[attr-defined]
                assert owner not in ("fault", "error", "refusal", "refused"), (path, node.lineno)
