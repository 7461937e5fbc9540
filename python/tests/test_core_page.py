"""docs/CORE.md, the core as mathematics: its definitions, its numbers, its tests, and its PDF."""

from __future__ import annotations

import re
import subprocess
from pathlib import Path

from gate.documentation import statement
from gate.documentation.guide import anchor_of
from gate.documentation.sources import Sources
from plantbal import checker

TOP = Path(__file__).resolve().parents[2]
TEXT = (TOP / "docs/CORE.md").read_text("utf-8")


def test_each_line_has_its_definition_where_it_links() -> None:
    core = [one for one in statement.page_of(Sources()).chapters if one.path == statement.STATEMENT]
    there = {
        (anchor_of(f"`{statement.short(spec.path)}`"), one.name)
        for chapter in core
        for spec, one in chapter.definitions
    }
    linked = [
        (anchor, name) for name, anchor in re.findall(r"\[`(\w+)`\]\(STATEMENT\.md(#[^)]*)\)", TEXT)
    ]
    assert len(linked) > 40
    assert [one for one in linked if one not in there] == []


def test_the_tests_are_those_of_the_checker() -> None:
    rows = re.findall(r"^\| (\d+) `(\w+)` \|", TEXT, re.M)
    assert rows == [(str(code), word) for code, word in enumerate(checker.TESTS, 1)]
    for code, word in rows:
        said = getattr(checker.CheckedBlock, f"test_{word}").__doc__
        assert said.startswith(f"{code}. ")


def test_the_numbers_are_those_of_the_two_meters() -> None:
    report = (TOP / "examples/two_meters.out.csv").read_text("utf-8")
    price = re.search(r"^node,U,-(\d+)$", report, re.M)
    assert price and f"{int(price[1]):,}".replace(",", "{,}") in TEXT
    assert "solved,1,converged,2,0,1,1999,2000" in report and "1999 and 2000" in TEXT


def test_the_pdf_has_all_of_it(tmp_path: Path) -> None:
    subprocess.run(
        [TOP / "packaging/core_pdf", tmp_path / "CORE.pdf"], check=True, capture_output=True
    )
    said = subprocess.run(
        ["pdftotext", "-layout", tmp_path / "CORE.pdf", "-"],
        check=True,
        capture_output=True,
        text=True,
    ).stdout
    for heading in re.findall(r"^## (.*)$", TEXT, re.M):
        assert heading in said
    assert "$" not in said and "\\frac" not in said
    assert all(re.search(rf"\b{code} {word}\b", said) for code, word in enumerate(checker.TESTS, 1))
    assert said.count("\f") <= 4
