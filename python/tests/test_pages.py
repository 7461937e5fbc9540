"""Pages whose commands are typed again."""

from __future__ import annotations

import os
import re
import shutil
import subprocess
from pathlib import Path

import pytest
from conftest import TOP, text_of

from plantbal.fleet.rows import HEADS

# Each page, the folder in a copy of which it is typed, and the other folders that it speaks of.
PAGES = [
    ("docs/GUIDE.md", "examples", []),
    ("docs/AUDIT.md", "examples", []),
    ("docs/REFERENCE.md", "examples", []),
    (
        "docs/MONTH_END.md",
        "examples/month_end",
        [f"examples/{name}_workbook" for name in ("own", "refinery", "terminal", "tank_farm")],
    ),
]


@pytest.mark.parametrize("page, folder, others", PAGES, ids=[page for page, *_ in PAGES])
def test_typed_again(program: Path, page: str, folder: str, others: list[str]) -> None:
    done = subprocess.run(
        [TOP / ".ci/typed", TOP / page, TOP / folder, program, *(TOP / each for each in others)],
        capture_output=True,
        text=True,
        check=True,
    )
    assert done.stdout == text_of(TOP / page)


def test_readme(program: Path) -> None:
    """The rows that README shows begin rows of the output, and the check says what it says."""
    day = (TOP / "examples/refinery_day.csv").read_bytes()
    output = subprocess.run([program, "run"], input=day, capture_output=True, check=True).stdout
    readme = text_of(TOP / "README.md")
    block = readme.partition("answers:\n\n")[2].partition("\n\n")[0]
    shown = [line.removeprefix("    ").removesuffix("...") for line in block.splitlines()]
    rows = output.decode("ascii").splitlines()
    assert len(shown) == 3, shown
    for line in shown:
        assert any(row.startswith(line) for row in rows), line
    check = subprocess.run([program, "check"], input=output, capture_output=True, check=True)
    assert f"prints `{check.stdout.decode('ascii').strip()}`" in " ".join(readme.split())


def test_manual_page_of_the_program(program: Path, tmp_path: Path) -> None:
    """The examples of plantbal(1) can be typed, over a session of that name."""
    shutil.copy(TOP / "examples/refinery_day.csv", tmp_path / "day.csv")
    (tmp_path / "plantbal").symlink_to(program.resolve())
    env = dict(os.environ, PATH=os.pathsep.join([str(tmp_path), os.environ["PATH"]]))
    page = text_of(TOP / "docs/plantbal.1").replace("\\-", "-")
    block = re.findall(r"^\.EX\n(.*?)^\.EE$", page, re.M | re.S)
    commands = "".join(block).splitlines()
    assert len(commands) > 3, commands
    for command in commands:
        done = subprocess.run(["bash", "-c", command], cwd=tmp_path, env=env, capture_output=True)
        assert done.returncode == 0 and done.stdout and not done.stderr, command


def test_heads_of_a_night() -> None:
    assert f"    {','.join(HEADS)}\n" in text_of(TOP / "docs/REFERENCE.md")
