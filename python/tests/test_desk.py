"""The command itself: its version, its help, and how long the package takes to load."""

from __future__ import annotations

import ast
import doctest
import importlib
import subprocess
import sys
from pathlib import Path

import pytest
from conftest import spent

import plantbal
from plantbal import desk

TOP = Path(__file__).resolve().parents[2]


def desk_says(*words: str) -> subprocess.CompletedProcess[str]:
    return subprocess.run(
        [sys.executable, "-m", "plantbal", *words],
        cwd=TOP / "python",
        capture_output=True,
        text=True,
        check=False,
    )


def test_version() -> None:
    wanted = (TOP / "VERSION").read_text(encoding="ascii").strip()
    assert plantbal.__version__ == wanted
    said = desk_says("--version")
    assert (said.returncode, said.stdout) == (0, f"plantbal-desk {wanted}\n")


def test_help() -> None:
    said = desk_says("--help")
    assert said.returncode == 0
    assert "examples:" in said.stdout


def test_no_word() -> None:
    assert desk_says().returncode == 2


@pytest.mark.parametrize("command", desk.COMMANDS, ids=[each.word for each in desk.COMMANDS])
def test_help_of(command: desk.Command) -> None:
    text = desk.parser_of(command, command.word).format_help()
    assert command.word in text


@pytest.mark.parametrize(
    "module", ["plantbal", "plantbal.runs", "plantbal.session.builder", "plantbal.report.trend"]
)
def test_examples_of_docstrings(module: str) -> None:
    found = doctest.testmod(importlib.import_module(module))
    assert found.attempted > 0 and found.failed == 0


def test_public_names() -> None:
    """Each public name is there, and has a docstring; so has each public name of its module."""
    for name in plantbal.__all__:
        value = getattr(plantbal, name)
        assert name == "__version__" or value.__doc__
    for path in sorted((TOP / "python" / "plantbal").rglob("*.py")):
        tree = ast.parse(path.read_text(encoding="utf-8"))
        assert ast.get_docstring(tree), path
        # what is within a function is its own, and these two are said of all effects by their class
        within = {
            inner
            for node in ast.walk(tree)
            if isinstance(node, ast.FunctionDef)
            for inner in ast.walk(node)
            if inner is not node
        }
        for node in ast.walk(tree):
            if isinstance(node, ast.FunctionDef | ast.ClassDef) and not node.name.startswith("_"):
                said = node in within or node.name in ("store", "refused", "of")
                assert said or ast.get_docstring(node), f"{path.name}: {node.name}"


def test_import_is_quick() -> None:
    """The package loads in less than 0.3 s, and no heavy library with it."""
    heavy = "pandas numpy scipy matplotlib networkx openpyxl jinja2".split()
    code = f"import sys, plantbal; print([name for name in {heavy} if name in sys.modules])"
    least = min(_seconds(code) for _ in range(3)) - min(_seconds("pass") for _ in range(3))
    said = subprocess.run(
        [sys.executable, "-c", code], cwd=TOP / "python", capture_output=True, text=True, check=True
    )
    assert said.stdout == "[]\n"
    assert least < 0.3


def _seconds(code: str) -> float:
    words = [sys.executable, "-c", code]
    return spent(lambda: subprocess.run(words, cwd=TOP / "python", check=True, stdout=-3))
