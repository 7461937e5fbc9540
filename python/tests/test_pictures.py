"""Drawings: their structure, not their bytes, which follow from the tools' versions."""

from __future__ import annotations

import xml.dom.minidom

import pytest
from conftest import Desk, example, text_of

REFINERY = example("refinery_day.out.csv")


def test_dot(say: Desk) -> None:
    found = say("draw", "--dot", "--mark", "KEROSENE", REFINERY)
    assert found.out == text_of(example("refinery_day.dot"))
    found = say("draw", "--dot", "--mark", "PULP", example("flotation_bank_design.out.csv"))
    assert found.out == text_of(example("flotation_bank_design.dot"))
    found = say("draw", "--dot", example("steam_of_another_program.csv"))
    assert '"HEADER" -> "TURBINE"' in found.out and "74.913 t" in found.out


def test_boundaries_are_named(say: Desk) -> None:
    words = ("draw", "--dot", example("terminal.out.csv"), "--session", example("terminal.csv"))
    assert 'shape="plaintext", label="JETTY"' in say(*words).out
    marked = say(*words, "--mark", "SHIPS").out
    assert 'label="PIPELINE", style="filled", fillcolor="#fff0b0"' in marked
    assert "JETTY" not in say(*words[:-2]).out


def test_svg(say: Desk) -> None:
    found = say("draw", "--mark", "KEROSENE", REFINERY)
    xml.dom.minidom.parseString(found.out)
    for part in (
        'id="node&#45;TK_BITUMEN"',
        'id="stream&#45;KEROSENE"',
        "1,180.681 t",
        "may1: cut of KEROSENE",
    ):
        assert part in found.out


FAULTY = [
    (["--mark", "GAS", REFINERY], "", "there is no stream GAS in may1"),
    (["--period", "may2", REFINERY], "", "there is no report of this period"),
    ([], "", "it is empty: run a session that asks for a report"),
    ([], "report,p,0,1,0,10,5000\nnode,env\n", "line 2: a node row has 3 columns, this one has 2"),
]


@pytest.mark.parametrize("words, text, said", FAULTY, ids=[case[2] for case in FAULTY])
def test_wrong_drawing(say: Desk, words: list[object], text: str, said: str) -> None:
    found = say("draw", "--dot", *words, text=text)
    assert (found.status, found.out) == (1, "")
    assert said in found.err
