"""Tables by subcommands and by jq, from JSON lines; critical values; published digits."""

from __future__ import annotations

import subprocess
from pathlib import Path

import pytest
from conftest import TOP, Desk, example, text_of, words_of

from plantbal import read_report
from plantbal.amounts import tonnes_of
from plantbal.program import call


def json_of(program: Path, session: str, *words: str) -> str:
    data = example(session).read_bytes()
    return call(["run", *words, "--format", "json"], data, program=program)[1].decode()


def jq(script: str, text: str, *words: str) -> str:
    """What a script of jq writes."""
    command = ["jq", *words, "-f", str(example(script))]
    return subprocess.run(command, input=text, capture_output=True, text=True, check=True).stdout


SUSPECTS = "".join(
    f"day2\t{line}\n" for line in ("0\tF2\t10.27", "0\tF6\t6.039", "0\tF4\t4.001", "1\tF1\t4.501")
)


def test_json_lines(program: Path) -> None:
    found = json_of(program, "heat_exchanger_suspect.csv", "--eliminate", "3")
    assert found == text_of(example("heat_exchanger_suspect.jsonl"))


def test_suspects(say: Desk) -> None:
    path = example("heat_exchanger_suspect.jsonl")
    assert say("tables", "suspects", path).out == SUSPECTS
    assert jq("suspects.jq", text_of(path), "-sr") == SUSPECTS


def test_flows_and_imbalance(program: Path, say: Desk) -> None:
    text = json_of(program, "flotation_shift.csv")
    assert jq("flows.jq", text, "-nr") == text_of(example("flotation_shift.flows"))
    wanted = text_of(example("flotation_shift.imbalance"))
    assert jq("imbalance.jq", text, "-nr") == wanted
    assert say("tables", "imbalance", text=text).out == wanted


@pytest.mark.parametrize("what", ["flows", "classes", "count"])
def test_tables(program: Path, say: Desk, what: str) -> None:
    text = json_of(program, "flotation_shift.csv")
    wanted = text_of(example(f"flotation_shift.table.{what}"))
    assert say("tables", what, text=text).out == wanted


FAULTY = [
    ("", "it is empty: run a session that asks for a report"),
    ("unit,U\n", "standard input: line 1, column 1: plantbal writes no row of the kind 'unit'"),
    ('{"row":"end"}\n', "standard input: line 1: the keys of the row end are period, round, row"),
]


@pytest.mark.parametrize("text, said", FAULTY, ids=[case[1] for case in FAULTY])
def test_faulty(say: Desk, text: str, said: str) -> None:
    found = say("tables", "flows", text=text)
    assert (found.status, found.out) == (1, "")
    assert said in found.err


def test_critical(say: Desk) -> None:
    found = say("critical", "0.05", "1-2", "--nodal", 2, "--measure", 5)
    assert found.out == text_of(example("concentrator/critical.csv"))
    found = say("critical", "0.01", 4, 100, 1)
    wanted = ["1,6635", "4,13277", "100,135807"]  # as printed tables have them
    assert found.out.splitlines() == [f"critical,global,{row}" for row in wanted]


CRITICAL = [
    (["5", "1"], "'5' isn't a level"),
    (["0.05", "2001"], "degrees of freedom are 1 to 2,000"),
    (["0.05"], "give degrees of freedom, --nodal or --measure"),
    (["0.05", "--nodal", "x"], "'x' isn't a number of tests"),
]


@pytest.mark.parametrize("words, said", CRITICAL, ids=[case[1] for case in CRITICAL])
def test_wrong_critical(say: Desk, words: list[str], said: str) -> None:
    found = say("critical", *words)
    assert (found.status, found.out) == (2, "")
    assert said in found.err


@pytest.mark.parametrize(
    "path", sorted(TOP.glob("examples/*.published")), ids=lambda path: path.name
)
def test_published(path: Path) -> None:
    """Measured and reconciled flows agree with the printed digits of published problems."""
    streams = read_report(path.with_suffix(".out.csv")).streams.set_index(["period", "name"])
    for line in text_of(path).splitlines():
        if line.startswith("#"):
            continue
        period, name, *printed = line.split(",")
        for column, text in zip(("value", "flow"), printed):
            digits = len(text.partition(".")[2])
            assert f"{tonnes_of(int(streams.loc[(period, name), column])):.{digits}f}" == text


SESSIONS = [p for p in sorted(TOP.glob("examples/*.csv")) if p.with_suffix(".status").exists()]


@pytest.mark.parametrize("path", SESSIONS, ids=lambda path: path.name)
def test_status(program: Path, path: Path) -> None:
    """Each shipped example gives its status and its output by the package's own call."""
    status, text = call(words_of(path), path.read_bytes(), program=program)
    assert status == int(text_of(path.with_suffix(".status")))
    assert text.decode() == text_of(path.with_name(path.stem + ".out.csv"))
