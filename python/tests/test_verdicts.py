"""Sentences about what a check finds: each of its tests, and each reason why a row can't be read."""

from __future__ import annotations

from pathlib import Path

import pytest
from conftest import Desk, example
from hypothesis import HealthCheck, given, settings
from hypothesis import strategies as st

from plantbal.audit.verdicts import _PASSED_OVER, explain_check
from plantbal.checker import PASSED_OVER
from plantbal.explain import ExplainedRow
from plantbal.program import call
from plantbal.schema import schema

GOOD = """refused,9,4,number
report,p,0,3,5,10,5000
node,env,0
node,U,-72057594038
node,V,-72057594038
stream,A,env,U,102000000,1000000000001,redundant,101000000,100999997,101000002,100999998,101000001,cut,env,-A +C
stream,B,U,V,60000000,1000000000001,nonredundant,60000000,59999998,60000002,59999999,60000001,cycle,,+B -D
stream,C,V,env,100000000,1000000000001,redundant,101000000,100999998,101000003,100999999,101000002,cut,U V,+A -C
stream,D,U,V,,,unobservable,41000000,,,,,cycle,,+E +D
stream,E,V,U,,,unobservable,0,,,,,cycle,,+E +D
solved,1,converged,2,0,1,1999,2000
global,3841,accept
nodal,U,2000000,2000000000002,3841,accept
measure,A,1999,2000,3841,accept
measure,C,1999,2000,3841,accept
end,p,0
"""

# What is changed; the test that fails; the line and the column at fault; what is said.
NOS = [
    (
        "000001,redundant,101",
        "000001,observable,101",
        1,
        6,
        "class",
        "A has a value, so its class is redundant or",
    ),
    ("-A +C", "-A -C", 2, 6, "shape", "the streams with one end in the side are -A +C"),
    (
        "redundant,101000000,100999997",
        "redundant,101000001,100999997",
        3,
        3,
        "name",
        "it is -1 g here",
    ),
    ("V,-72057594038", "V,-72057594037", 4, 5, "price", "have one price"),
    ("-72057594038", f"-7{'0' * 35}", 5, 6, "", "no single field is at fault"),
    (
        "converged,2,0,1,",
        "converged,2,0,2,",
        6,
        11,
        "dof",
        "1 is the number of independent balances",
    ),
    ("converged,2,0,1,", "converged,3,0,1,", 7, 11, "g", "2 follows from"),
    ("converged,2,0,1,", "converged,2,3,1,", 7, 11, "h", "3 is written"),
    ("converged,2,0,1,", "unconverged,2,0,1,", 8, 11, "state", "so the state is converged"),
    ("100999997", "100999990", 9, 6, "lo", "100999997 follows from"),
    ("101000003", "101000004", 9, 8, "hi", "101000003 follows from"),
    ("0,1,1999,2000", "0,1,1998,2000", 10, 11, "low", "1999 follows from"),
    (
        "0,1,1999,2000",
        "0,1,1999,",
        10,
        11,
        "high",
        "2000 follows from the report's other numbers, and none is",
    ),
    ("U,2000000,", "U,2000001,", 11, 13, "net", "2000000 follows from the values"),
    ("2000000000002,", "2000000000003,", 11, 13, "variance", "2000000000002 follows from"),
    (
        "nodal,U,2000000",
        "nodal,V,2000000",
        11,
        13,
        "node",
        "the row of U belongs here, in the order of the nodes, and V is",
    ),
    ("nodal,U,2000000,2000000000002,3841,accept\n", "", 11, 12, "", "1 nodal row is expected"),
    ("global,3841,accept", "global,3841,reject", 12, 12, "verdict", "has the verdict accept"),
    ("0002,3841,accept", "0002,3841,reject", 12, 13, "verdict", "in the nodal row of U"),
    ("measure,C,1999,2000,3841,acc", "measure,C,1999,2000,1,acc", 12, 15, "verdict", "row of C"),
    ("100999998,101000001,cut", "100999990,101000001,cut", 13, 6, "least_lo", "100999998 follows"),
    ("101000002,cut", "101000009,cut", 13, 8, "least_hi", "101000002 follows from"),
]
# Other ways to fail the same tests, and what is said then.
OTHERS = [
    ("41000000,,,,,", "41000000,1,2,,,", "an unobservable stream has no bounds"),
    (
        "100999997,101000002,100999998,101000001",
        ",,,",
        "A isn't unobservable, so it has bounds",
    ),
    (
        "101000002,100999998,101000001",
        "101000002,,",
        "other streams of the block have least bounds",
    ),
    (
        "cut,env,-A +C",
        "cycle,,-A +C",
        "a cut shows that a stream is redundant, and this is a cycle",
    ),
    ("cut,env,-A +C", "cut,U,+A -B -D +E", "the cut has D and E too, which have no value"),
    ("cut,env,-A +C", "cut,V,+B -C +D -E", "A has no end or both ends in the side"),
    ("+B -D", "+E +D", "the cycle doesn't go through B"),
    ("+B -D", "+B -C", "the cycle goes through C too, which has a value"),
    ("+B -D", "+B +D", "the steps have to lead round from node to node"),
    ("solved,1,", "solved,5001,", "5001 sweeps are written as K, and at most 5000 are allowed"),
    ("solved,1,con", "solved,1,uncon", "so the state is converged"),
    ("global,3841,accept", "global,,accept", "without a critical value the verdict is nocritical"),
    ("2000,3841,acc", "2000,1999,acc", "against the critical value 1999 has the verdict undecided"),
    ("\nend,p", "\nnodal,V,1,1,1,reject\nend,p", "a measure row or the end row has to come here"),
    ("node,V,", "nod,V,", "node row 3 of 3 has to come here; did you mean node?"),
    ("B,U,V,60", "B,U,VV,60", "no node row of the block has the name VV; did you mean V?"),
]
UNREADABLE = [
    ("solved,1", "node,X,0\nsolved,1", 1, 11, "row", "the solved row has to come here"),
    (
        "node,V,",
        "unit,V,",
        1,
        5,
        "row",
        "node row 3 of 3 has to come here; 'unit' is a row of a session",
    ),
    ("-72057594038\nnode,V", "-72057594038,,\nnode,V", 2, 4, "", "put the empty ones at its end"),
    ("-A +C", "-A +C,x", 2, 6, "", "it has 16 fields, and 15 are expected"),
    ("global,3841,accept", "global,accept", 2, 12, "", "it has 2 fields, and 3 are expected"),
    ("node,V,", "node,V V,", 3, 5, "name", "1 to 32 letters"),
    ("node,V,-72057594038", "node,V,-7.2E+10", 4, 5, "price", "in digits alone"),
    (
        "102000000,1000000000001",
        "102000000,",
        4,
        6,
        "value",
        "VALUE and VARIANCE: both are there or neither is",
    ),
    ("101000003,100999999", "101000003,", 4, 8, "least_lo", "both are there or neither is"),
    ("solved,1,", "solved,one,", 4, 11, "k", "0 to 100,000"),
    ("B,U,V,60", "B,U,W,60", 5, 7, "to", "'W'"),
    ("cut,env,-A +C", "cut,nev,-A +C", 5, 6, "side", "'nev'"),
    ("-A +C", "-A +X", 5, 6, "parts", "no stream row of the block has the name X"),
    ("measure,C", "measure,X", 5, 15, "stream", "'X'"),
    ("nodal,U", "nodal,X", 5, 13, "node", "'X'"),
    ("end,p,0", "end,q,0", 5, 16, "period", "'q'"),
    ("end,p,0", "end,p,1", 5, 16, "round", "'1'"),
    ("node,V,", "node,U,", 6, 5, "name", "line 4 has the node U already"),
    ("stream,B,", "stream,A,", 6, 7, "name", "line 6 has the stream A already"),
    (
        "1,redundant,101000000,100999997",
        "1,Redundant,101000000,100999997",
        7,
        6,
        "class",
        "has to be",
    ),
    ("1,converged", "1,done", 7, 11, "state", "converged or unconverged"),
    (
        "global,3841,accept",
        "global,3841,ok",
        7,
        12,
        "verdict",
        "reject, accept, undecided, nocritical or notest",
    ),
    ("cut,U V", "cut,U  V", 8, 8, "side", "one space between"),
    ("-A +C", "A +C", 8, 6, "parts", "each with `+` or `-` in front"),
    ("cycle,,+B -D", "cycle,U,+B -D", 8, 7, "side", "a cycle has no side"),
    ("report,p,0,3,5", "report,p,0,0,5", 9, 2, "nodes", "1 to 1,001 nodes"),
    ("report,p,0,3,5", "report,p,0,3,4001", 9, 2, "streams", "4,000 streams"),
    ("B,U,V,60", "B,U,U,60", 9, 7, "from", "from a node to itself"),
    ("node,env", "node,evn", 10, 3, "name", "has to be env"),
    ("end,p,0\n", "", 11, 15, "", "the file ends within a block"),
]


def explained(program: Path, old: str, new: str) -> tuple[ExplainedRow, str]:
    """What is said of a report that is changed, and what the check says."""
    data = GOOD.replace(old, new).encode()
    assert data != GOOD.encode()
    told = explain_check("r.csv", data, None, program).rows
    assert len(told) == 1
    return told[0], call(["check"], data, program=program)[1].decode()


def test_names_every_row_that_is_passed_over() -> None:
    """The sentence about a row at a wrong place names all rows that may be between blocks."""
    names = _PASSED_OVER.replace(" or ", ", ").split(", ")
    assert sorted(names) == sorted(PASSED_OVER)


def test_good(program: Path) -> None:
    assert explain_check("r.csv", GOOD.encode(), None, program).rows == []


@pytest.mark.parametrize(
    "old, new, code, line, column, said", NOS, ids=[f"{c[2]}: {c[1][:40]}" for c in NOS]
)
def test_no(
    program: Path, old: str, new: str, code: int, line: int, column: str, said: str
) -> None:
    told, verdict = explained(program, old, new)
    assert verdict.split(",")[:4] == ["no", "p", "0", str(code)]
    assert (told.code, told.line, told.column) == (code, line, column), told.sentence
    assert told.sentence.startswith(f"p, round 0, fails test {code}, {told.word}")
    assert said in told.sentence


@pytest.mark.parametrize(
    "old, new, code, line, column, said",
    UNREADABLE,
    ids=[f"{c[2]}: {c[1][:40]}" for c in UNREADABLE],
)
def test_unreadable(
    program: Path, old: str, new: str, code: int, line: int, column: str, said: str
) -> None:
    told, verdict = explained(program, old, new)
    assert verdict.split(",")[0] == "unreadable" and verdict.split(",")[2] == str(code)
    assert (told.code, told.line, told.column) == (code, line, column), told.sentence
    assert said in told.sentence


@pytest.mark.parametrize("old, new, said", OTHERS, ids=[case[2][:40] for case in OTHERS])
def test_other_ways(program: Path, old: str, new: str, said: str) -> None:
    told, _ = explained(program, old, new)
    assert said in told.sentence


def test_an_older_row(program: Path) -> None:
    """A stream row without least bounds that names no node of its block."""
    data = example("conformance/check_13_columns.in").read_bytes()
    old = data.replace(b",env,U,", b",env,UU,", 1)
    assert old != data
    told = explain_check("r.csv", old, None, program).rows
    assert "TO is 'UU': no node row of the block has the name UU" in told[0].sentence


def test_what_to_do() -> None:
    """A report that fails has a sentence on what to do about it."""
    found = explain_check("r.csv", GOOD.encode(), said=b"no,p,0,6,dof,,2,1\n")
    assert "run its session again, or send it back" in found.whole[0].sentence


def test_all_are_tried() -> None:
    assert {case[2] for case in NOS} == set(schema().tests)
    assert {case[2] for case in UNREADABLE} == set(schema().unreadable)


@settings(max_examples=30, deadline=None, suppress_health_check=list(HealthCheck))
@given(st.integers(20, len(GOOD) - 2), st.sampled_from(["", ",", "\n", "x", "0", " ", '"', "é"]))
def test_any_change(program: Path, place: int, text: str) -> None:
    """A report that is changed at any place: what the check finds is said, or nothing is found."""
    data = (GOOD[:place] + text + GOOD[place + 1 :]).encode()
    verdicts = call(["check"], data, program=program)[1].decode().splitlines()
    found = explain_check("r.csv", data, None, program)
    assert len(found.rows) == sum(not line.startswith("yes") for line in verdicts)
    for told in found.rows:
        said = ("single", "isn't clear", "isn't found", "expected", "ends within")
        assert told.column or any(each in told.sentence for each in said), told.sentence


def test_command(program: Path, say: Desk, tmp_path: Path) -> None:
    report = example("handed_in.csv")
    checked = call(["check"], report.read_bytes(), program=program)[1]
    found = say("explain", report, "-", text=checked)
    assert found.status == 1
    assert f"{report}:4: d1, round 0, fails test 9, bounds" in found.out
    assert found.out == say("explain", "--program", program, report).out
    assert found.out.count("^\n") == 3
    good = say("explain", "--program", program, example("refinery_day.out.csv"))
    assert good.status == 0 and "nothing to explain" in good.err
    wrong = say("explain", report, example("refinery_day.csv"))
    assert wrong.status == 1 and "Traceback" not in wrong.err
    wrong = say("explain", report, example("refinery_day.out.csv"))
    assert wrong.status == 1 and "this isn't what a check says" in wrong.err
    lines = example("heat_exchanger_suspect.jsonl")
    assert "make CSV of them" in say("explain", lines, "-", text=checked).err
