"""The built program beside the package: the same refusals, runs, checks and statuses."""

from __future__ import annotations

import csv
import io
from pathlib import Path

import pytest
from conftest import Desk, example, text_of
from hypothesis import HealthCheck, given, settings
from hypothesis import strategies as st
from sessions import DAYS, NAMES, PLANT, PLANT_2, WRONG

from plantbal import Fault, Output, Session, check, find_program, run
from plantbal.faults import ProgramFault, ToolMissing
from plantbal.program import call
from plantbal.records import read_records
from plantbal.schema import Column, Row, schema

QUICK = settings(max_examples=40, deadline=None, suppress_health_check=list(HealthCheck))


def field_of(column: Column) -> st.SearchStrategy[str]:
    """Fields of a column: mostly such as it takes, at times another text."""
    if column.type == "name":
        good = st.sampled_from(NAMES[column.name])
    elif column.type == "number":
        low, high = column.low or 0, column.high or 0
        ends = [low, high, min(5, high), min(500, high), min(1000, high), min(1001, high)]
        good = st.integers(0, 19).flatmap(
            lambda n: st.sampled_from([str(low - 1), str(high + 1)])
            if n == 0
            else st.sampled_from([str(number) for number in ends])
        )
    elif column.type == "date":
        good = st.sampled_from(DAYS)
    elif column.type == "word":
        good = st.sampled_from([*column.words, *column.words, "metered", "global", "tank"])
    else:
        good = st.sampled_from(["why", "typed, twice", "~" * 80, "~" * 81, '"'])
    return st.integers(0, 39).flatmap(lambda n: st.sampled_from(WRONG) if n == 0 else good)


def fields_of(row: Row) -> st.SearchStrategy[list[str]]:
    """Records of a kind; at times one has a field too few or too many."""
    whole = st.tuples(*(field_of(column) for column in row.columns))
    pairs = st.lists(st.tuples(*map(field_of, row.tail)), max_size=3 if row.tail else 0)
    made = st.tuples(whole, pairs).map(
        lambda drawn: [row.kind, *drawn[0], *(field for pair in drawn[1] for field in pair)]
    )
    change = st.integers(0, 29)
    return st.tuples(made, change).map(
        lambda drawn: drawn[0][:-1]
        if drawn[1] == 0
        else [*drawn[0], *["", "x"][: max(0, drawn[1] - 27)]]
    )


def record() -> st.SearchStrategy[list[str]]:
    """Records of any kind, those that declare and book more often."""
    often = {"reading": 4, "transfer": 3, "dip": 4, "late": 2, "amend": 3, "strike": 3, "close": 1}
    often |= {"assay": 5, "component": 2, "window": 2}
    rows = [row for row in schema().session for _ in range(often.get(row.kind, 1))]
    other = st.sampled_from(
        [["unti", "U"], ["UNIT", "U"], [""], ["", "", ""], ["stream", "S"], ["late"]]
    )
    whole = st.sampled_from(rows).flatmap(fields_of)
    return st.integers(0, 29).flatmap(lambda n: other if n == 0 else whole)


def lines_of(records: list[list[str]]) -> str:
    out = io.StringIO()
    csv.writer(out, lineterminator="\n").writerows(records)
    return out.getvalue()


def refusals(session: Session) -> list[tuple[int, int, str]]:
    return [(r.place.record or 0, r.code, r.word) for r in session.refused]


def refused_by(program: Path, data: bytes) -> list[tuple[int, int, str]]:
    """The refused rows of a session as the program says them."""
    _, text = call(["run", "--sweeps", "0"], data, program=program)
    rows = csv.reader(io.StringIO(text.decode()))
    return [(int(row[1]), int(row[2]), row[3]) for row in rows if row[0] == "refused"]


def judged(data: bytes, room: Path) -> Session:
    path = room / "session.csv"
    path.write_bytes(data)
    return Session.read(path)


@QUICK
@given(
    st.sampled_from([PLANT, PLANT_2]),
    st.sets(st.sampled_from(PLANT_2), max_size=2),
    st.lists(record(), min_size=10, max_size=40),
)
def test_refusals(
    program: Path, tmp_path: Path, whole: list[str], missing: set[str], records: list[list[str]]
) -> None:
    """What is refused of a random session, with which code, is what the program refuses of it."""
    plant = [row for row in whole if row not in missing]
    data = ("".join(f"{row}\n" for row in plant) + lines_of(records)).encode()
    session = judged(data, tmp_path)
    assert refusals(session) == refused_by(program, data)
    # what is left is accepted as a whole
    assert refused_by(program, session.to_csv().encode()) == []


# Rows of which one more is too many, and the one more.
FULL = [
    ([f"unit,U{i}" for i in range(1000)], "unit,W"),
    ([f"unit,U{i}" for i in range(999)] + ["tank,T,1"], "tank,W,1"),
    (["unit,U", *(f"stream,S{i},env,U,plain,0" for i in range(2000))], "stream,W,U,env,plain,0"),
    (["unit,U", *(f"stream,S{i},env,U,plain,0" for i in range(2000))], "tank,W,1"),
    (
        ["version,2", "unit,U", *(f"stream,S{i},env,U,plain,0" for i in range(4000))],
        "stream,W,U,env,plain,0,2024-01-01,2024-01-01",
    ),
    (["version,2", *(f"boundary,B{i}" for i in range(100))], "boundary,W"),
    (["tank,T,1", *(f"strap,T,{i},0" for i in range(2000))], "strap,T,2000,0"),
    (
        [
            f"period,p{i},{1900 + i // 4}-0{1 + i % 4}-01,{1900 + i // 4}-0{1 + i % 4}-01"
            for i in range(1000)
        ],
        "period,w,2190-01-01,2190-01-01",
    ),
]


@pytest.mark.parametrize("rows, more", FULL, ids=[more for _, more in FULL])
def test_full(program: Path, tmp_path: Path, rows: list[str], more: str) -> None:
    data = "\n".join([*rows, more, "unit,V W"]).encode()
    wanted = [(len(rows) + 1, 13, "full"), (len(rows) + 2, 3, "name")]
    assert refusals(judged(data, tmp_path)) == refused_by(program, data) == wanted


TEXT = st.text(st.sampled_from('unit,UVW"\r\n ä\x00'), max_size=40)


@QUICK
@given(st.booleans(), st.lists(TEXT, max_size=6))
def test_records(program: Path, tmp_path: Path, mark: bool, parts: list[str]) -> None:
    """Records of any text are counted as the program counts them."""
    data = (b"\xef\xbb\xbf" if mark else b"") + "unit,".join(parts).encode()
    assert refusals(judged(data, tmp_path)) == refused_by(program, data)


@QUICK
@given(st.binary(max_size=60))
def test_any_bytes(program: Path, tmp_path: Path, data: bytes) -> None:
    assert refusals(judged(data, tmp_path)) == refused_by(program, data)
    assert [record.number for record in read_records(data)] == list(
        range(1, 1 + len(list(read_records(data))))
    )


def test_run(program: Path) -> None:
    path = example("refinery_day.csv")
    output = run(path, tests=False, program=program)
    assert output.to_csv() == text_of(example("refinery_day.out.csv"))
    assert output.ok and output.status == 0
    for session in (path.read_bytes(), str(path), Session.read(path)):
        again = run(session, tests=False, program=program)
        assert again.streams.equals(output.streams)


def test_run_with_words(program: Path) -> None:
    output = run(example("heat_exchanger_suspect.csv"), eliminate=3, program=program)
    assert output.to_csv() == text_of(example("heat_exchanger_suspect.out.csv"))
    assert not output.ok
    output = run(example("heat_exchanger.csv"), gap=1, sweeps=2, tests=False, program=program)
    assert set(output.blocks["state"]) == {"unconverged"} and set(output.blocks["sweeps"]) == {2}


def test_left_out(program: Path, tmp_path: Path) -> None:
    """Rows that a session left out aren't forgotten."""
    session = judged(example("badly_typed.csv").read_bytes(), tmp_path)
    output = run(session, program=program)
    assert output.status == 0 and not output.ok
    assert "17 rows of the session were refused" in output.why


def test_check(program: Path) -> None:
    assert check(example("refinery_day.out.csv"), program=program)["verdict"].tolist() == ["yes"]
    lines = example("heat_exchanger_suspect.jsonl")
    assert check(lines, program=program)["verdict"].tolist() == ["yes", "yes"]
    frame = check(example("handed_in.csv"), program=program)
    assert frame["verdict"].tolist() == ["no", "yes", "no", "unreadable"]
    assert frame["found"].tolist()[0] == 100999997
    assert frame["word"].tolist() == ["bounds", "", "least", "number"]
    with pytest.raises(Fault, match="there is no block to check"):
        check(b"", program=program)


def test_too_large(program: Path) -> None:
    with pytest.raises(ProgramFault, match="TooLarge") as caught:
        run(b"\n" * 67_108_865, program=program)
    assert (caught.value.status, caught.value.name) == (5, "TooLarge")
    assert "split it" in str(caught.value)


def test_usage(program: Path) -> None:
    with pytest.raises(ProgramFault, match="status 2") as caught:
        call(["run", "--gap", "0"], b"", program=program)
    assert caught.value.name == "Usage"


def test_timeout(program: Path) -> None:
    data = call(["make", "--streams", "2000"], b"", program=program)[1]
    with pytest.raises(ProgramFault, match="didn't finish within 0.01 s"):
        run(data, program=program, timeout=0.01)


def test_finding(program: Path, monkeypatch: pytest.MonkeyPatch, tmp_path: Path) -> None:
    monkeypatch.setenv("PLANTBAL", str(program))
    assert find_program() == program
    monkeypatch.setenv("PLANTBAL", str(tmp_path / "none"))
    with pytest.raises(ToolMissing, match="there is no program .*none: install plantbal"):
        find_program()
    monkeypatch.delenv("PLANTBAL")
    (tmp_path / "plantbal").symlink_to(program)
    monkeypatch.setenv("PATH", str(tmp_path))
    assert find_program() == program
    own = tmp_path / "bin" / "plantbal"
    own.parent.mkdir()
    own.write_bytes(b"")
    own.chmod(0o755)
    monkeypatch.setattr("plantbal.program.OWN", own)
    assert find_program() == own  # a wheel's own program goes before the path
    monkeypatch.setattr("plantbal.program.OWN", tmp_path / "none")
    monkeypatch.setenv("PATH", "")
    monkeypatch.setattr("plantbal.program.CHECKOUT", tmp_path / "none")
    with pytest.raises(ToolMissing, match="no program plantbal on the path"):
        find_program()


def test_check_says_which_block_is_the_last(say: Desk) -> None:
    said = say("check", example("heat_exchanger_suspect.out.csv"))
    assert said.out == (
        "yes: day2, round 0; a later block of this period follows\nyes: day2, round 1\n"
    )


# The desk's own commands, and the mistakes of each.


def test_desk_run(program: Path, say: Desk, tmp_path: Path) -> None:
    path = example("refinery_day.csv")
    found = say("run", "--no-tests", "--program", program, path)
    assert (found.status, found.out) == (0, text_of(example("refinery_day.out.csv")))
    assert found.err == "plantbal-desk run: may1: a report, converged\n"
    found = say(
        "run", "--program", program, "--out", tmp_path / "o.xlsx", example("badly_typed.csv")
    )
    assert (found.status, found.out) == (1, "")
    assert "plantbal-desk run: 17 rows of the session were refused" in found.err
    assert (tmp_path / "o.xlsx").exists()


def test_desk_report(say: Desk, tmp_path: Path) -> None:
    found = say("report", example("heat_exchanger_suspect.jsonl"))
    assert found.out == text_of(example("heat_exchanger_suspect.out.csv"))
    found = say("report", example("refinery_day.out.csv"), "--out", tmp_path / "o.sqlite")
    assert (found.status, found.out) == (0, "") and (tmp_path / "o.sqlite").exists()


def test_desk_solve(program: Path, say: Desk) -> None:
    found = say("solve", "--program", program, example("heat_exchanger.csv"))
    assert found.status == 0
    assert found.out.startswith("report,day1,0,5,6,10,5000\n")


MISTAKES = [
    (["run", "none.csv"], "", 3, "none.csv: No such file"),
    (["report", "none.csv"], "", 3, "none.csv: No such file"),
    (["report", "--out", "o.pdf"], "", 2, "o.pdf ends with '.pdf': use .csv, .sqlite or .xlsx"),
    (["report"], "a;b\n", 1, "save it with commas"),
    (["check"], "", 1, "it is empty: run a session that asks for a report"),
    (["check"], "unit,U\n", 1, ""),
    (["run", "--gap", "x"], "", 2, "'x' isn't a whole number from 1 to 1,000,000"),
    (["reprot"], "", 2, "invalid choice: 'reprot'"),
    (["run", "--program", "/none"], "", 3, "there is no program /none"),
]


@pytest.mark.parametrize(
    "words, text, status, said", MISTAKES, ids=[" ".join(m[0]) for m in MISTAKES]
)
def test_desk_mistakes(
    program: Path, say: Desk, words: list[str], text: str, status: int, said: str
) -> None:
    found = say(*words, text=text)
    assert found.status == status
    assert said in found.err
    assert "Traceback" not in found.err


def test_output_of_a_session_is_no_report(program: Path) -> None:
    output: Output = run(b"unit,U\n", program=program)
    assert not output.ok and output.why == ["there is no report"]
