"""The checker in plain Python beside the program: the same rows of the same bytes."""

from __future__ import annotations

import ast
import subprocess
import sys
from collections.abc import Iterator
from pathlib import Path

import pytest
from conftest import TOP, example, words_of
from hypothesis import HealthCheck, given, settings
from hypothesis import strategies as st

from plantbal import checker
from plantbal.program import call

CASES = TOP / "crates" / "block_cases"
QUICK = settings(max_examples=40, deadline=None, suppress_health_check=list(HealthCheck))


def changed(records: list[str], line: str) -> list[str]:
    """The records of a report with the fault that a line of the cases asks for."""
    word, _, rest = line.partition(",")
    at, _, new = rest.partition(",")
    if word == "whole":
        return records
    if word == "cut":
        return records[: int(at)]
    place = int(at) - 1
    before, here, after = records[:place], records[place : place + 1], records[place + 1 :]
    if word == "field":
        number, _, text = new.partition(",")
        fields = here[0].split(",")
        fields[int(number) - 1] = text
        here = [",".join(fields)]
    elif word == "put":
        here = [new]
    elif word == "add":
        here = [new, *here]
    elif word == "drop":
        here = []
    elif word == "swap":
        here, after = [*after[:1], *here], after[1:]
    return [*before, *here, *after]


def cases() -> Iterator[tuple[str, bytes, str]]:
    """Each line of the cases, the report that it asks for, and what is to be said of it."""
    records: list[str] = []
    lines = (CASES / "stdin").read_text(encoding="latin-1").split("\n")
    wanted = (CASES / "stdout").read_text(encoding="latin-1").split("\n")
    for line, said in zip(lines, wanted, strict=True):
        word = line.split(",")[0]
        if word == "case":
            records = []
        elif word in ("whole", "field", "put", "add", "drop", "swap", "cut"):
            report = "".join(f"{record}\n" for record in changed(records, line))
            yield line, report.encode("latin-1"), said.removesuffix(f": {line}")
        elif line:
            records.append(line)


def rows_of(data: bytes) -> bytes:
    """What the checker says of a report, as the program writes it."""
    return b"".join(",".join(row).encode() + b"\n" for row in checker.findings(data))


def test_the_cases() -> None:
    count = 0
    for line, report, wanted in cases():
        rows = rows_of(report).decode()
        good = all(row.startswith("yes") for row in rows.splitlines())
        said = f"{'Done' if good else 'DoneRefused'} {rows}".replace("\n", " ")
        assert said == wanted, line
        count += 1
    assert count > 2000


def test_the_readable_cases_by_the_program(program: Path) -> None:
    reports = [report for _, report, said in cases() if "unreadable" not in said and "," in said]
    together = b"".join(reports)
    assert len(reports) > 500
    assert call(["check"], together, program=program)[1] == rows_of(together)


def inputs() -> list[Path]:
    """The inputs of checks that are shipped."""
    found = [*example("").glob("*.csv"), *example("conformance").glob("*.in")]
    return sorted(path for path in found if words_of(path) == ["check"])


def reports() -> list[Path]:
    """The outputs of runs that are shipped."""
    found = [*example("").glob("*.out.csv"), *example("conformance").glob("*.out")]
    return sorted(path for path in found if b"\nend," in path.read_bytes())


@pytest.mark.parametrize("path", inputs(), ids=lambda path: path.name)
def test_checks_that_are_shipped(path: Path) -> None:
    out = path.with_suffix(".out") if path.suffix == ".in" else path.with_suffix(".out.csv")
    assert rows_of(path.read_bytes()) == out.read_bytes()


@pytest.mark.parametrize("path", reports(), ids=lambda path: path.name)
def test_reports_that_are_shipped(path: Path, program: Path) -> None:
    data = path.read_bytes()
    status, said = call(["check"], data, program=program)
    assert said == rows_of(data)
    assert status == (0 if b"no," not in said and b"unreadable," not in said else 1)


@pytest.fixture(name="made", scope="module")
def fixture_made(program: Path) -> bytes:
    """The report of a made plant."""
    session = call(["make", "--streams", "12", "--number", "7"], b"", program=program)[1]
    return call(["run", "--tests"], session, program=program)[1]


DIGITS = b"0123456789"


@QUICK
@given(data=st.data())
def test_a_digit_changed_anywhere(program: Path, made: bytes, data: st.DataObject) -> None:
    places = [place for place, byte in enumerate(made) if byte in DIGITS]
    place = data.draw(st.sampled_from(places))
    digit = data.draw(st.sampled_from([byte for byte in DIGITS if byte != made[place]]))
    report = made[:place] + bytes([digit]) + made[place + 1 :]
    assert call(["check"], report, program=program)[1] == rows_of(report)


@QUICK
@given(data=st.data())
def test_bytes_changed_anywhere(program: Path, made: bytes, data: st.DataObject) -> None:
    report = bytearray(made)
    for _ in range(data.draw(st.integers(1, 3))):
        place = data.draw(st.integers(0, len(report) - 1))
        many = data.draw(st.integers(0, 2))
        report[place : place + many] = data.draw(
            st.sampled_from(
                [b"", b",", b"\n", b"\r", b'"', b"+", b"-", b" ", b"x", b"\xff", b"0", b"\0"]
            )
        )
    assert call(["check"], bytes(report), program=program)[1] == rows_of(bytes(report))


def alone(folder: Path, data: bytes) -> subprocess.CompletedProcess[bytes]:
    """The checker as a file by itself, in a folder of its own, with nothing installed."""
    script = folder / "checker.py"
    script.write_bytes(Path(checker.__file__).read_bytes())
    command = [sys.executable, "-I", "-S", str(script)]
    return subprocess.run(command, input=data, capture_output=True, cwd=folder, check=False)


@pytest.mark.parametrize(
    ("data", "status", "out", "err"),
    [
        (example("two_meters.out.csv").read_bytes(), 0, b"yes,d1,0\n", b""),
        (example("handed_in.csv").read_bytes(), 1, example("handed_in.out.csv").read_bytes(), b""),
        (b"", 1, b"", b"checker: there is no block to check: the file is empty\n"),
        (b"refused,1,1,kind\n", 1, b"", b"checker: there is no block to check: "),
        (b"x" * (checker.MOST_BYTES + 1), 1, b"", b"checker: the report has more than 67,108,864"),
    ],
    ids=["yes", "no", "empty", "no block", "too large"],
)
def test_it_runs_alone(tmp_path: Path, data: bytes, status: int, out: bytes, err: bytes) -> None:
    done = alone(tmp_path, data)
    assert (done.returncode, done.stdout) == (status, out)
    assert done.stderr.startswith(err) and bool(done.stderr) == bool(err)


def test_it_takes_no_words(tmp_path: Path) -> None:
    command = [sys.executable, "-I", checker.__file__, str(tmp_path / "report.csv")]
    done = subprocess.run(command, capture_output=True, check=False)
    assert (done.returncode, done.stdout) == (2, b"")
    assert b"python3 checker.py < report.csv" in done.stderr


def test_it_needs_python_alone() -> None:
    tree = ast.parse(Path(checker.__file__).read_text(encoding="utf-8"))
    used = set()
    for node in ast.walk(tree):
        if isinstance(node, ast.Import):
            used |= {name.name.partition(".")[0] for name in node.names}
        elif isinstance(node, ast.ImportFrom):
            used.add((node.module or "").partition(".")[0])
        assert not (isinstance(node, ast.Constant) and isinstance(node.value, float))
        assert not isinstance(node, ast.Div)
    assert used <= sys.stdlib_module_names
