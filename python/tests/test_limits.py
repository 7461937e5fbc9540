"""Nothing is read without a limit: bytes, rows, cells, folders, special files, memory."""

from __future__ import annotations

import os
import resource
import subprocess
import sys
from collections.abc import Callable
from pathlib import Path

import pytest
from conftest import TOP, Desk, example, text_of

from plantbal import limits
from plantbal.explain import explain_bytes
from plantbal.faults import InputFault, read_beginning, read_bytes
from plantbal.page.command import page
from plantbal.report.parsing import csv_of, parse_rows
from plantbal.report.rows import Numbers, OutputRows
from plantbal.session import Session

PLANT = (
    "unit,U\nstream,F,env,U,metered,1\nstream,P,U,env,metered,1\nperiod,m,2024-05-01,2024-05-31\n"
)
READING = "reading,a,F,2024-05-01,5,4\n"
OTHER = "none of its first 1,000 rows is of a kind that a session has"
SIZE = 1 << 18


def fifo(room: Path) -> Path:
    path = room / "pipe"
    os.mkfifo(path)
    return path


@pytest.mark.parametrize(
    ("made", "said"),
    [
        (lambda room: Path("/dev/zero"), "it is a pipe or a device, not a file"),
        (fifo, "it is a pipe or a device, not a file: name a file, or `-` for standard input"),
        (lambda room: room, "Is a directory"),
        (lambda room: room / "none", "No such file or directory"),
        (lambda room: Path("a\0b"), "there is no file of this name"),
        (lambda room: Path("a" * 300), "File name too long"),
    ],
)
def test_what_is_no_file(
    say: Desk, tmp_path: Path, made: Callable[[Path], Path], said: str
) -> None:
    path = made(tmp_path)
    words = ("lint", "explain", "report", "tables flows", "page", "draw", "chart", "convert")
    for word in words:
        if word == "convert" and path == tmp_path:
            continue
        found = say(*word.split(), path)
        is_other = word == "convert" and "an xlsx or ods workbook" in found.err
        assert (found.status, found.out) == (1 if is_other else 3, ""), (word, found)
        assert said in found.err or is_other, found.err


def test_bytes_up_to_a_limit(tmp_path: Path) -> None:
    path = tmp_path / "file"
    path.write_bytes(b"12345")
    assert read_bytes(path, 5) == (str(path), b"12345")
    assert read_beginning(path, 3)[1] == b"123" and read_beginning("/proc/self/stat", 4)[1]
    with pytest.raises(InputFault, match="it has more than 4 bytes: split it"):
        read_bytes(path, 4)


def test_a_file_of_another_form(say: Desk, tmp_path: Path) -> None:
    path = tmp_path / "s.csv"
    for data, said in (
        ("x\n" * 2000, f"{OTHER}: a session's rows begin with unit"),
        ("unit;U\n" * 2000, f"{OTHER}: fields have semicolons between them: save it with commas"),
        ("2024-05-01 00:00,TAG,5\n" * 2000, OTHER),
        ('{"a":1}\n' * 2000, "these are JSON lines: a session is CSV"),
    ):
        path.write_text(data)
        for word in ("lint", "explain", "run", "advise"):
            found = say(word, path)
            assert found.status == 1 and said.split(":")[0] in found.err + found.out, found
    # one row of a session is enough to have the others explained
    path.write_text("unit,U\n" + "x\n" * 2000)
    told = explain_bytes("s", path.read_bytes())
    assert (len(told.refusals), told.refused, told.more) == (limits.REFUSED_KEPT, 2000, 1900)
    assert "1,900 more rows are refused" in str(told)
    assert "2000 rows are refused" in say("lint", path).out


def test_json_that_goes_deep(say: Desk) -> None:
    for text in ("[" * 300_000, '{"row":' * 100_000, '{"row":"end","round":' + "[" * 300_000):
        for word in ("report", "page", "draw", "tables flows"):
            found = say(*word.split(), text=text)
            assert (found.status, found.out) == (1, ""), word
            assert "standard input: line 1" in found.err, found.err


def test_refused_rows_of_an_output() -> None:
    words = ["kind", "fields", "name"]
    lines = [f"refused,{at},{at % 3 + 1},{words[at % 3]}" for at in range(1, 1001)]
    lines[500:500] = ["over,m,F", "refused,501,1,other", "refused,x,1,kind", "over,n,F"]
    text = "\n".join(lines) + "\n"
    rows = parse_rows("x", text)
    assert isinstance(rows, OutputRows) and len(rows) == len(lines)
    assert csv_of(rows) == text
    assert rows[503] == {"row": "over", "period": "n", "stream": "F"}
    assert [rows[at] for at in range(-5, 0)] == list(rows)[-5:] == rows[-5:]
    numbers = Numbers([row for row in rows if row.get("at") != "x"])
    assert 999 in numbers and 1001 not in numbers and len(numbers) == 1001


def test_a_page_counts_refused_rows() -> None:
    text = "".join(f"refused,{at},1,kind\n" for at in range(1, 251))
    out = text_of(example("two_meters.out.csv"))
    made = page(parse_rows("x", text + out), seconds=0)
    assert "Refused rows <small>250</small>" in made and "150 more: plantbal-desk explain" in made


def test_a_session_keeps_some_refusals() -> None:
    some, every = Session(strict=False, kept=2), Session(strict=False)
    for session in (some, every):
        for row in ("unit,U", "x", "unit", "unit,U", "stream,F,A,U,plain,0", "y", "unit,V"):
            session.row(*row.split(","))
    assert (len(some.refused), len(every.refused)) == (2, 5)
    assert list(some.refused.pairs()) == list(every.refused.pairs())
    assert some.refused.total == 5 and list(some) == list(every)


# ---- memory

CODE = """
import resource, sys
from plantbal import desk
word = next(each for each in desk.COMMANDS if each.word == sys.argv[1])
desk.run_words(desk.parser_of(word, "desk"), sys.argv[2:])
print("peak", resource.getrusage(resource.RUSAGE_SELF).ru_maxrss * 1024, file=sys.stderr)
"""


def peak(*words: object) -> int:
    """The most memory that a subcommand takes in a process of its own."""
    done = subprocess.run(
        [sys.executable, "-c", CODE, *map(str, words)],
        capture_output=True,
        env={**os.environ, "PYTHONPATH": str(TOP / "python")},
        check=True,
        preexec_fn=lambda: resource.setrlimit(resource.RLIMIT_AS, (2 << 30, 2 << 30)),
    )
    return int(done.stderr.decode().rpartition("peak")[2])


@pytest.mark.parametrize(
    ("words", "begin", "row"),
    [
        (("lint",), "", "x\n"),
        (("explain",), "", "x\n"),
        (("lint",), PLANT, "report,m\n"),
        (("explain",), PLANT, READING),
        (("page", "--seconds", "0", example("two_meters.out.csv"), "--session"), "unit,U\n", "x\n"),
        (("tables", "flows"), "", "end,m,0\n"),
        (("page", "--seconds", "0"), "over,m,F\n", "refused,9,1,kind\n"),
    ],
)
def test_memory(tmp_path: Path, words: tuple[object, ...], begin: str, row: str) -> None:
    """At most 60 bytes for each byte of a file, beside what the same command takes for nothing."""
    path, small = tmp_path / "large", tmp_path / "small"
    small.write_text(begin + row)
    path.write_text(begin + row * (SIZE // len(row)))
    assert peak(*words, path) - peak(*words, small) < 60 * SIZE
