"""plantbal-verify, which `make -C coq` builds: rows and statuses, strangers' input, and audits."""

from __future__ import annotations

import os
import resource
import subprocess
from pathlib import Path

import pytest
from conftest import TOP, example

from plantbal import checker
from plantbal.audit.verify import find_verify, second_verdict

VERIFY = TOP / "coq" / "plantbal-verify"
pytestmark = pytest.mark.skipif(not VERIFY.exists(), reason="make -C coq hasn't built it")
TWO = example("two_meters.out.csv").read_bytes()


def small_stack() -> None:
    """Leave the program a stack of 256 KiB, so that one that grows with the input overflows."""
    resource.setrlimit(resource.RLIMIT_STACK, (256 * 1024, 256 * 1024))


def verified(data: bytes, *words: str) -> subprocess.CompletedProcess[bytes]:
    """Run it on a report, with little stack."""
    return subprocess.run(
        [VERIFY, *words], input=data, capture_output=True, check=False, preexec_fn=small_stack
    )


def rows_of(data: bytes) -> bytes:
    """What the checker in plain Python says."""
    return b"".join(",".join(row).encode() + b"\n" for row in checker.findings(data))


def changed(old: bytes, new: bytes) -> bytes:
    """The report of two meters with something else in it."""
    assert old in TWO
    return TWO.replace(old, new, 1)


HOSTILE = {
    "a million fields": b"report" + b",d1" * 1_000_000 + b"\n",
    "a million records": b"over,d1,A\n" * 1_000_000,
    "a million parts": changed(b"-A +B", b"-A +B" + b" +B" * 1_000_000),
    "a million nodes of a side": changed(b"cut,env,", b"cut,env" + b" env" * 1_000_000 + b","),
    "a number of a million digits": changed(b"102000000", b"1" * 1_000_000),
    "a name of a million bytes": changed(b"node,U,", b"node," + b"U" * 1_000_000 + b","),
    "a million tests": changed(b"end,d1", b"global,,notest\n" + b"measure,A,0,0,,x\n" * 200_000),
    "zero bytes": TWO.replace(b"A", b"\0"),
    "bytes above 127": TWO.replace(b"A", b"\xff"),
    "an open quote": b'"' + TWO,
    "quotes in a field": changed(b"node,env", b'node,"e""nv"'),
    "a quoted report": TWO.replace(b"env", b'"env"'),
    "a mark": b"\xef\xbb\xbf" + TWO,
    "two marks": b"\xef\xbb\xbf" * 2 + TWO,
    "ends of CR": TWO.replace(b"\n", b"\r"),
    "ends of CR LF and empty lines": TWO.replace(b"\n", b"\r\n\n\r"),
    "a comma at the end": TWO[:-1] + b",",
    "nothing": b"",
    "only ends": b"\n\r\n\r",
}


def test_rows_and_status_of_a_strangers_input() -> None:
    for name, data in HOSTILE.items():
        done = verified(data)
        wanted = rows_of(data)
        assert (done.stdout, done.stderr) == (wanted, b""), name
        assert done.returncode == int(b"no," in wanted or b"unreadable" in wanted), name


def test_examples() -> None:
    for name in ("handed_in.csv", "foreign_report.csv", "pipeline_suspect.out.csv"):
        data = example(name).read_bytes()
        assert verified(data).stdout == rows_of(data), name


def test_other_statuses() -> None:
    done = verified(TWO, "report.csv")
    assert (done.returncode, done.stdout) == (2, b"") and done.stderr.endswith(b"Usage\n")
    done = verified(b"x" * (checker.MOST_BYTES + 1))
    assert (done.returncode, done.stdout, done.stderr) == (5, b"", b"TooLarge\n")
    folder = os.open(TOP, os.O_RDONLY)
    with_folder = subprocess.run([VERIFY], stdin=folder, capture_output=True, check=False)
    os.close(folder)
    assert (with_folder.returncode, with_folder.stderr) == (3, b"ReadFault\n")
    with Path("/dev/full").open("wb") as full:
        pipe = subprocess.PIPE
        done = subprocess.run([VERIFY], input=TWO, stdout=full, stderr=pipe, check=False)
    assert (done.returncode, done.stderr) == (4, b"WriteFault\n")


def test_no_memory() -> None:
    parts = changed(b"-A +B", b"-A +B" + b" +B" * 2_000_000)
    for kilobytes in (100_000, 200_000):
        words = ["prlimit", f"--as={kilobytes * 1024}", str(VERIFY)]
        done = subprocess.run(words, input=parts, capture_output=True, check=False)
        assert (done.returncode, done.stdout, done.stderr) == (6, b"", b"NoMemory\n"), kilobytes


def test_where_it_is(monkeypatch: pytest.MonkeyPatch) -> None:
    monkeypatch.setenv("PLANTBAL_VERIFY", "")
    assert find_verify() is None
    assert second_verdict(TWO, b"yes,d1,0\n") == (True, "")
    monkeypatch.setenv("PLANTBAL_VERIFY", str(VERIFY))
    assert find_verify() == VERIFY.resolve()


@pytest.mark.parametrize(
    ("said", "same", "sentence"),
    [
        (b"yes,d1,0\n", True, "plantbal-verify, whose proof is in Coq, says the same"),
        (b"no,d1,0,6,dof,,2,1\n", False, "plantbal-verify says yes,d1,0, and the check no,d1,0"),
        (b"", False, "finding 1: plantbal-verify says yes,d1,0, and the check nothing"),
    ],
)
def test_what_an_audit_says(
    monkeypatch: pytest.MonkeyPatch, said: bytes, same: bool, sentence: str
) -> None:
    monkeypatch.setenv("PLANTBAL_VERIFY", str(VERIFY))
    good, told = second_verdict(TWO, said)
    assert good is same and sentence in told
