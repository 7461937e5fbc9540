"""Bundles and their audit: what holds, and what is refused with its place."""

from __future__ import annotations

import subprocess
import zipfile
from collections.abc import Callable
from dataclasses import replace
from pathlib import Path

import pytest
from conftest import TOP, Desk, Said, example, words_of
from hypothesis import HealthCheck, given, settings
from hypothesis import strategies as st

from plantbal.audit.archive import bundle_files
from plantbal.audit.bundle import (
    DIGESTS,
    MANIFEST,
    NAMES,
    OUTPUT,
    SESSION,
    SUMMARY,
    Manifest,
    digests_text,
    packed,
    unpacked,
)
from plantbal.audit.changed import digest, digests_of_parts, where
from plantbal.audit.held import Pair, answered_rows, refused_differ
from plantbal.audit.runwords import words_read
from plantbal.build import Build, build_of
from plantbal.faults import Fault, InputFault
from plantbal.model.ledger import Ledger
from plantbal.model.studies import studies_of
from plantbal.program import call

QUICK = settings(max_examples=15, deadline=None, suppress_health_check=list(HealthCheck))
TIME = ("--time", "2024-05-02T06:00:00Z")
MONTH = example("concentrator/session.csv")
PERIOD = "2024-06"


def files_of(bundle: Path) -> dict[str, bytes]:
    """The files of a bundle."""
    with zipfile.ZipFile(bundle) as zipped:
        return {name: zipped.read(name) for name in zipped.namelist()}


@pytest.fixture(name="month", scope="module")
def fixture_month(program: Path, tmp_path_factory: pytest.TempPathFactory) -> Path:
    """A bundle of the concentrator's quarter, with two rows that are refused."""
    from plantbal import desk

    folder = tmp_path_factory.mktemp("month")
    session = folder / "concentrator.csv"
    session.write_bytes(b"unit,FUEL GAS\n" + MONTH.read_bytes() + b"report,july\n")
    words = ["archive", str(session), "--out", str(folder / "month.zip"), *TIME]
    assert desk.run_words(desk.desk_parser(), words) == 1
    return folder / "month.zip"


# Sessions with a balance of copper, a window, amendments and a history, and an elimination.
BUNDLES = {
    "month": [],
    "flotation_copper": [],
    "missed_dip": [],
    "month_end": [],
    "heat_exchanger_suspect": ["--eliminate", "5"],
}


@pytest.fixture(name="bundles", scope="module")
def fixture_bundles(month: Path) -> dict[str, Path]:
    """Bundles whose sessions and outputs have rows of all kinds."""
    from plantbal import desk

    found = {name: month.with_name(f"{name}.zip") for name in BUNDLES}
    for name, more in BUNDLES.items():
        if name != "month":
            words = ["archive", str(example(f"{name}.csv")), "--out", str(found[name])]
            assert desk.run_words(desk.desk_parser(), [*words, *more, *TIME]) in (0, 1)
    return found


def sentences(said: Said, kind: str) -> list[str]:
    """The sentences of a kind of an audit."""
    return [line for line in said.out.splitlines() if line.startswith(f"{kind}: ")]


# ---- what holds


def test_a_bundle_holds(say: Desk, month: Path) -> None:
    said = say("audit", month)
    assert said.status == 0 and not sentences(said, "wrong"), said.out
    assert "everything holds" in said.out
    assert "period 2024-06, block 1 of 1: flows balance, and both checks say yes" in said.out
    assert "this is the last report of the period" in said.out
    assert "line 1: unit FUEL GAS: NAME is 'FUEL GAS'" in said.out
    assert say("audit", month, "--strict").status == 1


def test_a_bundle_is_the_same_each_time(say: Desk, month: Path, tmp_path: Path) -> None:
    session = tmp_path / "concentrator.csv"
    session.write_bytes(files_of(month)[SESSION])
    again = tmp_path / "again.zip"
    for _ in range(2):
        assert say("archive", session, "--out", again, *TIME).status == 1
        assert again.read_bytes() == month.read_bytes()
    assert digests_text(files_of(month)) == files_of(month)[DIGESTS]


def test_digests_by_other_tools(month: Path, tmp_path: Path) -> None:
    """The digests hold by sha256sum, without plantbal."""
    with zipfile.ZipFile(month) as zipped:
        zipped.extractall(tmp_path)
    command = ["sha256sum", "--check", "--strict", DIGESTS]
    done = subprocess.run(command, cwd=tmp_path, capture_output=True, text=True, check=True)
    assert done.stdout.count(": OK") == len(NAMES) - 1


def test_a_bundle_is_not_written_over(say: Desk, tmp_path: Path) -> None:
    bundle = tmp_path / "b.zip"
    words = ("archive", example("two_meters.csv"), "--out", bundle)
    assert say(*words, *TIME).status == 0
    before = bundle.read_bytes()
    said = say(*words, "--time", "2024-05-03T06:00:00Z")
    assert said.status == 1 and "isn't overwritten" in said.err
    assert bundle.read_bytes() == before


@pytest.mark.parametrize(
    ("words", "status", "err"),
    [
        (
            ("--period", "may2"),
            1,
            "there is no report of the period may2: there are reports of may1",
        ),
        (("--time", "yesterday"), 2, "write it as 2024-05-02T06:00:00Z"),
    ],
)
def test_archives_that_cannot_be(
    say: Desk, tmp_path: Path, words: tuple[str, ...], status: int, err: str
) -> None:
    bundle = tmp_path / "b.zip"
    said = say("archive", example("refinery_day.csv"), "--out", bundle, *words)
    assert said.status == status and err in said.err and not bundle.exists()
    said = say("archive", example("crude_unit_design.csv"), "--out", bundle)
    assert said.status == 1 and "there is no report" in said.err and not bundle.exists()


def sessions() -> list[Path]:
    """All sessions that are shipped."""
    found = [*example("").glob("*.csv"), *example("conformance").glob("*.in"), MONTH]
    return sorted(
        path
        for path in found
        if not path.name.endswith(".out.csv") and words_of(path)[0] == "run"
        if "json" not in words_of(path)
    )


@pytest.mark.parametrize("path", sessions(), ids=lambda path: path.name)
def test_each_session_agrees_with_its_output(path: Path, program: Path) -> None:
    data = path.read_bytes()
    output = call(words_of(path), data, program=program)[1]
    ledger, answers = Ledger(path.name, data), answered_rows(output)
    assert not list(refused_differ(output, ledger))
    assert len(ledger.seen) == len(answers)
    for pair in map(Pair, studies_of(ledger), answers):
        assert not list(pair.differ())


def test_a_made_plant_agrees(program: Path) -> None:
    data = call(["make", "--streams", "60"], b"", program=program)[1]
    output = call(["run"], data, program=program)[1]
    ledger = Ledger("made", data)
    assert not list(Pair(studies_of(ledger)[0], answered_rows(output)[0]).differ())


def test_an_elimination_and_a_report_of_json(say: Desk, tmp_path: Path, program: Path) -> None:
    session = example("heat_exchanger_suspect.csv")
    said = say("audit", example("heat_exchanger_suspect.out.csv"), session)
    assert said.status == 0 and "without F2" in said.out
    said = say("audit", example("heat_exchanger_suspect.jsonl"), session)
    assert said.status == 0, said.out


def test_without_the_program(say: Desk, month: Path, monkeypatch: pytest.MonkeyPatch) -> None:
    monkeypatch.setenv("PLANTBAL", "/nowhere/plantbal")
    said = say("audit", month)
    assert said.status == 3 and "--no-program" in said.err
    said = say("audit", month, "--no-program")
    assert said.status == 0 and "the program wasn't run, so these aren't compared" in said.out
    assert "the checker in plain Python says yes" in said.out


def test_a_bundle_and_the_books(say: Desk, month: Path, tmp_path: Path) -> None:
    """Whoever makes a whole new bundle makes its digests too, and not the session of the books."""
    books, data = tmp_path / "books.csv", files_of(month)[SESSION]
    books.write_bytes(data)
    said = say("audit", month, books)
    assert said.status == 0 and "session.csv: it is that of the books, " in said.out
    books.write_bytes(data + b"close,2024-04\n")
    said = say("audit", month, books)
    assert said.status == 0 and "books.csv, with which it begins\n" in said.out
    books.write_bytes(data.replace(b"12408500000", b"12408500001"))
    said = say("audit", month, books)
    assert said.status == 1 and len(sentences(said, "wrong")) == 1
    assert "session.csv: line " in said.out and "the session of the books, " in said.out


# ---- what doesn't hold

# Which file is changed, what stands there, what is put in its place, and what is said.
CHANGES = [
    (SESSION, b"12408500000", b"12408500001", "found 1, archived 0; its SHA-256 is"),
    (SESSION, b"FILTERED", b"FILTERAD", "session.csv: lines 1 to 50: the first change is in these"),
    (SESSION, b"12408500000", b"12408500001", "the value of ORE is"),
    (SESSION, b"critical,nodal,5002", b"critical,nodal,5003", "critical value of the nodal test"),
    (SESSION, b"critical,global,2,5991", b"critical,global,2,5992", "critical value of the global"),
    (SESSION, b"2024-06-03,", b"2024-06-04,", "and the output doesn't say so"),
    (OUTPUT, b"report,2024-05,0", b"report,2024-05,1", "output.csv: line"),
    (OUTPUT, b"report,2024-06,0", b"report,2024-07,0", "the session asks for 2024-06 here"),
    (OUTPUT, b"global,5991,reject", b"global,9991,reject", "the critical value of the global test"),
    (OUTPUT, b"refused,1,3,name\n", b"", "line 1 of the session is refused (name)"),
    (OUTPUT, b"refused,1,3,name", b"refused,1,4,number", "by the rules the code is 3"),
    (OUTPUT, b"refused,1,3,name", b"refused,2,3,name", "by the rules it isn't"),
    (OUTPUT, b"node,env,0\n", b"node,env,1\n", "fails test 4"),
    (
        SUMMARY,
        b"2 rows refused",
        b"1 rows refused",
        "summary.txt: line 12, character 1: found '1 rows",
    ),
    (SUMMARY, b"T06:00:00Z", b"T07:00:00Z", "summary.txt: line 2"),
    (MANIFEST, b'"refused": 2', b'"refused": 1', "manifest.json: line 21"),
    (
        MANIFEST,
        b"T06:00:00Z",
        b"T07:00:00Z",
        "manifest.json: line 7, character 24: found 7, archived 6",
    ),
    (MANIFEST, b'"archive": 6', b'"archive": 9', "it says that it is of version 9"),
    (MANIFEST, b'"archive": 6', b'"archive": 1', "its item 'program' has the wrong form"),
    (MANIFEST, b'"archive": 6', b'"archive": 2', "its items aren't those of its version"),
    (MANIFEST, b"--gap 10", b"--gap 11", "writes 'report,2024-04,0,"),
    (MANIFEST, b"run --gap", b"rum --gap", "aren't those of a run"),
    (MANIFEST, b'"period": "2024-06"', b'"period": "2024-07"', "the session has no period 2024-07"),
    (MANIFEST, b'"plant"', b'"plont"', "its items aren't those of a manifest"),
    (
        MANIFEST,
        b'"commit":',
        b'"by": "me",\n    "commit":',
        "its item 'program' has the wrong form",
    ),
    (MANIFEST, b"{", b"[", "this isn't JSON"),
    (DIGESTS, b"0", b"1", "SHA256SUMS"),
    (DIGESTS, b"  session.csv", b"  sesshin.csv", "isn't a digest of a file of the bundle"),
    (DIGESTS, b"  session.csv\n", b"  session.csv", "SHA256SUMS: line"),
    (DIGESTS, b"  output.csv\n", b"  output.csv\n\n", "SHA256SUMS: line 3, character 1"),
]


def changed(month: Path, name: str, old: bytes, new: bytes) -> bytes:
    """A bundle in which a file is changed and nothing else."""
    files = files_of(month)
    assert old in files[name]
    return packed({**files, name: files[name].replace(old, new, 1)})


@pytest.mark.parametrize(("name", "old", "new", "said"), CHANGES)
def test_changes(
    say: Desk, month: Path, tmp_path: Path, name: str, old: bytes, new: bytes, said: str
) -> None:
    bundle = tmp_path / "changed.zip"
    bundle.write_bytes(changed(month, name, old, new))
    found = say("audit", bundle)
    assert found.status == 1
    assert any(said in line for line in sentences(found, "wrong")), found.out
    assert any(f"!{name}: " in line for line in sentences(found, "wrong")), found.out


def test_digests_made_anew(say: Desk, month: Path, tmp_path: Path) -> None:
    """Whoever changes a file and makes all digests anew is told by the other file."""
    files = files_of(month)
    files[OUTPUT] = files[OUTPUT].replace(b"global,5991,reject", b"global,9991,reject", 1)
    files[DIGESTS] = digests_text(files)
    bundle = tmp_path / "changed.zip"
    bundle.write_bytes(packed(files))
    found = say("audit", bundle, "--no-program")
    assert found.status == 1 and "manifest.json: line" in found.out
    assert "that of the session at 2 degrees of freedom is 5,991" in found.out


# ---- one digit, anywhere


def with_digit(text: bytes, place: int, digit: int) -> bytes:
    """A text with another digit at a place."""
    assert text[place] in DIGITS and digit in DIGITS and text[place] != digit
    return text[:place] + bytes([digit]) + text[place + 1 :]


def told(text: bytes, place: int, digit: int) -> str:
    """What is said of a place with another digit."""
    line = text.count(b"\n", 0, place) + 1
    character = place - text.rfind(b"\n", 0, place)
    there = f"line {line}, character {character}: "
    return f"{there}found {chr(digit)}, archived {chr(text[place])}"


def assert_refused_there(said: Said, name: str, text: bytes, place: int, digit: int) -> None:
    """Fails unless an audit refuses a digit of a file with its place."""
    wanted = {
        SUMMARY: told(text, place, digit).partition(": ")[0] + ": ",  # made again, and compared
        DIGESTS: told(text, place, digit).partition(",")[0] + ": ",
    }.get(name, told(text, place, digit))
    assert said.status == 1 and not said.err
    assert any(f"!{name}: {wanted}" in line for line in sentences(said, "wrong")), said.out


DIGITS = b"0123456789"


def kinds_of(text: bytes) -> list[int]:
    """The place of a digit of each kind of row: of its last row, and there of another column each."""
    found: dict[bytes, int] = {}
    begin = 0
    for line in text.splitlines(keepends=True):
        places = [begin + at for at, byte in enumerate(line) if byte in DIGITS]
        begin += len(line)
        if places:
            found[line.partition(b",")[0]] = places[len(found) * 7 % len(places)]
    return sorted(found.values())


@pytest.mark.parametrize("name", BUNDLES)
@pytest.mark.parametrize("file", [SESSION, OUTPUT])
def test_a_digit_of_each_kind_of_row(
    say: Desk, bundles: dict[str, Path], tmp_path: Path, file: str, name: str
) -> None:
    files, bundle = files_of(bundles[name]), tmp_path / "changed.zip"
    for place in kinds_of(files[file]):
        digit = DIGITS[(files[file][place] - DIGITS[0] + 1 + place % 9) % 10]
        text = with_digit(files[file], place, digit)
        bundle.write_bytes(packed({**files, file: text}))
        assert_refused_there(say("audit", bundle), file, files[file], place, digit)


@pytest.mark.parametrize("name", [SUMMARY, MANIFEST, DIGESTS])
def test_a_digit_of_each_line(
    say: Desk, bundles: dict[str, Path], tmp_path: Path, name: str
) -> None:
    """Without the program, too."""
    files, bundle = files_of(bundles["month_end"]), tmp_path / "changed.zip"
    begin = 0
    for line in files[name].splitlines(keepends=True):
        places = [begin + at for at, byte in enumerate(line) if byte in DIGITS]
        begin += len(line)
        for place in places[len(places) // 2 :][:1]:
            digit = DIGITS[(files[name][place] - DIGITS[0] + 1 + place % 9) % 10]
            text = with_digit(files[name], place, digit)
            bundle.write_bytes(packed({**files, name: text}))
            said = say("audit", bundle, "--no-program")
            assert_refused_there(said, name, files[name], place, digit)


def drawn(data: st.DataObject, text: bytes) -> tuple[int, int]:
    """The place of a digit, and another digit."""
    places = [place for place, byte in enumerate(text) if byte in DIGITS]
    place = data.draw(st.sampled_from(places))
    return place, data.draw(st.sampled_from([b for b in DIGITS if b != text[place]]))


@QUICK
@given(data=st.data())
def test_a_digit_anywhere(
    say: Desk, bundles: dict[str, Path], tmp_path: Path, data: st.DataObject
) -> None:
    files = files_of(bundles[data.draw(st.sampled_from(list(BUNDLES)))])
    name = data.draw(st.sampled_from(NAMES))
    place, digit = drawn(data, files[name])
    bundle = tmp_path / "changed.zip"
    bundle.write_bytes(packed({**files, name: with_digit(files[name], place, digit)}))
    assert_refused_there(say("audit", bundle), name, files[name], place, digit)


@settings(QUICK, max_examples=40)
@given(data=st.data())
def test_the_place_of_a_digit(bundles: dict[str, Path], data: st.DataObject) -> None:
    """By its own digest, or those of its parts, which a long file needs."""
    files = files_of(bundles[data.draw(st.sampled_from(list(BUNDLES)))])
    text = files[data.draw(st.sampled_from([SESSION, OUTPUT, MANIFEST]))]
    place, digit = drawn(data, text)
    parts = digests_of_parts(text)
    made = with_digit(text, place, digit)
    assert where(made, digest(text), parts) == told(text, place, digit)
    if len(text) < 4000:
        assert where(made, digest(text)) == told(text, place, digit)


def test_the_place_of_a_digit_in_a_long_text(monkeypatch: pytest.MonkeyPatch) -> None:
    """What a long manifest states is at its beginning, and is tried; the rest may not be."""
    monkeypatch.setattr("plantbal.audit.changed._MOST_BYTES", 1 << 20)
    text = b"12" * 1000
    for place, wanted in ((0, told(text, 0, 51)), (1500, "")):
        assert where(with_digit(text, place, 51), digest(text)) == wanted


def test_the_place_of_other_changes() -> None:
    """A line less, a line more and a file that is cut are told by fifty lines."""
    lines = [b"%d,a\n" % number for number in range(125)]
    text, goal = b"".join(lines), digests_of_parts(b"".join(lines))
    assert len(goal) == 3
    for made, first in (
        (lines[:60] + lines[61:], 51),
        (lines[:30] + [b"b\n"] + lines[30:], 1),
        (lines[:100], 101),
        (lines + [b"0\n"], 101),
        (lines + lines, 101),
    ):
        wanted = f"lines {first} to {first + 49}: the first change is in these lines"
        assert where(b"".join(made), digest(text), goal) == wanted
        assert where(b"".join(made), digest(text)) == ""


@QUICK
@given(data=st.data())
def test_a_byte_of_the_zip(say: Desk, month: Path, tmp_path: Path, data: st.DataObject) -> None:
    """A byte of the zip that is changed is refused, whether it is a file's or not."""
    zipped = month.read_bytes()
    place = data.draw(st.integers(0, len(zipped) - 1))
    byte = data.draw(st.integers(0, 255).filter(lambda byte: byte != zipped[place]))
    bundle = tmp_path / "changed.zip"
    bundle.write_bytes(zipped[:place] + bytes([byte]) + zipped[place + 1 :])
    said = say("audit", bundle)
    assert said.status == 1 and (sentences(said, "wrong") or "changed.zip" in said.err)


def test_each_byte_around_the_files(bundles: dict[str, Path], tmp_path: Path) -> None:
    """Bits of each byte of the zip's own, and of every fiftieth byte of the files in it."""
    zipped, bundle = bundles["month_end"].read_bytes(), tmp_path / "changed.zip"
    around = {place for place, byte in enumerate(zipped) if zipped[place : place + 2] == b"PK"}
    near = {place + more for place in around for more in range(60)} | {*range(0, len(zipped), 50)}
    for place in sorted(near & {*range(len(zipped))}):
        for bit in (place % 8, 7):
            made = zipped[:place] + bytes([zipped[place] ^ 1 << bit]) + zipped[place + 1 :]
            bundle.write_bytes(made)
            try:
                assert unpacked(bundle).wrong
            except InputFault as fault:
                assert str(bundle) in str(fault)


@QUICK
@given(data=st.data())
def test_a_digit_of_a_report(say: Desk, tmp_path: Path, program: Path, data: st.DataObject) -> None:
    """Of a report and its session without a bundle, a digit of the report is refused."""
    output = example("two_meters.out.csv").read_bytes()
    place, digit = drawn(data, output)
    report = tmp_path / "report.csv"
    report.write_bytes(with_digit(output, place, digit))
    said = say("audit", report, example("two_meters.csv"), "--words", "run")
    assert said.status == 1 and (sentences(said, "wrong") or said.err), said.out


@QUICK
@given(data=st.data())
def test_other_bytes_in_a_report(say: Desk, tmp_path: Path, data: st.DataObject) -> None:
    """Whatever stands in a report and its session, an audit ends with sentences."""
    texts = [example(f"month_end{ending}").read_bytes() for ending in (".out.csv", ".csv")]
    which = data.draw(st.sampled_from([0, 0, 0, 1]))
    text = bytearray(texts[which])
    for _ in range(data.draw(st.integers(1, 4))):
        place = data.draw(st.integers(0, len(text) - 1))
        new = data.draw(st.sampled_from([b"", b",", b"\n", b'"', b"\xff", b"-", b"0", b"\nnode\n"]))
        text[place : place + data.draw(st.integers(0, 3))] = new
    texts[which] = bytes(text)
    report, session = tmp_path / "report.csv", tmp_path / "session.csv"
    report.write_bytes(texts[0])
    session.write_bytes(texts[1])
    said = say("audit", report, session, "--no-program", "--words", "run")
    assert said.status in (0, 1) and (said.out or said.err)


def test_twice_the_same_file_among_the_digests(say: Desk, month: Path, tmp_path: Path) -> None:
    files = files_of(month)
    files[DIGESTS] = b"0" * 64 + b"  session.csv\n" + files[DIGESTS]
    bundle = tmp_path / "changed.zip"
    bundle.write_bytes(packed(files))
    said = say("audit", bundle, "--no-program")
    assert said.status == 1 and "SHA256SUMS: line 1, character " in said.out


def test_a_round_that_is_no_number(say: Desk, tmp_path: Path) -> None:
    report = tmp_path / "report.csv"
    text = example("two_meters.out.csv").read_bytes()
    report.write_bytes(text.replace(b"report,d1,0,", b"report,d1,x,"))
    said = say("audit", report, example("two_meters.csv"), "--no-program")
    assert said.status == 1 and "ROUND is 'x'" in said.out


Edit = Callable[[bytes], bytes]
REPORTS: list[tuple[str, Edit, str]] = [
    ("a critical value", lambda t: t.replace(b"global,9488,", b"global,90000000,"), "90,000,000"),
    ("a period", lambda t: t.replace(b",day2,", b",day3,"), "this is a report of day3"),
    ("a report less", lambda t: b"", "there is no block to check"),
    ("cut", lambda t: t[: t.rindex(b"end,")], "the file ends within a block"),
    ("a name", lambda t: t.replace(b"F1", b"G1"), "found stream G1 from env to SPLITTER where"),
    ("a node", lambda t: t.replace(b"MIXER", b"MIXED"), "found node MIXED where"),
    (
        "a variance",
        lambda t: t.replace(b"64200000,1000000000000", b"64200000,1000000000001"),
        "the variance of F4 is 1,000,000,000,001 g2, and the session (line",
    ),
    (
        "not taken",
        lambda t: t.replace(b"EXCHANGER,,,obs", b"EXCHANGER,1,1,obs"),
        "it was taken out",
    ),
]


@pytest.mark.parametrize(
    ("edit", "said"), [case[1:] for case in REPORTS], ids=[c[0] for c in REPORTS]
)
def test_reports_that_are_not_the_session_s(
    say: Desk, tmp_path: Path, edit: Edit, said: str
) -> None:
    output = example("heat_exchanger_suspect.out.csv").read_bytes()
    report = tmp_path / "report.csv"
    report.write_bytes(edit(output))
    assert report.read_bytes() != output
    found = say("audit", report, example("heat_exchanger_suspect.csv"))
    assert found.status == 1
    assert said in found.out, found.out


def test_what_is_no_bundle(say: Desk, month: Path, tmp_path: Path) -> None:
    said = say("audit", example("two_meters.out.csv"))
    assert said.status == 1 and "isn't a bundle: name its session too" in said.err
    cut = tmp_path / "cut.zip"
    cut.write_bytes(month.read_bytes()[:-300])
    said = say("audit", cut)
    assert said.status == 1 and "ask for it again" in said.err
    cut.write_bytes(month.read_bytes()[:-30])
    said = say("audit", cut)
    assert said.status == 1 and "the zip's bytes aren't those of the digest in its" in said.out
    other = tmp_path / "other.zip"
    with zipfile.ZipFile(other, "w") as zipped:
        zipped.writestr("a.txt", "a")
    said = say("audit", other)
    assert said.status == 1 and "this zip has a.txt: a bundle has session.csv" in said.err


@pytest.mark.parametrize(
    "words", ["run; rm -rf x", "check", "make", "run --format json", "run --gap x", "runs", ""]
)
def test_words_that_are_never_run(words: str) -> None:
    with pytest.raises(Fault, match="aren't those of a run"):
        words_read(words)


def test_the_guide_shows_what_comes(say: Desk, tmp_path: Path) -> None:
    guide = (TOP / "docs" / "AUDIT.md").read_text(encoding="utf-8")
    bundle = tmp_path / "refinery_may1.zip"
    words = ("--plant", "refinery", "--out", bundle, *TIME)
    assert say("archive", example("refinery_day.csv"), *words).status == 0
    files = files_of(bundle)
    lines = say("audit", bundle).out.splitlines()
    session = files[SESSION].replace(b"2741000000", b"2741000001")
    bundle.write_bytes(packed({**files, SESSION: session}))
    lines += [line for line in say("audit", bundle).out.splitlines() if "DIESEL" in line]
    assert len(lines) == 8
    for line in lines:
        shown = line.replace(f"{tmp_path}/", "").partition("; its SHA-256 is ")[0]
        assert f"    {shown}" in guide, shown


# ---- what is noted, and what seldom comes


def test_totals_beyond_the_limits(say: Desk, tmp_path: Path) -> None:
    session, output = example("conformance/over.in"), example("conformance/over.out")
    said = say("audit", output, session)
    assert said.status == 0 and "the total of A is beyond the limits" in said.out
    for old, new, told in (
        (b",A\n", b",B\n", "the total of B is said to be beyond the limits, and that of A is"),
        (b"over,d1", b"over,d2", "this is a report of d2, and the session asks for d1 here"),
    ):
        report = tmp_path / "report.csv"
        report.write_bytes(output.read_bytes().replace(old, new))
        said = say("audit", report, session, "--no-program")
        assert said.status == 1 and told in said.out
    said = say("audit", example("two_meters.out.csv"), session, "--no-program")
    assert "there is a report, and by the session the total of A is beyond the limits" in said.out


def test_another_program(say: Desk, tmp_path: Path, monkeypatch: pytest.MonkeyPatch) -> None:
    other = {"sha256": "0" * 64, "version": "unknown", "commit": "unknown", "from": "nowhere"}
    monkeypatch.setattr("plantbal.audit.archive.program_of", lambda path: other)
    bundle = tmp_path / "b.zip"
    assert say("archive", example("two_meters.csv"), "--out", bundle, *TIME).status == 0
    said = say("audit", bundle)
    assert said.status == 0 and "it is another build or version" in said.out


def test_checks_that_differ(say: Desk, monkeypatch: pytest.MonkeyPatch) -> None:
    monkeypatch.setattr("plantbal.checker.findings", lambda data: [("yes", "d1", "1")])
    said = say("audit", example("two_meters.out.csv"), example("two_meters.csv"))
    assert said.status == 1
    assert "the checker in plain Python says 'yes,d1,1', and plantbal check 'yes,d1,0'" in said.out


def test_a_build_record_and_a_time(say: Desk, tmp_path: Path, program: Path) -> None:
    """The manifest has version and commit of a record that is of this program."""
    usr = tmp_path / "usr"
    (usr / "bin").mkdir(parents=True)
    (usr / "share" / "plantbal").mkdir(parents=True)
    copy = usr / "bin" / "plantbal"
    copy.write_bytes(program.read_bytes())
    copy.chmod(0o755)
    record = "version: 9.8.7\ncommit: abc of 2026-01-01\nsha256 of the program as installed: "
    (usr / "share" / "plantbal" / "BUILD").write_text(record + digest(copy.read_bytes()) + "\n")
    words = ("archive", example("two_meters.csv"), "--program", copy)
    with pytest.MonkeyPatch.context() as patch:
        patch.setenv("SOURCE_DATE_EPOCH", "86400")
        assert say(*words, "--out", tmp_path / "b.zip").status == 0
        patch.setenv("SOURCE_DATE_EPOCH", "noon")
        assert "SOURCE_DATE_EPOCH is 'noon'" in say(*words, "--out", tmp_path / "c.zip").err
    manifest = files_of(tmp_path / "b.zip")[MANIFEST].decode()
    assert '"version": "9.8.7"' in manifest and '"commit": "commit abc of 2026' in manifest
    assert '"from": "the build record installed with the program"' in manifest
    assert '"made": "1970-01-02T00:00:00Z"' in manifest


def test_builds(tmp_path: Path) -> None:
    """Who says the version of a program is said, also where nobody does."""
    program = tmp_path / "crates" / "plantbal" / "out" / "plantbal"
    program.parent.mkdir(parents=True)
    program.write_bytes(b"x")
    assert build_of(program) == Build(digest(b"x"))
    (tmp_path / "VERSION").write_text("9.8.7\n")
    found = build_of(program)
    assert (found.version, found.commit) == ("9.8.7", "unknown") and "VERSION of" in found.source
    assert build_of(tmp_path / "VERSION").source.startswith("nowhere: ")


@pytest.mark.parametrize("version", [1, 2])
def test_bundles_of_earlier_forms(say: Desk, month: Path, tmp_path: Path, version: int) -> None:
    """Bundles from before versions had a source, and zips digests of their own, hold as they are."""
    files = files_of(month)
    now = Manifest.read(files[MANIFEST])
    names = ("sha256", "version", "commit", "from")[: 2 + version]
    then = replace(now, archive=version, program={name: now.program[name] for name in names})
    made = bundle_files(files[SESSION], files[OUTPUT], then)
    assert (b'"from"' in made[MANIFEST]) == (version == 2) and b'"parts"' not in made[MANIFEST]
    assert (b" from " in made[SUMMARY].split(b"words")[0]) == (version == 2)
    bundle = tmp_path / "b.zip"
    bundle.write_bytes(packed(made, sealed=False))
    said = say("audit", bundle)
    assert said.status == 0 and "everything holds" in said.out, said.out
    with zipfile.ZipFile(bundle, "w", compresslevel=1) as zipped:
        for name in NAMES:
            zipped.writestr(entry_of(name), made[name])
    said = say("audit", bundle)
    assert said.status == 0 and "note: " in said.out and "the zip's own bytes" in said.out


@pytest.mark.parametrize("version", [3, 4, 5])
def test_bundles_without_approvals(say: Desk, month: Path, tmp_path: Path, version: int) -> None:
    """Bundles from before there was a head, the ± of each flow or approvals hold as they are."""
    files = files_of(month)
    now = Manifest.read(files[MANIFEST])
    made = bundle_files(files[SESSION], files[OUTPUT], replace(now, archive=version))
    assert "± t" in files[SUMMARY].decode()
    assert ("±" in made[SUMMARY].decode()) == (version == 5)
    assert (b'"book"' in made[MANIFEST]) == (version > 3) and b'"approvals"' not in made[MANIFEST]
    bundle = tmp_path / "b.zip"
    bundle.write_bytes(packed(made))
    said = say("audit", bundle)
    assert said.status == 0 and "everything holds" in said.out, said.out


def entry_of(name: str) -> zipfile.ZipInfo:
    """The entry of a file, as archive writes it."""
    entry = zipfile.ZipInfo(name, (1980, 1, 1, 0, 0, 0))
    entry.compress_type, entry.external_attr = zipfile.ZIP_DEFLATED, 0o100644 << 16
    return entry


def test_a_zip_that_was_packed_again(say: Desk, month: Path, tmp_path: Path) -> None:
    """Without the digest of its own, or with another comment, it isn't as archive wrote it."""
    bundle = tmp_path / "b.zip"
    bundle.write_bytes(packed(files_of(month), sealed=False))
    said = say("audit", bundle)
    assert said.status == 1 and "the zip has no digest of its own" in said.out
    with zipfile.ZipFile(bundle, "a") as zipped:
        zipped.comment = b"looked at"
    said = say("audit", bundle)
    assert said.status == 1 and "another comment than the digest of its bytes" in said.out


def test_other_words(say: Desk) -> None:
    """A report that was asked for with other words holds, and they are noted."""
    session = example("flotation_shift.csv")
    report = example("flotation_shift.out.csv")
    assert "--gap 20" not in say("audit", report, session).out
    said = say("audit", report, session, "--words", "run --gap 20")
    assert said.status == 1 and "plantbal run --gap 20 writes" in said.out
    said = say("audit", report, session, "--words", "check")
    assert said.status == 1 and "aren't those of a run" in said.err


def test_words_with_a_bundle(say: Desk, month: Path) -> None:
    said = say("audit", month, "--words", "run")
    assert said.status == 2 and "a bundle has its own" in said.err
