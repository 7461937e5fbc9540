"""Bundles from strangers: zips with two readings, bombs, what isn't compared, and two archives."""

from __future__ import annotations

import io
import json
import re
import struct
import subprocess
import threading
import zipfile
import zlib
from collections.abc import Callable, Sequence
from pathlib import Path

import pytest
from conftest import Desk, Said, example, text_of

from plantbal.audit.archive import bundle_files
from plantbal.audit.bundle import (
    MANIFEST,
    MOST_BYTES,
    NAMES,
    OUTPUT,
    SESSION,
    VERSION,
    Manifest,
    packed,
    unpacked,
)
from plantbal.audit.changed import digest
from plantbal.audit.command import NOT_COMPARED
from plantbal.faults import InputFault
from plantbal.newfile import write_new

TIME = ("--time", "2024-05-02T06:00:00Z")
_SEAL = b"SHA-256 of the bytes before this comment: " + b"0" * 64


def month(plant: str) -> Manifest:
    """What a bundle states of itself."""
    program = dict.fromkeys(("sha256", "version", "commit", "from"), "0")
    return Manifest(
        archive=VERSION,
        plant=plant,
        period="may1",
        first="",
        last="",
        made=TIME[1],
        words="run",
        program=program,
        desk="0",
        reports=[],
        refused=0,
        files={},
    )


def files_of(plant: str = "refinery", edit: Callable[[bytes], bytes] = bytes) -> dict[str, bytes]:
    """The files of a bundle of the refinery's day, made without the program."""
    output = edit(example("refinery_day.out.csv").read_bytes())
    return bundle_files(example("refinery_day.csv").read_bytes(), output, month(plant))


def split(data: bytes) -> tuple[bytes, bytes, bytes]:
    """The local entries of a zip, its directory, and its end."""
    end = data.rindex(b"PK\5\6")
    begin = struct.unpack("<L", data[end + 16 : end + 20])[0]
    return data[:begin], data[begin:end], data[end:]


def sealed(entries: bytes, directory: bytes, end: bytes) -> bytes:
    """A zip of these parts, whose end is led to its directory, with a digest that fits."""
    made = end[:16] + struct.pack("<LH", len(entries), len(_SEAL))
    data = entries + directory + made
    return data + _SEAL[:-64] + digest(data).encode()


def hidden_after(own: bytes, other: bytes) -> bytes:
    """A zip with the entries of another month between its own and its directory."""
    entries, directory, end = split(own)
    return sealed(entries + split(other)[0], directory, end)


def hidden_before(own: bytes, other: bytes) -> bytes:
    """A zip that begins with the entries of another month."""
    entries, directory, end = split(own)
    front, places = split(other)[0], bytearray(directory)
    at = 0
    while at < len(places):
        (name,) = struct.unpack("<H", places[at + 28 : at + 30])
        (begin,) = struct.unpack("<L", places[at + 42 : at + 46])
        places[at + 42 : at + 46] = struct.pack("<L", begin + len(front))
        at += 46 + name
    return sealed(front + entries, bytes(places), end)


def other_header(own: bytes, _: bytes) -> bytes:
    """A zip whose first local header says that the file has no bytes."""
    entries, directory, end = split(own)
    return sealed(entries[:18] + bytes(8) + entries[26:], directory, end)


def longer_stream(own: bytes, other: bytes) -> bytes:
    """A zip whose first compressed bytes go on with a header after their stream has ended."""
    with zipfile.ZipFile(io.BytesIO(own)) as bundle:
        first = bundle.infolist()[0]
    entries, directory, end = split(own)
    more = split(other)[0][:200]
    size = struct.pack("<L", first.compress_size + len(more))
    cut = 30 + len(first.filename) + first.compress_size
    entries = entries[:18] + size + entries[22:cut] + more + entries[cut:]
    places = bytearray(directory[:20] + size + directory[24:])
    at = 46 + len(first.filename)
    while at < len(places):
        (name,) = struct.unpack("<H", places[at + 28 : at + 30])
        (begin,) = struct.unpack("<L", places[at + 42 : at + 46])
        places[at + 42 : at + 46] = struct.pack("<L", begin + len(more))
        at += 46 + name
    return sealed(entries, bytes(places), end)


def test_zips_with_two_readings(say: Desk, tmp_path: Path) -> None:
    """What a reader that streams finds, and what one finds that goes by the directory."""
    own, other = packed(files_of(), sealed=False), packed(files_of("other"), sealed=False)
    bundle = tmp_path / "two.zip"
    for make, said in (
        (hidden_after, "there are bytes between its last file and its directory"),
        (hidden_before, "session.csv doesn't begin where the file before it ends"),
        (other_header, "the header before session.csv isn't that of the directory"),
        (longer_stream, "the compressed bytes of session.csv don't end where its entry ends"),
    ):
        bundle.write_bytes(make(own, other))
        found = unpacked(bundle)
        assert found.files == files_of(), make.__doc__
        assert [each.partition(": ")[0] for each in found.wrong] == [said], make.__doc__
        told = say("audit", bundle, "--no-program")
        assert told.status == 1 and said in told.out and "1 thing wrong" in told.out, make.__doc__


def test_a_zip_of_another_packer(say: Desk, tmp_path: Path) -> None:
    """Other compressed bytes are noted, and what a reader that streams finds is the same."""
    files, bundle, made = files_of(), tmp_path / "b.zip", io.BytesIO()
    with zipfile.ZipFile(made, "w") as zipped:
        for name in NAMES:
            entry = zipfile.ZipInfo(name, (1980, 1, 1, 0, 0, 0))
            entry.compress_type, entry.external_attr = zipfile.ZIP_DEFLATED, 0o100644 << 16
            zipped.writestr(entry, files[name], compresslevel=1)
    bundle.write_bytes(sealed(*split(made.getvalue())))
    told = say("audit", bundle, "--no-program")
    assert told.status == 0 and "its files are the same for each reader of zips" in told.out
    for name in NAMES:
        done = subprocess.run(
            ["bsdtar", "-xOf", "-", name],
            input=bundle.read_bytes(),
            capture_output=True,
            check=True,
        )
        assert done.stdout == files[name], name
    bundle.write_bytes(packed(files))
    assert "each reader of zips" not in say("audit", bundle, "--no-program").out


REPACKERS: dict[str, list[str]] = {
    "bsdtar": ["bsdtar", "-c", "-f", "again.zip", "--format", "zip", *NAMES],
    "python": ["python3", "-m", "zipfile", "-c", "again.zip", *NAMES],
    "in another order": ["python3", "-m", "zipfile", "-c", "again.zip", *sorted(NAMES)],
    "stored": [
        "bsdtar",
        "-c",
        "-f",
        "again.zip",
        "--format",
        "zip",
        "--options",
        "compression=store",
        *NAMES,
    ],
}


@pytest.mark.parametrize("packer", REPACKERS)
def test_a_bundle_that_was_zipped_again(say: Desk, tmp_path: Path, packer: str) -> None:
    """What another packer does otherwise is a note, if all contents hold; else it is wrong."""
    for name, data in files_of().items():
        (tmp_path / name).write_bytes(data)
    subprocess.run(REPACKERS[packer], cwd=tmp_path, check=True)
    told = say("audit", tmp_path / "again.zip", "--no-program")
    assert told.status == 0 and "another packer has zipped it again" in told.out, told.out
    (tmp_path / OUTPUT).write_bytes(files_of()[OUTPUT].replace(b"9", b"8", 1))
    (tmp_path / "again.zip").unlink()
    subprocess.run(REPACKERS[packer], cwd=tmp_path, check=True)
    told = say("audit", tmp_path / "again.zip", "--no-program")
    assert told.status == 1 and "wrong: " in told.out
    assert (
        "another packer has zipped it again" not in told.out and "archive doesn't write" in told.out
    )


def test_a_zip_of_another_packer_with_two_readings(say: Desk, tmp_path: Path) -> None:
    """Its freedom ends where a reader would find other files."""

    def packed_by_python(plant: str) -> bytes:
        out = io.BytesIO()
        with zipfile.ZipFile(out, "w", zipfile.ZIP_DEFLATED) as zipped:
            for name in NAMES:
                zipped.writestr(name, files_of(plant)[name])
        return out.getvalue()

    own, other, bundle = packed_by_python("refinery"), packed_by_python("x"), tmp_path / "b.zip"
    entries, directory, end = split(own)
    cases = {
        "its own": (own, 0),
        "after": (plain(entries + split(other)[0], directory, end), 1),
        "another size": (plain(entries[:22] + bytes(4) + entries[26:], directory, end), 1),
        "another name": (plain(entries.replace(b"session", b"sessiom", 1), directory, end), 1),
        "more at the end": (own + b"x", 1),
    }
    for what, (data, status) in cases.items():
        told = say_of(say, bundle, data, "--no-program")
        assert told.status == status, (what, told)


def plain(entries: bytes, directory: bytes, end: bytes) -> bytes:
    """A zip of these parts without a comment, whose end is led to its directory."""
    return entries + directory + end[:16] + struct.pack("<LH", len(entries), 0)


def bomb(name: str, size: int) -> bytes:
    """A zip in which a file has that many bytes."""
    out, piece = io.BytesIO(), bytes(1 << 20)
    with zipfile.ZipFile(out, "w", zipfile.ZIP_DEFLATED) as zipped:
        for each in NAMES:
            with zipped.open(each, "w") as file:
                for _ in range(size >> 20 if each == name else 0):
                    file.write(piece)
    return out.getvalue()


def test_no_bundle_is_unpacked_without_limit(say: Desk, tmp_path: Path) -> None:
    """A file of a bundle has a limit, and the directory isn't believed."""
    bundle = tmp_path / "bomb.zip"
    large = bomb(SESSION, MOST_BYTES[SESSION] + (1 << 20))
    place = split(large)[1].index(b"PK\1\2") + len(split(large)[0]) + 24
    lied = large[:place] + struct.pack("<L", 5) + large[place + 4 :]
    for data in (large, lied):
        told = say_of(say, bundle, data, "--no-program")
        assert told.status == 1 and "bomb.zip!session.csv: " in told.err, told
    assert "it has more than the 67,108,864 bytes" in say_of(say, bundle, large, "--no-program").err
    deep = {**files_of(), MANIFEST: b"[" * 300_000}
    told = say_of(say, bundle, packed(deep), "--no-program")
    assert told.status == 1 and "nested deeper than any manifest's" in told.out


def say_of(say: Desk, bundle: Path, data: bytes, *words: str) -> Said:
    """What an audit says of the bytes of a bundle."""
    bundle.write_bytes(data)
    return say("audit", bundle, *words)


def test_what_is_not_compared_is_named(say: Desk, tmp_path: Path) -> None:
    """Without the program nothing is said to hold that wasn't compared."""
    told = say_of(say, tmp_path / "b.zip", packed(files_of()), "--no-program")
    (note,) = [line for line in told.out.splitlines() if "aren't compared" in line]
    assert told.status == 0 and note.startswith("note: ") and NOT_COMPARED in note
    for name in ("histories", "what was taken", "advice"):
        assert name in note, name


def test_designs_are_compared(say: Desk, tmp_path: Path) -> None:
    """Each class is shown by its cut or its cycle in the plant that its row saw."""
    edits: Sequence[tuple[str, str, str]] = (
        (",yes,redundant,cut", ",no,unobservable,cut", "is unobservable, measured no, and by the"),
        (",no,observable,cut", ",no,unobservable,cut", "doesn't show its class"),
        ("^design,9", "design,19", "the design has 19 nodes and "),
        (r"^class,(\w+),\w+", r"class,\1,env", "where the session has"),
        (r"^(class,.*cut,.*[+-])\w+$", r"\1NONE", "can't be read (name)"),
        (r"^(class,.*cut,.*) [+-]\w+$", r"\1", "doesn't show its class"),
        (r"^class,.*\n", "", " rows, and the plant "),
        (r"^design,9,\d+\n(class,.*\n)*", "", "that line 43 asks for isn't there"),
        (r"^design,9", "design,9,20\ndesign,9", "the design has 9 nodes and 20 streams in 0 rows"),
    )
    for old, new, what in edits:

        def edit(text: bytes, old: str = old, new: str = new) -> bytes:
            made, count = re.subn(old, new, text.decode(), 1, re.MULTILINE)
            assert count == 1, old
            return made.encode()

        told = say_of(say, tmp_path / "b.zip", packed(files_of(edit=edit)), "--no-program")
        found = [line for line in told.out.splitlines() if line.startswith("wrong: ")]
        assert told.status == 1 and any(what in line for line in found), (old, told.out)


def test_two_archives_at_once(tmp_path: Path) -> None:
    """Of many that write one file at once, one does; none is told that it did and didn't."""
    path, gate = tmp_path / "b.zip", threading.Barrier(4)
    wrote: list[bytes] = []

    def write(number: int) -> None:
        data = b"%d" % number * 1000
        gate.wait()
        if write_new(path, data):
            wrote.append(data)

    for _ in range(6):
        wrote.clear()
        path.unlink(missing_ok=True)
        some = [threading.Thread(target=write, args=(number,)) for number in range(4)]
        for each in some:
            each.start()
        for each in some:
            each.join()
        assert wrote == [path.read_bytes()]
        assert list(tmp_path.iterdir()) == [path]


def test_an_archive_without_second_names(tmp_path: Path, monkeypatch: pytest.MonkeyPatch) -> None:
    """On a file system whose files have one name each it is exclusive too, and told if full."""

    def refused(*_: object) -> None:
        raise PermissionError(1, "Operation not permitted")

    monkeypatch.setattr("os.link", refused)
    path = tmp_path / "b.zip"
    assert [write_new(path, b"1"), write_new(path, b"2")] == [True, False]
    assert (path.read_bytes(), list(tmp_path.iterdir())) == (b"1", [path])
    with pytest.raises(InputFault, match="c.zip: it can't be written: No such file"):
        write_new(tmp_path / "none" / "c.zip", b"")


def test_an_archive_is_on_the_disk(tmp_path: Path, monkeypatch: pytest.MonkeyPatch) -> None:
    """The file is flushed before it has its name, and the folder after that."""
    import os

    done: list[str] = []
    for name in ("fsync", "link", "open"):
        call = getattr(os, name)

        def seen(*given: object, call: Callable[..., object] = call, name: str = name) -> object:
            done.append(name)
            return call(*given)

        monkeypatch.setattr(os, name, seen)
    write_new(tmp_path / "b.zip", b"1")
    assert [each for each in done if each != "open"] == ["fsync", "link", "fsync"]


def test_no_line_of_a_summary_is_forged(say: Desk, tmp_path: Path) -> None:
    """The name of a plant has one line, in what is made and in what is audited."""
    forged = "a\nThe period may1 is closed."
    told = say("archive", "--plant", forged, "--out", tmp_path / "b.zip", example("two_meters.csv"))
    assert told.status == 2 and r"can't be called 'a\nThe period may1 is closed.'" in told.err
    assert not list(tmp_path.iterdir())
    files = files_of(forged)
    assert files["summary.txt"].startswith(rb"a\nThe period may1 is closed., period may1")
    lines = files["summary.txt"].splitlines()
    assert b"The period may1 is closed." not in lines and b"The period may1 is open." in lines
    files["summary.txt"] = files["summary.txt"].replace(rb"\n", b"\n", 1)
    told = say_of(say, tmp_path / "c.zip", packed(files), "--no-program")
    assert told.status == 1 and "c.zip!summary.txt: " in told.out


def test_a_program_that_never_ends(say: Desk, tmp_path: Path) -> None:
    """Each command that runs the program stops it if that is asked for."""
    program = tmp_path / "hangs"
    program.write_text("#!/bin/sh\nexec sleep 600\n")
    program.chmod(0o755)
    session, bundle = example("refinery_day.csv"), tmp_path / "b.zip"
    bundle.write_bytes(packed(files_of()))
    limit = ("--program", program, "--timeout", "0.5")
    for words, where, status in (
        (("audit", bundle, *limit), "out", 1),
        (("archive", session, "--out", tmp_path / "c.zip", *limit), "err", 3),
        (("run", session, *limit), "err", 3),
        (("page", session, "--run", *limit), "err", 3),
    ):
        told = say(*words)
        assert told.status == status, words
        assert "didn't finish within 0.5 s" in getattr(told, where), (words, told)
    assert not (tmp_path / "c.zip").exists()


def test_a_stream_that_is_larger_than_it_says() -> None:
    """No more is unpacked of a stream than its entry says."""
    from plantbal.audit.container import _is_one_stream

    packer = zlib.compressobj(9, zlib.DEFLATED, -15)
    stream = packer.compress(bytes(5 << 20)) + packer.flush()
    for data, size, holds in (
        (stream, 5 << 20, True),
        (stream, (5 << 20) - 1, False),
        (stream, 10, False),
        (stream[:-1], 5 << 20, False),
        (stream + b"x", 5 << 20, False),
    ):
        assert _is_one_stream(data, size) is holds, (len(data), size)


def test_the_manifest_of_a_bundle_is_read(tmp_path: Path) -> None:
    """What is made here is a bundle: nothing is wrong with it."""
    bundle = tmp_path / "b.zip"
    bundle.write_bytes(packed(files_of()))
    found = unpacked(bundle)
    assert (found.wrong, found.note, found.is_sealed) == ([], "", True)
    assert json.loads(found.files[MANIFEST])["plant"] == "refinery"
    assert found.files[OUTPUT].decode() == text_of(example("refinery_day.out.csv"))
