"""Whoever can write to everything: a bundle or a book is made anew, and what tells it is named.

Each attack is made with the package's own means, so that all digests and the chain fit. Which means
tell it, and which don't, is what the row of its name in the table of ASSURANCE says.
"""

from __future__ import annotations

import hashlib
import os
import shutil
from collections.abc import Callable, Sequence
from dataclasses import dataclass, replace
from pathlib import Path

import attacks
import keyring
import pytest
from attacks import Attack, Told, What
from books import ANYWAY, Type, fixture_book, folder, month
from conftest import Desk, text_of

from plantbal import Book
from plantbal.audit.approved import JudgedApprovals, read_approvals
from plantbal.audit.archive import bundle_files
from plantbal.audit.bundle import MANIFEST, OUTPUT, SESSION, Manifest, packed, unpacked
from plantbal.audit.said import SentenceKind
from plantbal.book.forms import is_year_file
from plantbal.book.journal import (
    HEAD_TEXT,
    Kept,
    JournalLine,
    chained,
    journal_text,
    read_journal,
    read_line,
)
from plantbal.faults import Fault
from plantbal.gates import Gate
from plantbal.program import call
from plantbal.signing.signatures import BOOK, BUNDLE, sign

__all__ = ["fixture_book"]

REASONS = {gate: "as it is" for gate in Gate}


@dataclass(frozen=True)
class Room:
    """A book with April closed by two, its bundles of April and May, and keys."""

    path: Path

    @property
    def mill(self) -> Path:
        return self.path / "mill"

    def key(self, name: str) -> Path:
        return self.path / "keys" / name


@pytest.fixture(name="room")
def fixture_room(book: Type, say: Desk, tmp_path: Path, monkeypatch: pytest.MonkeyPatch) -> Room:
    """Anna submits, Paul approves, Eva has left; both bundles are signed by Anna."""
    folders = (tmp_path / name for name in ("mill", "copy", "forged/mill"))
    monkeypatch.setenv("PLANTBAL_TRUST", ":".join(map(str, folders)))
    closed(tmp_path, monkeypatch)
    before: list[object] = []
    assert book("add", folder(tmp_path / "may", month(month="05"))).status == 0
    for period in ("2024-04", "2024-05"):
        before = ["--before", archived(Room(tmp_path), say, period, *before)]
    return Room(tmp_path)


def closed(path: Path, monkeypatch: pytest.MonkeyPatch) -> None:
    """Have the book of a folder closed by Anna and Paul, with keys of theirs that are made here."""
    room, mill = Room(path), path / "mill"
    ends = {"eva": 'valid-before="20240101"'}
    lines = [
        keyring.line(name, keyring.key(path / "keys", name), ends.get(name, ""))
        for name in ("anna", "paul", "eva")
    ]
    keyring.key(path / "keys", "stranger")
    (path / "signers").write_text("".join(lines), "ascii")
    (path / "rules").write_text("[wants]\nclose = true\namend = true\n[sign]\nkeys = true\n")
    Book(mill).set_rules(path / "rules", signers=path / "signers")
    _as(monkeypatch, 1001)
    head = Book(mill, key=room.key("anna")).submit("2024-04", anyway=REASONS).head
    _as(monkeypatch, 1002)
    Book(mill, key=room.key("paul")).approve(str(head))
    (path / "head").write_text(str(Book(mill).head), "ascii")


def archived(room: Room, say: Desk, period: str, *words: object) -> Path:
    """Make the bundle of a period, which Anna signs."""
    session, out = room.path / f"{period}.csv", room.path / f"{period}.zip"
    session.write_text(Book(room.mill).session_asking(period), "ascii")
    own = ("--period", period, "--out", out, "--book", room.mill, "--key", room.key("anna"))
    assert say("archive", session, *own, *words).status in (0, 1)
    return out


def _as(monkeypatch: pytest.MonkeyPatch, number: int) -> None:
    monkeypatch.setattr(os, "getuid", lambda: number)


# ---- bundles

Forge = Callable[[dict[str, bytes]], dict[str, bytes]]


def made_of(session: bytes, manifest: Manifest) -> dict[str, bytes]:
    """A bundle of another session, consistent in itself."""
    output = call(manifest.words.split(" "), session)[1]
    return bundle_files(session, output, manifest)


def of_session(old: bytes, new: bytes) -> Forge:
    """A bundle made anew of a session with another row."""

    def forge(files: dict[str, bytes]) -> dict[str, bytes]:
        assert old in files[SESSION], old
        return made_of(files[SESSION].replace(old, new), Manifest.read(files[MANIFEST]))

    return forge


def of_manifest(**values: object) -> Forge:
    """A bundle made anew that states something else."""

    def forge(files: dict[str, bytes]) -> dict[str, bytes]:
        stated = replace(Manifest.read(files[MANIFEST]), **values)  # type: ignore[arg-type]
        return bundle_files(files[SESSION], files[OUTPUT], stated)

    return forge


# Ways to make a bundle anew.
BUNDLES: dict[str, Forge] = {
    "another reading": of_session(b"FEED,2024-04-02,1200", b"FEED,2024-04-02,1300"),
    "another ticket": of_session(b"2024-04-01,800000000", b"2024-04-01,900000000"),
    "another dip": of_session(b",9500,", b",9400,"),
    "another critical value": of_session(b"global,2,5990", b"global,2,9990"),
    "another plant": of_session(b"MILL,SILO", b"SILO,MILL"),
    "without the row of the close": of_session(b"close,2024-04\n", b""),
    "another time": of_manifest(made="2020-01-01T00:00:00Z"),
    "another name of the plant": of_manifest(plant="other"),
    "another version of the desk": of_manifest(desk="99.9"),
    "another program": of_manifest(
        program={"sha256": "0" * 64, "version": "1", "commit": "x", "from": "y"}
    ),
    "another head of the book": of_manifest(book={"number": "3", "head": "0" * 64}),
    "another bundle before it": of_manifest(before={"sha256": "0" * 64, "number": "", "head": ""}),
}


@dataclass
class Auditor:
    """Audits a bundle of April by each means.

    Attributes
    ----------
    room : Room
        Where it is.
    say : Desk
        How commands are typed.
    signed : str
        What the last audit with the keys has said.
    """

    room: Room
    say: Desk
    signed: str = ""

    @property
    def bundle(self) -> Path:
        return self.room.path / "2024-04.zip"

    def told(self, *words: object) -> Told:
        """Whether an audit says that something is wrong."""
        said = self.say("audit", self.bundle, *words)
        if "--signers" in words:
            self.signed = said.out
        return Told.YES if said.status == 1 else Told.NO

    def found(self, alone: Told | None = None) -> Attack:
        """What each means tells of the bundle as it is."""
        return Attack(
            alone or self.told(),
            self.told("--after", self.room.path / "2024-05.zip"),
            self.told("--book", self.room.mill),
            self.told("--signers", self.room.path / "signers", "--signed-by", "anna"),
        )

    def alone(self, files: dict[str, bytes]) -> Told:
        """What a bundle tells by itself, as it is and with its approvals left out."""
        said = self.say("audit", self.bundle)
        assert "anybody could have written all of it" in said.out
        # The approvals in it are of other rows. Whoever makes a bundle anew can leave them out.
        stated = replace(Manifest.read(files[MANIFEST]), approvals={})
        self.bundle.write_bytes(packed(bundle_files(files[SESSION], files[OUTPUT], stated)))
        without = self.say("audit", self.bundle)
        assert "anybody could have written all of it" in without.out
        self.bundle.write_bytes(packed(files))
        return {
            (1, 1): Told.YES,
            (1, 0): Told.UNLESS,
            (0, 0): Told.NO,
        }[said.status, without.status]


OWN_KEYS = "of a book made anew, approved with own keys"


def test_bundles_made_anew(room: Room, say: Desk, monkeypatch: pytest.MonkeyPatch) -> None:
    """A signature tells each, and a later bundle; the book each that changes figures; nothing beside it none."""
    auditor = Auditor(room, say)
    bundle = auditor.bundle
    genuine, signers = bundle.read_bytes(), ("--signers", room.path / "signers")
    said = say("audit", bundle, *signers, "--book", room.mill, "--after", room.path / "2024-05.zip")
    assert said.status == 0, said.out
    assert "signed by anna with the key SHA256:" in said.out
    assert "submitted by anna as action 4, approved by" in said.out
    rows = attacks.of(What.BUNDLE)
    found = {}
    for name, forge in BUNDLES.items():
        files = forge(dict(unpacked(bundle).files))
        bundle.write_bytes(packed(files))
        found[name] = auditor.found(auditor.alone(files))
        assert "it doesn't fit what is signed" in auditor.signed, name
        bundle.write_bytes(genuine)
    forged = Room(room.path / "forged")
    _as(monkeypatch, 1003)
    book = Book(forged.mill)
    book.begin("2024", room.path / "plant")
    book.add(folder(room.path / "forged" / "april", month(last=2)))
    closed(forged.path, monkeypatch)
    made = archived(forged, say, "2024-04")
    shutil.copy(made, bundle)
    shutil.copy(f"{made}.sig", f"{bundle}.sig")
    found[OWN_KEYS] = auditor.found()
    assert "its key belongs to nobody" in auditor.signed
    assert found == rows, "each way that is tried has a row, and each row is tried"


def test_signatures_of_a_bundle(room: Room, say: Desk) -> None:
    """Who has to have signed it, with a key that is theirs and for this use."""
    auditor = Auditor(room, say)
    genuine = auditor.bundle.read_bytes()
    path, rows = Path(f"{auditor.bundle}.sig"), attacks.of(What.SIGNATURE)
    signature = path.read_text("ascii")
    tried = {
        "by a stranger": (sign(genuine, room.key("stranger"), BUNDLE), "its key belongs to nobody"),
        "by a key that has ended": (sign(genuine, room.key("eva"), BUNDLE), "no longer allowed"),
        "of another use": (sign(genuine, room.key("anna"), "plantbal-book"), "doesn't fit"),
        "by somebody else": (sign(genuine, room.key("paul"), BUNDLE), "anna has to have signed it"),
        "taken away": ("", "nobody has signed it"),
        "no signature": ("x", "it isn't a signature"),
    }
    found = {}
    for name, (made, what) in tried.items():
        path.unlink(missing_ok=True)
        if made:
            path.write_text(made, "ascii")
        found[name] = auditor.found()
        assert what in auditor.signed, (name, auditor.signed)
    assert found == rows, "each way that is tried has a row, and each row is tried"
    path.write_text(signature, "ascii")
    assert auditor.found() == Attack(Told.NO, Told.NO, Told.NO, Told.NO), "it is as it was"


# ---- approvals in a bundle

Carried = dict[str, dict[str, str]]
Change = Callable[[Carried, Room], None]


def _anew(carried: Carried, number: str, **values: object) -> None:
    """Make a line of the journal anew, with the files that are there now."""
    line = replace(read_line("x", carried["journal"][number]), **values)  # type: ignore[arg-type]
    names = {name for name in line.files if name in carried["files"]}
    kept = {name: Kept.of(carried["files"][name].encode()) for name in names}
    line = replace(line, files={**line.files, **kept})
    text = journal_text([line.cells]).rstrip("\n")
    line = replace(line, digest=hashlib.sha256(text.encode()).hexdigest())
    carried["journal"][number] = line.text


def _left_out(carried: Carried, room: Room) -> None:
    carried.clear()


def _signed_by_stranger(carried: Carried, room: Room) -> None:
    text = carried["files"]["approvals/5.txt"].encode()
    carried["files"]["approvals/5.sig"] = sign(text, room.key("stranger"), BOOK)
    _anew(carried, "5")


def _another_signer(carried: Carried, room: Room) -> None:
    carried["files"]["allowed_signers"] += keyring.line("stranger", room.key("stranger"))
    _signed_by_stranger(carried, room)


def _own_approval(carried: Carried, room: Room) -> None:
    text = carried["files"]["approvals/5.txt"].encode()
    carried["files"]["approvals/5.sig"] = sign(text, room.key("anna"), BOOK)
    _anew(carried, "5")


def _without_signature(carried: Carried, room: Room) -> None:
    del carried["files"]["approvals/5.sig"]
    line = read_line("x", carried["journal"]["5"])
    _anew(carried, "5", files={n: k for n, k in line.files.items() if not n.endswith(".sig")})


def _without_submission(carried: Carried, room: Room) -> None:
    del carried["journal"]["4"]
    for kind in ("txt", "sig"):
        del carried["files"][f"approvals/4.{kind}"]


def _other_rules(carried: Carried, room: Room) -> None:
    carried["files"]["rules.toml"] = carried["files"]["rules.toml"].replace("true", "false")


def _another_record(carried: Carried, room: Room) -> None:
    name = "approvals/5.txt"
    carried["files"][name] = carried["files"][name].replace("user 1002", "user 1009")
    _anew(carried, "5", user="1009")


def _another_line(carried: Carried, room: Room) -> None:
    carried["journal"]["5"] = carried["journal"]["5"].replace("as it is", "as it wos")


# What is done to the approvals in a bundle, and what an audit with --signers and without the book says.
APPROVED: dict[str, tuple[Change, str]] = {
    "left out": (_left_out, "note: {}: it has no line of the journal that closed 2024-04"),
    "signed by a stranger": (_signed_by_stranger, "its key belongs to nobody who may sign"),
    "a stranger among the signers": (
        _another_signer,
        "allowed_signers isn't as it was when the close was submitted",
    ),
    "approved by who submitted": (_own_approval, "anna has submitted it and approved it"),
    "without the signature": (_without_signature, "nobody has signed it"),
    "without the submission": (_without_submission, "nobody has approved it"),
    "other rules": (_other_rules, "rules.toml isn't as it was when the close was submitted"),
    "another user": (_another_record, "it doesn't fit what is signed"),
    "another reason": (_another_line, "its approvals have the wrong form: journal: line 1:"),
}


def test_approvals_in_a_bundle(room: Room, say: Desk) -> None:
    """Who submitted and approved, with which key and which rows, without the book; each forgery is told."""
    auditor, rows = Auditor(room, say), attacks.of(What.APPROVALS)
    bundle, signers = auditor.bundle, ("--signers", room.path / "signers")
    genuine = bundle.read_bytes()
    said = say("audit", bundle, *signers)
    assert said.status == 0, said.out
    for what in (
        "(submit 2024-04 close; ",
        "signed by anna with the key SHA256:",
        "signed by paul with the key SHA256:",
        "allowed without a first day",
        "submitted by anna as action 4, approved by paul",
        "rows of 2024.csv that were approved",
        "good: {}: its output is the report that was approved, to the byte",
    ):
        assert what.format(bundle) in said.out, (what, said.out)
    alone = say("audit", bundle)
    assert alone.status == 0 and "who may sign is what the bundle says itself" in alone.out
    assert not [
        line for line in alone.out.split("\n") if line.startswith("good:") and "anna" in line
    ]
    Path(f"{bundle}.sig").unlink()
    found = {}
    for name, (change, what) in APPROVED.items():
        files = dict(unpacked(bundle).files)
        stated = Manifest.read(files[MANIFEST])
        change(stated.approvals, room)
        bundle.write_bytes(packed(bundle_files(files[SESSION], files[OUTPUT], stated)))
        Path(f"{bundle}.sig").write_text(
            sign(bundle.read_bytes(), room.key("anna"), BUNDLE), "ascii"
        )
        found[name] = auditor.found()
        assert what.format(bundle) in auditor.signed, (name, auditor.signed)
        if found[name].keys is Told.NO and what.startswith("note:"):
            found[name] = replace(found[name], keys=Told.NOTE)
        bundle.write_bytes(genuine)
    assert found == rows, "each way that is tried has a row, and each row is tried"


def test_approvals_of_other_figures(room: Room, say: Desk) -> None:
    """Another session beside approvals that are right: the rows that were approved aren't there."""
    bundle = room.path / "2024-04.zip"
    for old, new, what in (
        (
            b"FEED,2024-04-02,1200",
            b"FEED,2024-04-02,1300",
            "doesn't begin with the rows of 2024.csv",
        ),
        (b"close,2024-04\n", b"", "of its session isn't the close of 2024-04"),
    ):
        files = of_session(old, new)(dict(unpacked(bundle).files))
        (room.path / "forged.zip").write_bytes(packed(files))
        said = say("audit", room.path / "forged.zip")
        assert said.status == 1 and what in said.out, said.out


# The ticket of April is 800 t; its meters have three days of thirty, so they have no value.
SINCE: dict[str, tuple[bytes, SentenceKind]] = {
    "another month": (b"", SentenceKind.NOTE),
    "an amendment of the month": (
        b"amend,truck-04,900000000,10000000000,why\n",
        SentenceKind.WRONG,
    ),
    "another variance": (b"amend,truck-04,800000000,20000000000,why\n", SentenceKind.WRONG),
    "a ticket that is struck": (b"strike,truck-04,why\n", SentenceKind.WRONG),
    "a late ticket": (
        b"late,transfer,truck-x,TRUCKS,2024-04-30,2024-05-01,800000000,10000000000\n",
        SentenceKind.WRONG,
    ),
    "a dip between two months": (
        b"amend,SILO_2024-04-30,9600,1250000,779247562500,why\n",
        SentenceKind.WRONG,
    ),
    "an amendment of the other month": (
        b"amend,truck-05,900000000,10000000000,why\n",
        SentenceKind.NOTE,
    ),
    "a reading of a meter without a value": (
        b"amend,F-1_2024-04-02,1300000000,144000000000000,why\n",
        SentenceKind.NOTE,
    ),
    "an amendment and back": (
        b"amend,truck-04,900000000,10000000000,why\namend,truck-04,800000000,10000000000,back\n",
        SentenceKind.NOTE,
    ),
}


@pytest.mark.parametrize("case", SINCE)
def test_rows_after_those_that_were_approved(case: str, room: Room, say: Desk) -> None:
    """A figure of the approved month that they change is wrong; others are noted."""
    more, wanted = SINCE[case]
    files = dict(unpacked(room.path / "2024-04.zip").files)
    manifest = Manifest.read(files[MANIFEST])
    asks = b"report,2024-04\n"
    assert asks in files[SESSION]
    session = files[SESSION].replace(asks, more + asks)
    output = call(manifest.words.split(" "), session)[1]
    assert b"refused" not in output
    approvals = read_approvals(manifest.approvals, None)
    assert approvals is not None
    judged = JudgedApprovals(approvals, session, output, manifest.book, False)
    close = approvals.close
    assert close.record is not None
    (kept,) = [kept for name, kept in close.record.files.items() if is_year_file(name)]
    assert [kind for kind, _ in judged.after(kept)] == [wanted]
    with_book = replace(judged, has_book=True)
    assert [kind for kind, _ in with_book.after(kept)] == [
        SentenceKind.NOTE
    ], "the book has the rows"
    (room.path / "made.zip").write_bytes(packed(bundle_files(session, output, manifest)))
    said = say("audit", room.path / "made.zip", "--signers", room.path / "signers")
    assert (" isn't what was approved: " in said.out) is (wanted is SentenceKind.WRONG)


# ---- books

Anew = Callable[[list[JournalLine], Path], Sequence[JournalLine]]


def _cut(lines: list[JournalLine], copy: Path) -> Sequence[JournalLine]:
    return lines[:2]


def _other_reason(lines: list[JournalLine], copy: Path) -> Sequence[JournalLine]:
    return [replace(each, why="fine") if each.act == "close" else each for each in lines]


def _other_approver(lines: list[JournalLine], copy: Path) -> Sequence[JournalLine]:
    return [replace(each, user="otto (1003)") if each.act == "close" else each for each in lines]


def _no_rules(lines: list[JournalLine], copy: Path) -> Sequence[JournalLine]:
    return [each for each in lines if each.act != "rules"]


def _no_submission(lines: list[JournalLine], copy: Path) -> Sequence[JournalLine]:
    return [each for each in lines if each.act != "submit"]


def _earlier(lines: list[JournalLine], copy: Path) -> Sequence[JournalLine]:
    return [replace(each, when="2024-05-01T00:00:00Z") for each in lines]


def _moved(lines: list[JournalLine], copy: Path) -> Sequence[JournalLine]:
    return [*lines[:3], replace(lines[1], rows=""), *lines[3:]]


# What is done to the journal, whose chain is then made anew.
BOOKS: dict[str, Anew] = {
    "cut to before the rules": _cut,
    "another reason": _other_reason,
    "another approver": _other_approver,
    "without the rules": _no_rules,
    "without the submission": _no_submission,
    "other times": _earlier,
    "an action put in": _moved,
}
OLDER = "an older copy of the whole folder"


def book_found(mill: Path, head: str) -> Attack:
    """What each means tells of a book as it is."""
    tells = [not Book(mill).verify().ok, not Book(mill).verify(heads=[head]).ok]
    try:
        tells.append(any(each.kind is SentenceKind.WRONG for each in Book(mill).signed()))
    except Fault:
        tells.append(True)
    alone, kept, keys = (Told.YES if each else Told.NO for each in tells)
    return Attack(alone, kept, Told.NONE, keys)


def test_books_made_anew(room: Room) -> None:
    """A head that was kept tells each; the signatures those that touch what was signed."""
    copy, head = room.path / "copy", (room.path / "head").read_text("ascii")
    assert not [each for each in Book(room.mill).signed() if each.kind is SentenceKind.WRONG]
    rows = attacks.of(What.BOOK)
    found = {OLDER: rows[OLDER]}  # by the test after this one
    for name, change in BOOKS.items():
        shutil.rmtree(copy, ignore_errors=True)
        shutil.copytree(room.mill, copy)
        lines, _ = read_journal("x", text_of(copy / "journal.csv"))
        made = chained(change(lines, copy))
        (copy / "journal.csv").write_text(HEAD_TEXT + "".join(each.text for each in made), "utf-8")
        (copy / ".checks").unlink()
        found[name] = book_found(copy, head)
    assert found == rows, "each way that is tried has a row, and each row is tried"


def test_an_older_copy(room: Room, book: Type) -> None:
    """Its chain and its signatures are in order: a newer head alone tells it."""
    older = room.path / "copy"
    shutil.copytree(room.mill, older)
    newer = str(Book(room.mill).head)
    assert book("add", folder(room.path / "more", month(month="05", last=9))).status == 0
    assert book("close", "2024-05", *ANYWAY).status == 1, "it needs an approval"
    now = str(Book(room.mill).head)
    assert Book(older).verify(heads=[newer]).ok
    found = book_found(older, now)
    assert found == attacks.of(What.BOOK)[OLDER], found
