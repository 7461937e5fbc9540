"""Four eyes: what needs an approval, who may give it, when it is void, and each way around it."""

from __future__ import annotations

import json
import os
import shutil
from collections.abc import Callable
from pathlib import Path

import keyring
import pytest
from books import ANYWAY, Type, fixture_book, folder, journal_of, month
from conftest import Desk, Said, text_of

from plantbal import Book
from plantbal.book.actions import Withheld
from plantbal.book.approval.approving import SamePerson, Void, Voided
from plantbal.audit.said import SentenceKind
from plantbal.book.approval.proposal import SubmittedMonth
from plantbal.book.approval.record import ApprovalDeed, ApprovalRecord
from plantbal.book.approval.rules import Want, read_rules
from plantbal.book.approval.submitting import Submitted, Unsigned
from plantbal.book.journal import HEAD_TEXT, chained, read_journal
from plantbal.book.store import Store
from plantbal.faults import Fault, InputFault
from plantbal.signing.signatures import BOOK, sign

__all__ = ["fixture_book"]

ANNA, PAUL, OTTO, ANNA_TOO = 1001, 1002, 1003, 1007
RULES = """
[wants]
close = true
amend = true
anyway = true
estimates = "5 %"
[people.anna]
users = [1001, 1007]
may = ["submit", "approve"]
[people.paul]
users = [1002]
may = ["submit", "approve"]
[people.otto]
users = [1003]
may = ["submit"]
"""
As = Callable[[int], None]


@pytest.fixture(name="user")
def fixture_user(monkeypatch: pytest.MonkeyPatch, tmp_path: Path) -> As:
    """Makes this process another user's; all of them trust the book's folder."""
    monkeypatch.setenv("PLANTBAL_TRUST", f"{tmp_path / 'mill'}:{tmp_path / 'copy'}")

    def become(number: int) -> None:
        monkeypatch.setattr(os, "getuid", lambda: number)

    return become


@pytest.fixture(name="mill")
def fixture_mill(book: Type, user: As, tmp_path: Path) -> Path:
    """A book with April's first days, filled by Otto, and with rules."""
    del book
    (tmp_path / "rules").write_text(RULES, "ascii")
    user(OTTO)
    Book(tmp_path / "mill").set_rules(tmp_path / "rules")
    Book(tmp_path / "mill").amend("F-1", "2024-04-02", "1210 t", why="log book")
    return tmp_path / "mill"


def submit(mill: Path) -> str:
    """Submit April, and return the head that an approval names."""
    from plantbal.gates import Gate

    found = Book(mill).submit("2024-04", anyway={gate: "as it is" for gate in Gate})
    assert found.head is not None
    return str(found.head)


def wrong(mill: Path) -> list[str]:
    """What a look at the whole book finds wrong."""
    return [each.said for each in Book(mill).signed() if each.kind is SentenceKind.WRONG]


def test_a_close_by_two(mill: Path, user: As, tmp_path: Path) -> None:
    """Neither closes alone, whatever the login; the third does."""
    with pytest.raises(Fault, match="closing 2024-04 needs an approval .close, anyway"):
        Book(mill).close("2024-04", anyway={each: "x" for each in _gates()})
    user(ANNA)
    head = submit(mill)
    with pytest.raises(SamePerson, match="submitted action 5 yourself"):
        Book(mill).approve(head)
    user(ANNA_TOO)  # the same person at another login
    with pytest.raises(SamePerson, match="submitted action 5 yourself"):
        Book(mill).approve(head)
    user(OTTO)
    with pytest.raises(Fault, match="otto may not approve: these may: anna, paul"):
        Book(mill).approve(head)
    user(4444)
    with pytest.raises(Fault, match="the user 4444 belongs to nobody in rules.toml"):
        Book(mill).approve(head)
    user(PAUL)
    with pytest.raises(Fault, match="nothing with this head waits"):
        Book(mill).approve("0" * 64)
    found = Book(mill).approve(head)
    assert (found.act, found.of, found.by, found.lacking) == ("close", "2024-04", "paul", 0)
    assert Book(mill).status().years[0].periods[0].closed
    assert journal_of(mill)[-1][1:3] == ["close", "2024-04"]
    with pytest.raises(Fault, match="nothing with this head waits"):
        Book(mill).approve(head)
    assert wrong(mill) == [], "a look at the whole finds it in order"
    assert Book(mill).verify().ok


def _gates() -> list[object]:
    from plantbal.gates import Gate

    return list(Gate)


def test_the_last_who_changed_a_figure(mill: Path, user: As, tmp_path: Path) -> None:
    """Can't approve; with `any` nobody who changed one can."""
    user(PAUL)
    Book(mill).amend("F-1", "2024-04-03", "1190 t", why="log book")
    user(ANNA)
    head = submit(mill)
    user(PAUL)
    with pytest.raises(
        SamePerson, match="changed a figure of 2024-04 yourself: action 5 .amend F-1"
    ):
        Book(mill).approve(head)
    user(ANNA)
    Book(mill).reject(head, why="somebody else has to look")
    user(OTTO)
    Book(mill).amend("F-1", "2024-04-01", "1195 t", why="log book")
    user(ANNA)
    head = submit(mill)
    rules = tmp_path / "any"
    rules.write_text('changed = "any"\n' + RULES, "ascii")
    with pytest.raises(Submitted) as waits:
        Book(mill).set_rules(rules)
    user(PAUL)
    Book(mill).approve(str(waits.value.head))
    with pytest.raises(Voided) as voided:
        Book(mill).approve(head)
    assert voided.value.void is Void.FILES, "the rules are others"
    user(ANNA)
    Book(mill).reject(head, why="new rules")
    head = submit(mill)
    user(PAUL)
    with pytest.raises(SamePerson, match="action 5 .amend F-1"):
        Book(mill).approve(head)


def test_when_an_approval_is_void(mill: Path, user: As, tmp_path: Path) -> None:
    """After a change of a figure of its period, and of no other; or of the accounts."""
    user(ANNA)
    head = submit(mill)
    user(OTTO)
    Book(mill).add(folder(tmp_path / "may", month(month="05", last=2) | {"dips": []}))
    shutil.copytree(mill, tmp_path / "copy")
    user(PAUL)
    assert Book(tmp_path / "copy").approve(head).lacking == 0, "May isn't April"
    user(OTTO)
    Book(mill).amend("F-1", "2024-04-02", "1205 t", why="and back")
    Book(mill).amend("F-1", "2024-04-02", "1210 t", why="and back")
    user(PAUL)
    with pytest.raises(Voided) as found:
        Book(mill).approve(head)
    assert found.value.void is Void.FIGURES
    shutil.rmtree(mill)
    shutil.rmtree(tmp_path / "copy")


def test_what_changes_a_closed_period(mill: Path, user: As, tmp_path: Path) -> None:
    """It waits, as it was typed; what is done in the end is what was seen."""
    user(ANNA)
    head = submit(mill)
    user(PAUL)
    Book(mill).approve(head)
    user(OTTO)
    before, asks = text_of(mill / "2024.csv"), Book(mill, withheld=Withheld.TO_SIGN)
    with pytest.raises(Unsigned) as asked:
        asks.amend("F-1", "2024-04-02", "1220 t", why="a")
    assert "\ndeed submit\nact amend\n" in asked.value.signs, "the text that is signed elsewhere"
    with pytest.raises(Fault, match="needs no approval, so there is nothing to sign"):
        asks.next("2024-2")
    assert text_of(mill / "2024.csv") == before and not Book(mill).waiting(), "nothing is done"
    late = folder(tmp_path / "late", {"tickets": [["id", "stream", "first", "amount"]]})
    (late / "tickets.csv").write_text("id,stream,first,amount\nt9,TRUCKS,2024-04-02,10\n", "ascii")
    for act in (
        lambda: Book(mill).amend("F-1", "2024-04-02", "1220 t", why="a"),
        lambda: Book(mill).strike("F-1", "2024-04-03", why="b"),
        lambda: Book(mill).add(late, why="c"),
        lambda: Book(mill).quiet("frozen", "FEED", why="d"),
    ):
        before = text_of(mill / "2024.csv")
        with pytest.raises(Submitted):
            act()
        assert text_of(mill / "2024.csv") == before, "nothing is booked yet"
    waiting = Book(mill).waiting()
    assert [each.proposal.act for each in waiting] == ["amend", "strike", "add", "quiet"]
    assert [each.proposal.wants for each in waiting] == [("amend",)] * 3 + [("anyway",)]
    with pytest.raises(Fault, match="amend F-1_2024-04-02 waits already"):
        Book(mill).amend("F-1", "2024-04-02", "1230 t", why="a")
    with pytest.raises(Fault, match="may not approve"):
        Book(mill).approve(waiting[0].head)
    user(PAUL)
    assert Book(mill).approve(waiting[0].head).act == "amend"
    assert ",1220000000," in text_of(mill / "2024.csv").splitlines()[-1]
    assert journal_of(mill)[-1][0] != "paul", "who changed it is who submitted it"
    with pytest.raises(Voided):
        Book(mill).approve(waiting[1].head)  # the closed April was changed since
    Book(mill).approve(waiting[3].head)
    assert wrong(mill) == []


def test_rules_change_by_the_rules(mill: Path, user: As, tmp_path: Path) -> None:
    """Neither by hand, nor by `accept`, nor by the one who wants others."""
    soft = tmp_path / "soft"
    soft.write_text("[wants]\n", "ascii")
    user(ANNA)
    with pytest.raises(Submitted) as waits:
        Book(mill).set_rules(soft)
    with pytest.raises(SamePerson):
        Book(mill).approve(str(waits.value.head))
    Book(mill).reject(str(waits.value.head), why="no")
    good = (mill / "rules.toml").read_bytes()
    for change in ("written", "gone"):
        if change == "written":
            (mill / "rules.toml").write_text("[wants]\n", "ascii")
        else:
            (mill / "rules.toml").unlink()
        for act in (
            lambda: Book(mill).amend("F-1", "2024-04-01", "9 t", why="x"),
            lambda: Book(mill).accept("rules.toml", why="x"),
            lambda: submit(mill),
            lambda: Book(mill).set_rules(soft),
        ):
            with pytest.raises(Fault, match="rules.toml"):
                act()
        (mill / "rules.toml").write_bytes(good)
    for name in ("journal.csv", "approvals/6.txt"):
        good = (mill / name).read_bytes()
        (mill / name).write_bytes(good[:-9])
        with pytest.raises(Fault):
            Book(mill).accept(name, why="x")
        (mill / name).write_bytes(good)
    (mill / "journal.csv").write_bytes(
        (mill / "journal.csv").read_bytes().rsplit(b"\n", 2)[0] + b"\n"
    )
    with pytest.raises(Fault, match="approvals rest on it"):
        Book(mill).accept("journal.csv", why="x")


def test_a_file_that_was_changed_by_hand(mill: Path, user: As) -> None:
    """It is taken as it is only with an approval; until then every command stops."""
    path = mill / "2024.csv"
    path.write_text(text_of(path).replace("1210000000", "1310000000"), "ascii")
    user(OTTO)
    with pytest.raises(Submitted) as waits:
        Book(mill).accept("2024.csv", why="typed into it")
    with pytest.raises(InputFault):
        Book(mill).amend("F-1", "2024-04-01", "9 t", why="x")
    user(PAUL)
    now = text_of(path)
    path.write_text(now.replace("1310000000", "1410000000"), "ascii")
    with pytest.raises(Voided) as found:
        Book(mill).approve(str(waits.value.head))
    assert found.value.void is Void.FILES
    path.write_text(now, "ascii")
    Book(mill).approve(str(waits.value.head))
    assert Book(mill).verify().ok and wrong(mill) == []
    user(ANNA)
    head = submit(mill)
    user(PAUL)
    Book(mill).approve(head)


def test_estimates(book: Type, user: As, tmp_path: Path) -> None:
    """Up to the share of a flow nobody has to look; above it somebody has to."""
    for share, wants in (("99 %", False), ("20 %", True)):
        mill = tmp_path / "mill"
        rules = tmp_path / "rules"
        rules.write_text(f'[wants]\nestimates = "{share}"\n', "ascii")
        user(ANNA)
        if not wants:
            Book(mill).set_rules(rules)
            work = folder(
                tmp_path / "guess",
                {
                    "estimates": [
                        ["day", "stream", "amount", "error"],
                        ["2024-04-04", "FEED", "1200 t", "50 t"],
                    ]
                },
            )
            Book(mill).add(work)
            shutil.copytree(mill, tmp_path / "copy")
            Book(mill).close("2024-04", anyway={each: "x" for each in _gates()})
            shutil.rmtree(mill)
            shutil.move(tmp_path / "copy", mill)
            continue
        with pytest.raises(Submitted) as waits:
            Book(mill).set_rules(rules)
        user(PAUL)
        Book(mill).approve(str(waits.value.head))
        with pytest.raises(Fault, match="closing 2024-04 needs an approval .estimates"):
            Book(mill).close("2024-04", anyway={each: "x" for each in _gates()})
        head = submit(mill)
        user(OTTO)
        Book(mill).approve(head)


def test_by_a_user_who_vouches(book: Type, user: As, tmp_path: Path) -> None:
    """As a service does: its user acts for people by name, and two of them are two."""
    del book
    mill = tmp_path / "mill"
    (tmp_path / "rules").write_text(
        f"[wants]\nclose = true\n[sign]\nvouching = [{OTTO}]\n", "ascii"
    )
    user(OTTO)
    Book(mill, who="eva").set_rules(tmp_path / "rules")
    given = {gate: "as it is" for gate in _gates()}
    head = str(Book(mill, who="lisa").submit("2024-04", anyway=given).head)  # type: ignore[arg-type]
    with pytest.raises(SamePerson, match="submitted action 4 yourself"):
        Book(mill, who="lisa").approve(head)
    Book(mill, who="paul").approve(head)
    assert wrong(mill) == []
    said = [each.said for each in Book(mill).signed() if each.kind is SentenceKind.GOOD]
    assert any("submitted by lisa as action 4, approved by paul" in each for each in said), said


# ---- keys


@pytest.fixture(name="keys")
def fixture_keys(book: Type, user: As, tmp_path: Path) -> Path:
    """A book whose approvals are signed; keys of anna, paul, and of eva, who has left."""
    del book
    room = tmp_path / "keys"
    days = {"eva": 'valid-after="20200101",valid-before="20240101"'}
    lines = [
        keyring.line(n, keyring.key(room, n), days.get(n, "")) for n in ("anna", "paul", "eva")
    ]
    (tmp_path / "signers").write_text("".join(lines), "ascii")
    keyring.key(room, "stranger")
    (tmp_path / "rules").write_text("[wants]\nclose = true\n[sign]\nkeys = true\n", "ascii")
    user(OTTO)
    Book(tmp_path / "mill").set_rules(tmp_path / "rules", signers=tmp_path / "signers")
    return room


def test_signed(keys: Path, user: As, tmp_path: Path) -> None:
    """By two keys of two people; a key that isn't believed approves nothing."""
    mill = tmp_path / "mill"
    user(ANNA)
    with pytest.raises(Fault, match="this book requires a signature: name your key"):
        submit(mill)
    given = {gate: "as it is" for gate in _gates()}
    found = Book(mill, key=keys / "anna").submit("2024-04", anyway=given)  # type: ignore[arg-type]
    head = str(found.head)
    user(PAUL)
    for name, fault, what in (
        ("anna", SamePerson, "submitted action 4 yourself"),
        ("eva", Fault, "its key was no longer allowed"),
        ("stranger", Fault, "its key belongs to nobody"),
    ):
        with pytest.raises(fault, match=what):
            Book(mill, key=keys / name).approve(head)
    shutil.copytree(mill, tmp_path / "copy")
    Book(mill, key=keys / "paul").approve(head)
    assert wrong(mill) == []
    said = [each.said for each in Book(mill).signed() if each.kind is SentenceKind.GOOD]
    assert any("signed by anna with the key SHA256:" in each for each in said)
    assert any("signed by paul with the key SHA256:" in each for each in said)
    assert any("submitted by anna as action 4, approved by" in each for each in said)
    notes = [each.said for each in Book(mill).signed() if each.kind is SentenceKind.NOTE]
    assert any("no server has stamped its time" in each for each in notes)
    # signed elsewhere, as a browser's user does
    other = tmp_path / "copy"
    text = Book(other).to_sign(head)
    made = sign(text.encode(), keys / "paul", BOOK)
    with pytest.raises(Fault, match="what was signed isn't the text"):
        Book(other).approve(head, record=text.replace("approve", "reject"), signature=made)
    with pytest.raises(Fault, match="it doesn't fit what is signed"):
        Book(other).approve(head, record=text, signature=sign(b"x", keys / "paul", BOOK))
    assert Book(other).approve(head, record=text, signature=made).lacking == 0
    assert wrong(other) == []


def test_submitted_and_rejected_with_a_signature_made_elsewhere(
    keys: Path, user: As, tmp_path: Path
) -> None:
    """The text of a submission and of a rejection is given, signed and taken, for these alone."""
    mill, given = tmp_path / "mill", {gate: "as it is" for gate in _gates()}
    user(ANNA)
    text = Book(mill).close_to_sign("2024-04", anyway=given)  # type: ignore[arg-type]
    made = sign(text.encode(), keys / "anna", BOOK)
    with pytest.raises(Fault, match="what was signed isn't the text"):
        other = {gate: "another reason" for gate in _gates()}
        Book(mill).submit("2024-04", anyway=other, record=text, signature=made)  # type: ignore[arg-type]
    found = Book(mill).submit("2024-04", anyway=given, record=text, signature=made)  # type: ignore[arg-type]
    with pytest.raises(Fault, match="close 2024-04 waits already"):
        Book(mill).close_to_sign("2024-04", anyway=given)  # type: ignore[arg-type]
    head = str(found.head)
    user(PAUL)
    text = Book(mill).to_sign(head, ApprovalDeed.REJECT)
    made = sign(text.encode(), keys / "paul", BOOK)
    with pytest.raises(Fault, match="what was signed isn't the text"):
        Book(mill).approve(head, record=text, signature=made)
    Book(mill).reject(head, why="too early", record=text, signature=made)
    assert Book(mill).waiting() == [] and wrong(mill) == []
    said = [each.said for each in Book(mill).signed() if each.kind is SentenceKind.GOOD]
    assert any("signed by paul with the key SHA256:" in each for each in said)


def test_keys_that_end(keys: Path, user: As, tmp_path: Path) -> None:
    """A key isn't taken out but ended; what it signed is still verified, and nothing new is."""
    mill, given = tmp_path / "mill", {gate: "as it is" for gate in _gates()}
    user(ANNA)
    head = Book(mill, key=keys / "anna").submit("2024-04", anyway=given).head  # type: ignore[arg-type]
    user(PAUL)
    Book(mill, key=keys / "paul").approve(str(head))
    text = (tmp_path / "signers").read_text("ascii")
    fewer = tmp_path / "fewer"
    fewer.write_text("".join(line for line in text.splitlines(True) if "anna" not in line), "ascii")
    with pytest.raises(Fault, match="of anna no longer exists"):
        Book(mill, key=keys / "paul").set_rules(signers=fewer)
    revoked = tmp_path / "revoked"
    shutil.copy(keys / "anna.pub", revoked)
    with pytest.raises(Submitted) as waits:
        Book(mill, key=keys / "paul").set_rules(revoked=revoked)
    user(ANNA)
    Book(mill, key=keys / "anna").approve(str(waits.value.head))
    (mill / "plant.csv").write_text(text_of(mill / "plant.csv") + "unit,X\n", "ascii")
    assert any("its key is revoked" in each for each in wrong(mill)), "all that it has signed"
    with pytest.raises(Fault, match="its key is revoked"):
        Book(mill, key=keys / "anna").accept("plant.csv", why="x")


def test_time_stamps(book: Type, user: As, tmp_path: Path) -> None:
    """The server that the rules name stamps each signature; another authority isn't believed."""
    mill, room, given = tmp_path / "mill", tmp_path / "keys", {gate: "x" for gate in _gates()}
    lines = [keyring.line(name, keyring.key(room, name)) for name in ("anna", "paul")]
    (tmp_path / "signers").write_text("".join(lines), "ascii")
    own, other = keyring.authority(tmp_path / "tsa"), keyring.authority(tmp_path / "other")
    with keyring.stamp_server(tmp_path / "tsa") as server:
        rules = f'[wants]\nclose = true\n[sign]\nkeys = true\nstamps = "{server}"\n'
        (tmp_path / "rules").write_text(rules, "ascii")
        user(OTTO)
        Book(mill).set_rules(tmp_path / "rules", signers=tmp_path / "signers")
        user(ANNA)
        head = Book(mill, key=room / "anna").submit("2024-04", anyway=given).head  # type: ignore[arg-type]
        user(PAUL)
        Book(mill, key=room / "paul").approve(str(head))
    said = [(each.kind, each.said) for each in Book(mill).signed(own) if "stamp" in each.said]
    assert len(said) == 2 and all(kind is SentenceKind.GOOD for kind, _ in said), said
    assert any("isn't believed" in each.said for each in Book(mill).signed(other))


# ---- by other means than the commands


def test_a_look_at_what_was_written_by_other_means(mill: Path, user: As, tmp_path: Path) -> None:
    """The commands aren't asked: the journal is made anew with a chain that fits."""
    user(ANNA)
    head = submit(mill)
    user(PAUL)
    Book(mill).approve(head)

    def anew(change: Callable[[list[dict[str, object]]], None]) -> list[str]:
        copy = tmp_path / "copy"
        shutil.rmtree(copy, ignore_errors=True)
        shutil.copytree(mill, copy)
        rows, _ = read_journal("x", text_of(copy / "journal.csv"))
        values = [dict(vars(line)) for line in rows]
        change(values)
        made = chained(type(rows[0])(**each) for each in values)  # type: ignore[arg-type]
        (copy / "journal.csv").write_text(HEAD_TEXT + "".join(each.text for each in made), "utf-8")
        (copy / ".checks").unlink()
        assert Book(copy).status(), "the chain fits"
        return wrong(copy)

    def other_user(values: list[dict[str, object]]) -> None:
        values[5]["user"] = "paul (1001)"

    def no_record(values: list[dict[str, object]]) -> None:
        files = values[5]["files"]
        assert isinstance(files, dict)
        values[5]["files"] = {n: k for n, k in files.items() if not n.startswith("approvals/")}

    def earlier(values: list[dict[str, object]]) -> None:
        values[5]["when"] = "2001-01-01T00:00:00Z"

    for change, what in (
        (other_user, "its record is of another user, 1002"),
        (no_record, "nobody has approved it"),
        (earlier, "isn't between the actions"),
        (lambda values: values.pop(3), "its record is of another action"),
    ):
        assert any(what in each for each in anew(change)), (what, anew(change))

    store = Store(mill)  # the guard is taken out
    from plantbal.book.actions import Action
    from plantbal.book.journal import Act
    from plantbal.book.years import Years

    with store.opened():
        ledger = Years(store).of_period("2024-04")
        ledger.put("amend", "F-1_2024-04-01", "900000000", "1", "x")
        action = Action(Act.AMEND, "F-1_2024-04-01", cleared=True)
        action.add(ledger)
        store.do(action)
    assert any("nobody has approved it" in each for each in wrong(mill))


def test_forms(tmp_path: Path) -> None:
    """Rules, records and proposals are of their forms, or are refused with what is wrong."""
    people = (
        '[people.a]\nusers = [1]\nmay = ["submit"]\n[people.b]\nusers = [{}]\nmay = ["approve"]\n'
    )
    for text, what in (
        ("x", "Expected"),
        ("colour = 1", "colour isn't a rule"),
        ("approvers = 0", "isn't a number from 1"),
        ("approvers = true", "isn't a number from 1"),
        ('changed = "none"', "isn't one of last, any"),
        ('[wants]\nestimates = "much"', "isn't a share"),
        ("[wants]\nclose = 1", "isn't true or false"),
        ('[sign]\nstamps = "file:///x"', "isn't the address"),
        ('[people.a]\nmay = ["all"]', "isn't a list of submit, approve"),
        ('[people."a b"]\nmay = []', "isn't a person"),
        (people.format(1), "the user 1 is of a and of b"),
        ("approvers = 2\n" + people.format(2), "nothing could be approved"),
        ("[sign]\nvouching = [1]\n" + people.format(2), "vouches for others"),
    ):
        with pytest.raises(InputFault, match=what):
            read_rules("rules.toml", text)
    rules = read_rules("rules.toml", '[wants]\nestimates = "2.5 %"\n' + people.format(2))
    assert rules.wants == frozenset() and rules.estimates is not None
    assert float(rules.estimates) == 0.025 and rules.who(2) == "b" and Want.RULES == "rules"
    for text in ("", "x", "{}", "[1]", json.dumps({"act": "close", "of": "x"})):
        with pytest.raises(InputFault):
            SubmittedMonth.read("x.json", text)
        with pytest.raises(InputFault):
            ApprovalRecord.read("x.txt", text)


def test_by_commands(mill: Path, user: As, say: Desk, tmp_path: Path) -> None:
    """The same by what is typed: the head that is shown is the one that is named."""

    def typed(*words: object) -> Said:
        return say("book", *words, "--book", mill)

    user(ANNA)
    assert "needs an approval: amend, anyway, close, estimates" in typed("rules").out
    said = typed("close", "2024-04", *ANYWAY)
    assert said.status == 1 and "plantbal-desk book submit 2024-04" in said.err
    said = typed("submit", "2024-04", *ANYWAY)
    assert said.status == 0 and "2024-04 is submitted as action 5" in said.out
    head = said.out.splitlines()[-1].removeprefix("head ")
    shown = typed("submitted", "--report", tmp_path / "report.csv").out
    assert f"  head {head}\n" in shown and "5: close 2024-04" in shown
    assert say("check", tmp_path / "report.csv").status == 0
    user(PAUL)
    said = typed("approve", "--head", head)
    assert (said.status, said.out.splitlines()[0]) == (
        0,
        "close 2024-04 is approved by paul, and done",
    )
    user(OTTO)
    said = typed("amend", "F-1", "2024-04-02", "1220 t", "--why", "x")
    assert said.status == 1 and "waits for an approval by somebody else (amend)" in said.err
    head = typed("submitted").out.splitlines()[-1].removeprefix("  head ")
    user(PAUL)
    assert typed("approve", "--head", head, "--text", tmp_path / "text").status == 0
    assert "deed approve" in text_of(tmp_path / "text")
    assert typed("reject", "--head", head, "--why", "no").status == 0
    assert typed("submitted").out == "nothing waits for an approval\n"
    assert typed("signed").status == 0
