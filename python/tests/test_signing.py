"""Signatures by OpenSSH and minisign, and time stamps by OpenSSL: whose they are, and when."""

from __future__ import annotations

import datetime
import subprocess
from pathlib import Path

import keyring
import pytest

from plantbal.faults import Fault, InputFault
from plantbal.signing.signatures import BOOK, BUNDLE, Doubt, Keys, sign, verified
from plantbal.signing.signers import lost_keys, read_signers
from plantbal.signing.stamps import stamp, stamped

NOW = datetime.datetime.now(datetime.timezone.utc)
DATA = b"plantbal record 1\nnumber 17\n"


def at(text: str) -> datetime.datetime:
    return datetime.datetime.fromisoformat(text).replace(tzinfo=datetime.timezone.utc)


def test_whose_a_signature_is(tmp_path: Path) -> None:
    """A key counts within its days, for its use, unless it is revoked, and for its text alone."""
    anna, paul = keyring.key(tmp_path, "anna"), keyring.key(tmp_path, "paul", "ecdsa")
    days = 'valid-after="20240101",valid-before="20250101"'
    text = "# who signs\n" + keyring.line("anna@mill", anna, days)
    signers = read_signers("allowed_signers", text)
    when = at("2024-06-01")
    made, other = sign(DATA, anna, BOOK), sign(DATA, paul, BOOK)
    public = anna.with_name("anna.pub").read_text("ascii")
    narrow = read_signers("x", keyring.line("anna@mill", anna, 'namespaces="plantbal-bundle"'))
    for name, data, signature, keys, use, time, doubt in (
        ("good", DATA, made, Keys(signers), BOOK, when, None),
        ("another text", DATA + b" ", made, Keys(signers), BOOK, when, Doubt.WRONG),
        ("nobody's key", DATA, other, Keys(signers), BOOK, when, Doubt.UNKNOWN),
        ("for another use", DATA, made, Keys(signers), BUNDLE, when, Doubt.WRONG),
        ("too early", DATA, made, Keys(signers), BOOK, at("2023-12-31"), Doubt.NOT_YET),
        ("too late", DATA, made, Keys(signers), BOOK, at("2025-01-01"), Doubt.ENDED),
        ("revoked", DATA, made, Keys(signers, public), BOOK, when, Doubt.REVOKED),
        ("not for books", DATA, made, Keys(narrow), BOOK, when, Doubt.WRONG_USE),
        ("no signature", DATA, "hello", Keys(signers), BOOK, when, Doubt.NO_SIGNATURE),
        ("cut", DATA, made[:60], Keys(signers), BOOK, when, Doubt.NO_SIGNATURE),
        ("garbage", DATA, made.replace("U1NI", "AAAA"), Keys(signers), BOOK, when, "no-signature"),
    ):
        found = verified(data, signature, keys, use, time)
        assert found.doubt == doubt, (name, found)
        assert (found.name == "anna@mill") == (doubt is None), name
    said = verified(DATA, made, Keys(signers), BOOK, when)
    listed = subprocess.run(["ssh-keygen", "-l", "-f", anna], capture_output=True, check=True)
    assert said.key == listed.stdout.decode().split(" ")[1], "the short name is that of ssh-keygen"
    assert "allowed since 2024-01-01, up to 2025-01-01" in said.said()


def test_by_minisign(tmp_path: Path) -> None:
    """The same for a key of minisign; its trusted comment is the use."""
    private, public = keyring.minisign_key(tmp_path, "anna")
    line = f'anna@mill valid-after="20240101" minisign {public}\n'
    keys = Keys(read_signers("allowed_signers", line))
    made = sign(DATA, private, BOOK)
    found = verified(DATA, made, keys, BOOK, NOW)
    assert (found.doubt, found.name) == (None, "anna@mill")
    assert found.key == keys.signers[0].fingerprint
    assert verified(DATA + b"x", made, keys, BOOK, NOW).doubt is Doubt.WRONG
    assert verified(DATA, made, keys, BUNDLE, NOW).doubt is Doubt.WRONG_USE
    forged = made.replace("comment: plantbal-book", "comment: plantbal-bundle")
    assert verified(DATA, forged, keys, BUNDLE, NOW).doubt is Doubt.WRONG
    assert verified(DATA, made, Keys(keys.signers, found.key), BOOK, NOW).doubt is Doubt.REVOKED
    assert verified(DATA, made, keys, BOOK, at("2023-01-01")).doubt is Doubt.NOT_YET


def test_lines_that_are_refused(tmp_path: Path) -> None:
    """A name is one person, a key is one person's, and no key is lost."""
    anna, paul = keyring.key(tmp_path, "anna"), keyring.key(tmp_path, "paul")
    good = keyring.line("anna@mill", anna)
    kind, data = good.split(" ")[1:]
    for text, what in (
        (f"*@mill {kind} {data}", "the name of one person"),
        (f"anna,paul {kind} {data}", "the name of one person"),
        (f"anna cert-authority {kind} {data}", "its options aren't"),
        (f'anna valid-after="soon" {kind} {data}', "isn't a day"),
        (f'anna valid-after="20241399" {kind} {data}', "does not match|unconverted"),
        (f'anna colour="red" {kind} {data}', "option colour isn't taken"),
        (f"anna {kind}", "a line has a name"),
        (f"anna {kind} !!!!", "isn't one of a .pub file"),
        (f"anna ssh-rsa {data}", "isn't one of the kind ssh-rsa"),
        ("anna minisign RWQ7lCeZ", "isn't one of the kind minisign"),
        (good + keyring.line("otto", anna), "anna@mill and otto have the same key"),
    ):
        with pytest.raises(InputFault, match=what):
            read_signers("allowed_signers", text)
    before = read_signers("x", good + keyring.line("paul", paul))
    ended = read_signers("x", keyring.line("anna@mill", anna, 'valid-before="20250101"'))
    assert [each.name for each in lost_keys(before, ended)] == ["paul"]
    for private in (tmp_path / "nobody", tmp_path / "anna.txt"):
        (tmp_path / "anna.txt").write_text("x", "ascii")
        with pytest.raises(Fault):
            sign(DATA, private, BOOK)


def test_time_stamps(tmp_path: Path) -> None:
    """A server that the plant names says when; another's, or of another text, isn't believed."""
    room = tmp_path / "tsa"
    certificate, other = keyring.authority(room), keyring.authority(tmp_path / "other")
    with keyring.stamp_server(room) as server:
        token = stamp(DATA, server)
        now = datetime.datetime.now(datetime.timezone.utc)
    found = stamped(DATA, token, certificate)
    assert found.when is not None and abs(found.when - now) < datetime.timedelta(minutes=5)
    assert stamped(DATA + b"x", token, certificate).when is None
    assert stamped(DATA, token, other).when is None
    assert stamped(DATA, "AAAA", certificate).when is None
    with pytest.raises(Fault, match="doesn't answer"):
        stamp(DATA, server)
    with pytest.raises(Fault, match="isn't a time stamp server"):
        stamp(DATA, "file:///etc/passwd")
