"""Mails about nights: what they say, when none goes out, and servers that don't take them."""

from __future__ import annotations

import email
import json
import socket
from collections.abc import Iterator
from datetime import datetime, timezone
from email.message import EmailMessage
from email.policy import default
from pathlib import Path
from typing import Any

import pytest
from aiosmtpd.controller import Controller
from conftest import Desk

from plantbal.faults import Fault, Hindered
from plantbal.fleet.letter import Letter, NightFile, letter_of
from plantbal.fleet.mail import LetterRefused, address_of, message_of, send

NOW = datetime(2026, 11, 30, 6, tzinfo=timezone.utc)
TO = "accounts@example.org"


def night_of(**given: object) -> dict[str, object]:
    """A night of three plants, of which one wants a person."""
    sites: list[dict[str, object]] = [
        {"site": "north", "look": True, "why": ["north: 1 row is refused", "north: and so on"]},
        {"site": "south", "look": False, "why": []},
        {"site": "west", "look": False, "why": []},
    ]
    found: dict[str, object] = {"night": "2026-11-30", "ended": "2026-11-30T03:10:00+00:00"}
    return {**found, "status": 1, "plants": 3, "wanting": 1, "sites": sites, **given}


GOOD = {"status": 0, "wanting": 0, "sites": []}


def told_of(tmp_path: Path, **given: object) -> NightFile:
    path = tmp_path / "night.json"
    path.write_text(json.dumps(night_of(**given)))
    return NightFile.read(path)


# What is given of the night, the status that is known beside it, the age, the subject, the text.
LETTERS: list[tuple[dict[str, object], int | None, float | None, str, list[str]]] = [
    ({}, None, None, "plantbal 2026-11-30: 1 needs a person of 3 plants", ["1 row is refused"]),
    ({}, 1, None, "plantbal 2026-11-30: 1 needs a person of 3 plants", ["and so on"]),
    (GOOD, None, None, "", []),
    (GOOD, 0, None, "", []),
    (GOOD, 3, None, "plantbal: the night failed with status 3", ["journalctl", "2026-11-30"]),
    (GOOD, 137, None, "plantbal: the night failed with status 137", ["which it never ends with"]),
    (GOOD, None, 2 * 3600, "plantbal: no night since 2026-11-30 03:10", ["for 3 hours"]),
    (GOOD, None, 4 * 3600, "", []),
    ({**GOOD, "status": 3}, None, None, "plantbal 2026-11-30: the night ended with status 3", []),
]


@pytest.mark.parametrize("given, status, age, subject, said", LETTERS)
def test_letters(
    tmp_path: Path,
    given: dict[str, object],
    status: int | None,
    age: float | None,
    subject: str,
    said: list[str],
) -> None:
    letter = letter_of(told_of(tmp_path, **given), status, age, NOW)
    assert (letter.subject if letter else "") == subject
    for text in said:
        assert letter is not None and text in letter.text, (text, letter)


def test_a_night_of_many_plants(tmp_path: Path) -> None:
    """A letter names the first plants, says how many more there are, and keeps each in its lines."""
    sites = [{"site": f"p{k}", "look": True, "why": ["x\r\nBcc: a@b.org"] * 9} for k in range(250)]
    letter = letter_of(told_of(tmp_path, sites=sites, wanting=250, plants=250), None, None, NOW)
    assert letter is not None and "and 50 more plants" in letter.text
    assert "p0: and more reasons, which the page has" in letter.text
    assert "\nBcc:" not in letter.text and r"x\r\nBcc: a@b.org" in letter.text
    assert len(letter.text) < 60_000


@pytest.mark.parametrize(
    "text", ["", "[]", "{}", '{"night": 1, "ended": "now"}', "[" * 9999, "\xff", '{"ended": 1}']
)
def test_what_is_no_night(tmp_path: Path, text: str) -> None:
    (tmp_path / "night.json").write_text(text, encoding="latin-1")
    with pytest.raises(Fault, match="night.json"):
        NightFile.read(tmp_path / "night.json")


# ---- sending


class Server:
    """A server of mail that keeps what it takes, and refuses what it is told to."""

    def __init__(self) -> None:
        self.took: list[EmailMessage] = []
        self.refuses: dict[str, list[str]] = {}  # of a receiver: what is said to it, one a try

    async def handle_RCPT(
        self, server: Any, session: Any, envelope: Any, address: str, options: Any
    ) -> str:
        """Take a receiver, or say why not."""
        answers = self.refuses.get(address)
        if answers:
            return answers.pop(0)
        envelope.rcpt_tos.append(address)
        return "250 OK"

    async def handle_DATA(self, server: Any, session: Any, envelope: Any) -> str:
        """Keep a message."""
        self.took.append(email.message_from_bytes(envelope.content, policy=default))  # type: ignore
        return "250 OK"


@pytest.fixture(name="server")
def fixture_server() -> Iterator[tuple[Server, str]]:
    """A real server of SMTP on a free port, and how it is named."""
    with socket.socket() as free:
        free.bind(("127.0.0.1", 0))
        port = free.getsockname()[1]
    server = Server()
    control = Controller(server, hostname="127.0.0.1", port=port)
    control.start()
    try:
        yield server, f"127.0.0.1:{port}"
    finally:
        control.stop()


@pytest.fixture(name="nights")
def fixture_nights(tmp_path: Path) -> Path:
    """A folder of nights whose last one wants a person."""
    (tmp_path / "night.json").write_text(json.dumps(night_of()))
    return tmp_path


def test_a_mail_comes(say: Desk, server: tuple[Server, str], nights: Path) -> None:
    found = say("tell", nights, "--to", TO, "--to", "x@example.org", "--smtp", server[1])
    assert found.status == 0, found.err
    (mail,) = server[0].took
    assert mail["To"] == f"{TO}, x@example.org" and mail["Auto-Submitted"] == "auto-generated"
    assert mail["Subject"] == "plantbal 2026-11-30: 1 needs a person of 3 plants"
    assert "north: 1 row is refused\n" in mail.get_content().replace("\r\n", "\n")
    assert "south" not in mail.get_content()


def test_a_good_night_is_not_told(say: Desk, server: tuple[Server, str], nights: Path) -> None:
    (nights / "night.json").write_text(json.dumps(night_of(**GOOD)))
    for words, count in (((), 0), (("--always",), 1), (("--status", "3"), 2), (("--age", "1h"), 3)):
        found = say("tell", nights, "--to", TO, "--smtp", server[1], *words)
        assert (found.status, len(server[0].took)) == (0, count), (words, found)
    assert server[0].took[2]["Subject"].startswith("plantbal: no night since 2026-11-30")


def test_the_status_comes_from_systemd(
    say: Desk, nights: Path, monkeypatch: pytest.MonkeyPatch
) -> None:
    (nights / "night.json").write_text(json.dumps(night_of(**GOOD)))
    for said, told in (("3", True), ("0", False), ("", False), ("x", False)):
        monkeypatch.setenv("MONITOR_EXIT_STATUS", said)
        found = say("tell", nights)
        assert (found.status, "failed with status 3" in found.out) == (0, told), said


def test_a_server_that_is_busy(say: Desk, server: tuple[Server, str], nights: Path) -> None:
    """It is asked again, and each try is said."""
    server[0].refuses[TO] = ["451 later", "450 later still"]
    found = say("tell", nights, "--to", TO, "--smtp", server[1], "--pause", "0.01")
    assert (found.status, len(server[0].took)) == (0, 1), found.err
    for text in (
        "try 1 of 5: ",
        "(451 later); again in 0.01 s",
        "(450 later still); again in 0.02",
    ):
        assert text in found.err, text


def test_a_server_that_refuses(say: Desk, server: tuple[Server, str], nights: Path) -> None:
    """No other try is made; what the mail has is in the log, and the others got it."""
    server[0].refuses[TO] = ["550 no such user"]
    found = say("tell", nights, "--to", TO, "--smtp", server[1])
    assert found.status == 3 and "try 1" not in found.err and not server[0].took
    assert "(550 no such user)" in found.err and "north: 1 row is refused" in found.err
    server[0].refuses[TO] = ["550 no such user"]
    found = say("tell", nights, "--to", TO, "--to", "x@example.org", "--smtp", server[1])
    assert found.status == 3 and "and took it for the others" in found.err
    assert len(server[0].took) == 1


def test_no_server(say: Desk, nights: Path) -> None:
    with socket.socket() as held:  # nobody listens on a port that is bound alone
        held.bind(("127.0.0.1", 0))
        port = held.getsockname()[1]
        words = ("--smtp", f"127.0.0.1:{port}", "--tries", "2", "--pause", "0.01")
        found = say("tell", nights, "--to", TO, *words)
    assert found.status == 3 and "try 1 of 2" in found.err and "after 2 tries" in found.err
    assert "Connection refused" in found.err and "1 row is refused" in found.err


def test_pauses_double() -> None:
    """After 30, 60, 120 s; a letter that is never taken is told at the end."""
    waited: list[float] = []

    class Busy:
        """Never takes a letter."""

        def send(self, message: EmailMessage) -> None:
            """Refuse it."""
            raise LetterRefused("busy", may_help=True)

    message = message_of(Letter("s", "t"), address_of("a@b.org"), [address_of(TO)])
    with pytest.raises(Hindered, match="isn't sent after 4 tries: busy"):
        send(Busy(), message, tries=4, pause=30, say=lambda _: None, wait=waited.append)
    assert waited == [30, 60, 120]


def test_sendmail(say: Desk, server: tuple[Server, str], nights: Path, tmp_path: Path) -> None:
    """By msmtp, which has the words of sendmail and hands the letter to a server."""
    host, _, port = server[1].partition(":")
    config = tmp_path / "msmtprc"
    config.write_text(f"account default\nhost {host}\nport {port}\nfrom a@b.org\n")
    sendmail = tmp_path / "sendmail"
    sendmail.write_text(f'#!/bin/sh\nexec msmtp -C {config} "$@"\n')
    sendmail.chmod(0o755)
    found = say("tell", nights, "--to", TO, "--sendmail", sendmail)
    assert (found.status, len(server[0].took)) == (0, 1), found.err
    assert server[0].took[0]["To"] == TO


@pytest.mark.parametrize(
    "script, said",
    [
        ("exit 75", "after 2 tries"),
        ("echo 'no such host' >&2; exit 68", "status 68: no such host"),
        (None, "sendmail: install"),
    ],
)
def test_a_sendmail_that_fails(
    say: Desk, nights: Path, tmp_path: Path, script: str | None, said: str
) -> None:
    sendmail = tmp_path / "sendmail"
    if script is not None:
        sendmail.write_text(f"#!/bin/sh\ncat >/dev/null\n{script}\n")
        sendmail.chmod(0o755)
    words = ("--sendmail", sendmail, "--tries", "2", "--pause", "0.01")
    found = say("tell", nights, "--to", TO, *words)
    assert found.status == 3 and said in found.err and "1 row is refused" in found.err, found.err


def test_nights_that_are_not_there(say: Desk, tmp_path: Path) -> None:
    """A folder without a night is told of, since the night failed; no folder at all is a fault."""
    found = say("tell", tmp_path, "--status", "3")
    assert found.status == 0 and "no night is known" in found.out and "status 3" in found.out
    assert say("tell", tmp_path / "none").status == 3
    (tmp_path / "night.json").write_text("{")
    found = say("tell", tmp_path)
    assert found.status == 0 and "this isn't the night.json of a fleet" in found.out


def test_words(say: Desk, nights: Path, tmp_path: Path) -> None:
    secret = tmp_path / "secret"
    secret.write_text("x\n")
    secret.chmod(0o600)
    for words, said in (
        (("--to", "nobody"), "'nobody' isn't an address"),
        (("--to", "a b@c.org"), "isn't an address"),
        (("--to", "a@b.org\nBcc: c@d.org"), "isn't an address"),
        (("--to", TO, "--from", "x"), "'x' isn't an address"),
        (("--to", TO, "--smtp", "h:0"), "has no port"),
        (("--to", TO, "--smtp", "h", "--sendmail", "s"), "two ways"),
        (("--to", TO, "--user", "u"), "--user is for a server"),
        (("--to", TO, "--smtp", "h", "--user", "u"), "would cross the network in plain text"),
        (("--to", TO, "--smtp", "h", "--user", "u", "--security", "tls"), "go together"),
        (("--age", "1"), "isn't an age"),
        (("--tries", "0"), "whole number"),
    ):
        found = say("tell", nights, *words)
        assert found.status == 2 and said in found.err, (words, found)
    secret.chmod(0o644)
    signing = ("--smtp", "h", "--security", "tls", "--user", "u", "--password-file", secret)
    found = say("tell", nights, "--to", TO, *signing)
    assert found.status == 1 and "everybody may read this password" in found.err
