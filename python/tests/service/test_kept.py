"""What the service keeps: backups by age and by gpg, restored into an empty place by one command; its unit."""

from __future__ import annotations

import os
import re
import shutil
import subprocess
import sys
from collections.abc import Iterator
from pathlib import Path

import keyring
import pytest
import services

TOP = services.TOP
_CODE = """
from pathlib import Path; from plantbal import Book
from plantbal.gates import Gate
from plantbal.workbook.options import ReadingOptions
room = Path({room!r}); top = Path({top!r}) / 'examples' / 'month_end'
book = Book({book!r}, who='eva'); de = ReadingOptions('de')
book.begin('2023-24', top / 'plant', reading=de); book.add(top / 'april', reading=de)
book.amend('FI-302', '2024-04-18', '12188 t', why='a digit short')
book.set_rules(room / 'rules', signers=room / 'signers')
why = {{gate: 'as it is' for gate in Gate}}
head = Book({book!r}, who='lisa', key=room / 'keys' / 'lisa').submit('2024-04', anyway=why).head
Book({book!r}, who='paul', key=room / 'keys' / 'paul').approve(str(head))
"""


@pytest.fixture(name="office", scope="module")
def fixture_office() -> Iterator[services.Service]:
    """A service with a mill, and an engineer."""
    office = services.Service('[sign_in]\nsecond = "none"\n')
    try:
        mill(office, "mill")
        office.person("engineer", "engineer", "clerk")
        yield office
    finally:
        office.end()


def mill(office: services.Service, name: str) -> Path:
    """A plant whose April was closed by two with their keys."""
    book = office.books / name
    keys = [keyring.key(office.room / "keys", each) for each in ("lisa", "paul")]
    (office.room / "signers").write_text("".join(keyring.line(key.name, key) for key in keys))
    rules = f"[wants]\nclose = true\n[sign]\nkeys = true\nvouching = [{os.geteuid()}]\n"
    (office.room / "rules").write_text(rules)
    code = _CODE.format(top=str(TOP), book=str(book), room=str(office.room))
    subprocess.run([sys.executable, "-c", code], env=office.here, check=True)
    office.plant(name, book)
    return book


def files_of(folder: Path) -> dict[str, bytes]:
    return {
        str(path.relative_to(folder)): path.read_bytes()
        for path in folder.rglob("*")
        if path.is_file() and path.name != ".lock"
    }


# ---- backup


def test_backup_and_restore(office: services.Service, tmp_path: Path) -> None:
    """Into an empty service by one command: the same bytes, and everything verified."""
    done = services.run(["age-keygen", "-o", tmp_path / "key"])
    recipient = re.findall(r"age1[0-9a-z]+", done.stderr + (tmp_path / "key").read_text())[0]
    said = office.office("backup", tmp_path / "plain.tar")
    assert "of 1 books and the database" in said and "it isn't encrypted" in said
    said = office.office("backup", tmp_path / "secret.age", "--to", recipient)
    assert "isn't encrypted" not in said
    assert b"FI-302" in (tmp_path / "plain.tar").read_bytes()
    assert b"FI-302" not in (tmp_path / "secret.age").read_bytes()
    assert "already exists" in office.office("backup", tmp_path / "plain.tar", allowed=(1,))
    assert office.office("restore", tmp_path / "plain.tar", allowed=(1,)), "it isn't empty"
    other = services.Service('[sign_in]\nsecond = "none"\n', office.database)
    try:
        said = other.office("restore", tmp_path / "secret.age", allowed=(1,))
        assert "use --identity" in said
        for name, data in damaged((tmp_path / "plain.tar").read_bytes()).items():
            (tmp_path / "damaged").write_bytes(data)
            said = other.office("restore", tmp_path / "damaged", allowed=(1,))
            assert "Traceback" not in said and not list(other.books.iterdir()), (name, said)
        said = other.office("restore", tmp_path / "secret.age", "--identity", tmp_path / "key")
        verified(said)
        assert files_of(other.books / "mill") == files_of(office.books / "mill")
        people = ("psql", "-Atc", "SELECT username, password FROM people_person ORDER BY username")
        assert office.database.call(*people, office.name) == office.database.call(
            *people, other.name
        )
        said = other.office("check")
        assert "wrong:" not in said and "the database is that of this version" in said
        year = other.books / "mill" / "2023-24.csv"
        year.write_bytes(year.read_bytes().replace(b"12188", b"12189"))
        said = other.office("check", allowed=(1,))
        assert "wrong: " in said and "2023-24.csv" in said
    finally:
        other.end()


def verified(said: str) -> None:
    """All of a restored backup was looked at: the chain, the signatures, and the program run again."""
    assert "good: the digests of its" in said and "wrong:" not in said, said
    assert "files are as the journal says" in said
    assert "signed by lisa with the key SHA256:" in said and "approved by paul" in said
    assert "reports calculated anew: 1" in said


@pytest.fixture(name="gpg")
def fixture_gpg(monkeypatch: pytest.MonkeyPatch) -> Iterator[str]:
    """A key of gpg in a folder of its own; whose it is."""
    room, name = services.new_room(), "backup@mill.example"
    monkeypatch.setenv("GNUPGHOME", str(room))
    words = ["gpg", "--batch", "--quiet", "--passphrase", "", "--quick-generate-key", name]
    done = services.run([*words, "default", "default", "never"])
    assert done.returncode == 0, done.stderr
    yield name
    services.run(["gpgconf", "--kill", "all"])
    services.removed(room)


def test_backup_by_gpg(
    office: services.Service, tmp_path: Path, gpg: str, monkeypatch: pytest.MonkeyPatch
) -> None:
    """For a key of gpg: whoever has it restores, and nobody else."""
    file = tmp_path / "secret.gpg"
    assert "isn't encrypted" not in office.office("backup", file, "--to", gpg)
    assert b"FI-302" not in file.read_bytes() and not list(tmp_path.glob(".*"))
    said = office.office("backup", tmp_path / "none", "--to", "nobody@mill.example", allowed=(1,))
    assert "can't be encrypted" in said and not (tmp_path / "none").exists()
    other = services.Service('[sign_in]\nsecond = "none"\n', office.database)
    try:
        with monkeypatch.context() as elsewhere:
            elsewhere.setenv("GNUPGHOME", str(other.room))
            said = other.office("restore", file, allowed=(1,))
            assert "can't be" in said and not list(other.books.iterdir()), said
        verified(other.office("restore", file))
        assert files_of(other.books / "mill") == files_of(office.books / "mill")
    finally:
        other.end()


def damaged(data: bytes) -> dict[str, bytes]:
    """A backup that was cut, changed, or made by somebody else."""
    at = data.index(b"12188")
    return {
        "cut": data[: len(data) // 2],
        "a digit": data[:at] + b"9" + data[at + 1 :],
        "another path": data.replace(b"books/0/plant.csv", b"books/../plant.cs"),
        "an outer path": data.replace(b"books/0/plant.csv", b"/etc/0/plant.csv0"[:17]),
        "garbage": b"hello" * 300,
        "nothing": b"",
    }


# ---- the unit and the proxies


def test_nginx_is_put_in_front(tmp_path: Path) -> None:
    """The site has the name and a certificate for it, as nginx takes it; one that is there stays."""
    from plantbal_office.service.proxy import put_in_front

    for name in ("sites-available", "sites-enabled"):
        (tmp_path / "nginx" / name).mkdir(parents=True)
    (tmp_path / "plantbal-office").mkdir()
    site = TOP / "packaging" / "office" / "nginx.conf"
    assert len(list(put_in_front("books.mill.example", tmp_path, site))) == 2
    enabled = tmp_path / "nginx" / "sites-enabled" / "plantbal-office"
    text = enabled.read_text("utf-8")
    assert text.count("server_name books.mill.example;") == 2 and "accounts" not in text
    words = ["openssl", "x509", "-noout", "-checkhost", "books.mill.example", "-in"]
    assert "does match" in services.run([*words, tmp_path / "plantbal-office" / "tls.pem"]).stdout
    assert (tmp_path / "plantbal-office" / "tls.key").stat().st_mode & 0o077 == 0
    conf = tmp_path / "nginx.conf"
    conf.write_text(f"pid {tmp_path}/pid;\nevents {{}}\nhttp {{\ninclude {enabled};\n}}\n")
    done = services.run(["/usr/sbin/nginx", "-t", "-q", "-c", conf])
    assert done.returncode == 0, done.stderr
    assert not list(put_in_front("other.example", tmp_path, site))
    assert enabled.read_text("utf-8") == text


def test_the_unit() -> None:
    """The sandbox of the unit is below 2.0, by systemd itself; both proxies take their files."""
    office = TOP / "packaging" / "office"
    done = services.run(
        [
            "systemd-analyze",
            "security",
            "--offline=true",
            "--threshold=20",
            office / "plantbal-office.service",
        ]
    )
    assert done.returncode == 0, done.stdout[-300:]
    if shutil.which("caddy"):
        done = services.run(
            ["caddy", "adapt", "--config", office / "Caddyfile", "--adapter", "caddyfile"]
        )
        assert done.returncode == 0, done.stderr
