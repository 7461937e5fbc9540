"""What a backup is: a tar with the database, the books, the files of the desk, and what it has.

`manifest.json` has each file's SHA-256, and of each book the head of its chain. The tar may be
encrypted by age or by gpg as it is written; so no plain copy of it is ever on the disk.
"""

from __future__ import annotations

import hashlib
import io
import json
import re
import shutil
import subprocess
import tarfile
from collections.abc import Iterator, Sequence
from contextlib import contextmanager
from dataclasses import asdict, dataclass
from pathlib import Path
from typing import IO, Any

from plantbal.faults import Fault, InputFault, Place, ToolMissing
from plantbal.limits import INPUT_BYTES

MANIFEST, DATABASE = "manifest.json", "database.dump"
VERSION = 1
_NAME = re.compile(r"(?:books/[0-9]{1,6}|files|etc)/[^\0]{1,900}|database\.dump|manifest\.json")
_AGE = re.compile(r"age1[0-9a-z]{20,}")
_MAGIC_AGE, _MAGIC_PGP = b"age-encryption.org/", (0x84, 0x85, 0xC1)


@dataclass(frozen=True)
class BookKept:
    """A book in a backup: its folder's number in it, where it was, its plant, and its head."""

    number: int
    folder: str
    plant: str
    head: str


@dataclass(frozen=True)
class BackupManifest:
    """What a backup has: when it was made, its books, and the SHA-256 of each of its files."""

    version: int
    made: str
    books: tuple[BookKept, ...]
    files: dict[str, str]

    def text(self) -> bytes:
        """Return it as it stands in the backup."""
        return (json.dumps(asdict(self), indent=1) + "\n").encode("utf-8")

    @classmethod
    def read(cls, data: bytes) -> BackupManifest:
        """Return the manifest of its text.

        Raises
        ------
        InputFault
            If it isn't one.
        """
        try:
            found: Any = json.loads(data)
            books = tuple(BookKept(**each) for each in found.pop("books"))
            manifest = cls(books=books, **found)
            if manifest.version == VERSION and manifest.text() == data:
                return manifest
        except (ValueError, TypeError, KeyError, AttributeError, RecursionError):
            pass
        raise InputFault("this isn't the list of a backup's files", place=Place(file=MANIFEST))


class Packing:
    """A tar that is being written.

    Attributes
    ----------
    digests : dict of str to str
        The SHA-256 of each file in it.
    """

    def __init__(self, out: IO[bytes]) -> None:
        self._tar = tarfile.open(fileobj=out, mode="w|", format=tarfile.PAX_FORMAT)
        self.digests: dict[str, str] = {}

    def add(self, name: str, data: bytes) -> None:
        """Put a file into it."""
        member = tarfile.TarInfo(name)
        member.size, member.mode = len(data), 0o640
        self._tar.addfile(member, io.BytesIO(data))
        self.digests[name] = hashlib.sha256(data).hexdigest()

    def close(self) -> None:
        """End it."""
        self._tar.close()


def members(file: IO[bytes]) -> Iterator[tuple[str, bytes]]:
    """Give the files of a tar, each with its bytes.

    Raises
    ------
    InputFault
        If it is none, or has anything but files of the names of a backup.
    """
    try:
        with tarfile.open(fileobj=file, mode="r|") as tar:
            for member in tar:
                parts = member.name.split("/")
                is_safe = ".." not in parts and "" not in parts and "." not in parts
                if not (member.isreg() and is_safe and _NAME.fullmatch(member.name)):
                    what = f"{member.name[:80]!r} doesn't belong in a backup"
                    raise InputFault(what, remedy="give a file that plantbal-office backup wrote")
                if member.size > INPUT_BYTES:
                    raise InputFault(f"{member.name} has {member.size:,} bytes")
                inner = tar.extractfile(member)
                assert inner is not None, "it is a file"
                yield member.name, inner.read()
    except (tarfile.TarError, EOFError, OSError) as error:
        remedy = "is it incomplete, or encrypted for somebody else?"
        raise InputFault(f"the backup can't be read: {error}", remedy=remedy) from error


# ---- encryption


@contextmanager
def encrypted(path: Path, recipients: Sequence[str]) -> Iterator[IO[bytes]]:
    """Give what a file is written through: encrypted for recipients, if there are some."""
    with open(path, "xb") as file:
        if not recipients:
            yield file
            return
        process = subprocess.Popen(_words(recipients), stdin=subprocess.PIPE, stdout=file)
        assert process.stdin is not None
        try:
            with process.stdin as written:
                yield written
        except BrokenPipeError:
            pass  # it has ended, and says why on standard error
        finally:
            process.wait()
    if process.returncode != 0:
        raise Fault("the backup can't be encrypted", remedy=f"look at {', '.join(recipients)}")


def _words(recipients: Sequence[str]) -> list[str]:
    """Return the command that encrypts for recipients: all of age, or all of gpg."""
    of_age = [bool(_AGE.fullmatch(each)) for each in recipients]
    if all(of_age):
        found = _tool("age")
        return [found, "--encrypt", *(word for each in recipients for word in ("-r", each))]
    if any(of_age):
        raise Fault("age recipients and gpg keys together", remedy="use either one or the other")
    if any(each.startswith("-") for each in recipients):
        raise Fault("a recipient begins with -", remedy="give the address or the number of a key")
    words = [_tool("gpg", "gnupg"), "--batch", "--trust-model", "always", "--encrypt"]
    return [*words, *(word for each in recipients for word in ("-r", each))]


def _tool(name: str, package: str = "") -> str:
    found = shutil.which(name)
    if found is None:
        raise ToolMissing(f"program {name}", package or name)
    return found


@contextmanager
def opened(path: Path, identity: str | None) -> Iterator[IO[bytes]]:
    """Give the tar of a backup, decrypted if it is encrypted.

    Raises
    ------
    Fault
        If it can't be opened.
    """
    try:
        begin = path.open("rb").read(64)
    except OSError as error:
        raise InputFault(f"{error.strerror}", place=Place(file=str(path))) from error
    if begin.startswith(_MAGIC_AGE):
        if identity is None:
            raise Fault(f"{path} is encrypted with age", remedy="use --identity FILE, with the key")
        words = [_tool("age"), "--decrypt", "-i", identity, str(path)]
    elif begin[:1] and begin[0] in _MAGIC_PGP:
        words = [_tool("gpg", "gnupg"), "--batch", "--decrypt", str(path)]
    else:
        with path.open("rb") as file:
            yield file
        return
    with subprocess.Popen(words, stdout=subprocess.PIPE, stderr=subprocess.DEVNULL) as process:
        assert process.stdout is not None
        yield process.stdout
        process.stdout.read()
    if process.returncode != 0:
        raise Fault(f"{path} can't be decrypted with that key")
