"""Signs a text with a person's key, and says whose a signature is.

OpenSSH's `ssh-keygen -Y` or minisign makes and judges each signature. Here only its form is read: to
know by which of them it is, and to name its key.
"""

from __future__ import annotations

import base64
import binascii
import datetime
import tempfile
from collections.abc import Sequence
from dataclasses import dataclass
from enum import StrEnum
from pathlib import Path

from plantbal.faults import Fault, InputFault, Place, read_bytes
from plantbal.limits import SIGNATURE_BYTES
from plantbal.sentence import Phrase, Sentence
from plantbal.signing.signers import Scheme, Signer, fingerprint, signers_text
from plantbal.signing.tools import call_tool, said_last

# What a signature may be for: one of a record of a book isn't one of a bundle.
BOOK, BUNDLE = "plantbal-book", "plantbal-bundle"

_SSH = "-----BEGIN SSH SIGNATURE-----"
_SSH_END = "-----END SSH SIGNATURE-----"
_MINISIGN = "untrusted comment:"
_MINISIGN_KEY = "untrusted comment: minisign encrypted secret key"
_TIME = "%Y%m%d%H%M%S"


class Doubt(StrEnum):
    """Why a signature isn't believed."""

    NO_SIGNATURE = "no-signature"
    UNKNOWN = "unknown"
    NOT_YET = "not-yet"
    ENDED = "ended"
    REVOKED = "revoked"
    WRONG_USE = "wrong-use"
    WRONG = "wrong"


_SAID = {
    Doubt.NO_SIGNATURE: "it isn't a signature of OpenSSH or minisign",
    Doubt.UNKNOWN: "its key belongs to nobody who may sign",
    Doubt.NOT_YET: "its key was not allowed yet",
    Doubt.ENDED: "its key was no longer allowed",
    Doubt.REVOKED: "its key is revoked",
    Doubt.WRONG_USE: "its key isn't allowed for this",
    Doubt.WRONG: "it doesn't fit what is signed",
}


@dataclass(frozen=True)
class Signed:
    """What is known of a signature.

    Attributes
    ----------
    doubt : Doubt or None
        Why it isn't believed; None if it is.
    key : str
        The key in short; empty if there is none.
    scheme : Scheme or None
        Whose signature it is.
    signer : Signer or None
        The line of the file of signers that has the key.
    """

    doubt: Doubt | None
    key: str = ""
    scheme: Scheme | None = None
    signer: Signer | None = None

    @property
    def name(self) -> str:
        """Who signed, if that is believed; else nothing."""
        return self.signer.name if self.signer is not None and self.doubt is None else ""

    def said(self) -> str:
        """Return in words who signed and with which key, or why it isn't believed."""
        if self.doubt is not None or self.signer is None:
            why: str = Phrase(_SAID[self.doubt or Doubt.UNKNOWN])
            if self.key:
                why = Sentence("{why} (key {key})", why=why, key=self.key)
            if self.signer is not None:
                why = Sentence("{why}, {name}'s", why=why, name=self.signer.name)
            return why
        form = "signed by {name} with the key {key}, {since}"
        return Sentence(form, name=self.name, key=self.key, since=self.signer.since())


@dataclass(frozen=True)
class Keys:
    """Who may sign, and which keys are revoked.

    Attributes
    ----------
    signers : sequence of Signer
        Who may.
    revoked : str
        The revoked keys of OpenSSH, as `ssh-keygen -Y verify -r` reads them, and the short names of
        minisign's, a line each.
    """

    signers: Sequence[Signer]
    revoked: str = ""


# ---- signing


def sign(data: bytes, key: str | Path, use: str) -> str:
    """Return the signature of bytes with a key.

    Parameters
    ----------
    data : bytes
        What is signed.
    key : str or Path
        The private key; or the public one, if an agent has the private key.
    use : str
        `BOOK` or `BUNDLE`.

    Raises
    ------
    Fault
        If there is no such key, or it isn't opened.
    """
    source, there = read_bytes(key, SIGNATURE_BYTES)
    with tempfile.TemporaryDirectory() as room:
        path = Path(room) / "signed"
        path.write_bytes(data)
        if there.startswith(_MINISIGN_KEY.encode("ascii")):
            made = path.with_suffix(".minisig")
            words: list[str | Path] = [
                "minisign",
                "-S",
                "-s",
                source,
                "-m",
                path,
                "-x",
                made,
                "-t",
                use,
            ]
            done = call_tool("minisign", words, asks=True)
        else:
            made = path.with_suffix(".sig")
            words = ["ssh-keygen", "-q", "-Y", "sign", "-f", source, "-n", use, path]
            done = call_tool("openssh-client", words, asks=True)
        if done.returncode == 0 and made.is_file():
            return made.read_text("ascii")
    form = "nothing is signed with {source}: {said}"
    raise Fault(
        Sentence(form, source=str(source), said=said_last(done)),
        text=source,
        remedy="name your private key, or the public one if ssh-agent has the private key",
    )


# ---- whose it is


def scheme_of(signature: str) -> Scheme | None:
    """Return whose signature a text is, or None if it is none."""
    text = signature.strip()
    if text.startswith(_SSH) and text.endswith(_SSH_END):
        return Scheme.OPENSSH
    return Scheme.MINISIGN if text.startswith(_MINISIGN) else None


def key_of(signature: str) -> bytes:
    """Return the key that a signature of OpenSSH has, or the number that one of minisign has.

    Raises
    ------
    ValueError
        If it is no signature.
    """
    lines = signature.strip().split("\n")
    if scheme_of(signature) is Scheme.MINISIGN:
        return b"Ed" + base64.b64decode(lines[1], validate=True)[2:10]
    data = base64.b64decode("".join(lines[1:-1]), validate=True)
    size = int.from_bytes(data[10:14], "big")
    if data[:10] != b"SSHSIG\0\0\0\1" or len(data) < 14 + size:
        raise ValueError("it isn't of this form")
    return data[14 : 14 + size]


def _signer_of(scheme: Scheme, key: bytes, keys: Keys) -> Signer | None:
    """Return the line that has a key, or None."""
    for signer in keys.signers:
        there = base64.b64decode(signer.key)
        if signer.scheme is scheme and (there[:10] if scheme is Scheme.MINISIGN else there) == key:
            return signer
    return None


def verified(data: bytes, signature: str, keys: Keys, use: str, when: datetime.datetime) -> Signed:
    """Return whose the signature of bytes is, and whether it is believed.

    Parameters
    ----------
    data : bytes
        What is signed.
    signature : str
        The signature.
    keys : Keys
        Who may sign.
    use : str
        `BOOK` or `BUNDLE`.
    when : datetime
        When it was made, as far as that is known; the key has to be valid then.
    """
    scheme = scheme_of(signature)
    try:
        key = key_of(signature) if scheme is not None else b""
    except (ValueError, IndexError, binascii.Error):
        key = b""
    if scheme is None or not key:
        return Signed(Doubt.NO_SIGNATURE)
    signer = _signer_of(scheme, key, keys)
    short = fingerprint(scheme, key)
    if signer is None:
        return Signed(Doubt.UNKNOWN, short, scheme)
    judge = _doubt_of_minisign if scheme is Scheme.MINISIGN else _doubt_of_openssh
    doubt = _doubt_before(signer, use, when) or judge(data, signature, signer, keys, use, when)
    return Signed(doubt, short, scheme, signer)


def _doubt_before(signer: Signer, use: str, when: datetime.datetime) -> Doubt | None:
    """Return what the line of a signer says against a use at a time."""
    if signer.namespaces and use not in signer.namespaces:
        return Doubt.WRONG_USE
    if signer.is_valid(when):
        return None
    after = Signer("", "", "", after=signer.after)
    return Doubt.ENDED if after.is_valid(when) else Doubt.NOT_YET


def _doubt_of_openssh(
    data: bytes, signature: str, signer: Signer, keys: Keys, use: str, when: datetime.datetime
) -> Doubt | None:
    """Return why `ssh-keygen` doesn't believe a signature, or None."""
    with tempfile.TemporaryDirectory() as name:
        room = Path(name)
        (room / "allowed").write_text(signers_text(keys.signers, Scheme.OPENSSH), "utf-8")
        (room / "signature").write_text(signature, "utf-8")
        words: list[str | Path] = ["ssh-keygen", "-Y", "verify", "-f", room / "allowed"]
        words += ["-I", signer.name, "-n", use, "-s", room / "signature"]
        words += ["-O", f"verify-time={when.strftime(_TIME)}"]
        plain = call_tool("openssh-client", words, data).returncode == 0
        if not plain:
            return Doubt.WRONG
        revoked = _of_openssh(keys.revoked)
        if not revoked:
            return None
        (room / "revoked").write_text(revoked, "utf-8")
        done = call_tool("openssh-client", [*words, "-r", room / "revoked"], data)
    return None if done.returncode == 0 else Doubt.REVOKED


def _of_openssh(revoked: str) -> str:
    """Return the lines of revoked keys that OpenSSH knows."""
    lines = (line.strip() for line in revoked.split("\n"))
    return "".join(f"{line}\n" for line in lines if " " in line and not line.startswith("#"))


def _doubt_of_minisign(
    data: bytes, signature: str, signer: Signer, keys: Keys, use: str, when: datetime.datetime
) -> Doubt | None:
    """Return why minisign doesn't believe a signature, or None; its use is its trusted comment."""
    del when
    with tempfile.TemporaryDirectory() as name:
        room = Path(name)
        (room / "signed").write_bytes(data)
        (room / "signature").write_text(signature, "utf-8")
        words = ["minisign", "-V", "-Q", "-P", signer.key]
        words += ["-m", str(room / "signed"), "-x", str(room / "signature")]
        done = call_tool("minisign", words)
    if done.returncode != 0:
        return Doubt.WRONG
    if done.stdout.decode("utf-8", "replace").strip() != use:
        return Doubt.WRONG_USE
    revoked = {line.strip() for line in keys.revoked.split("\n")}
    return Doubt.REVOKED if signer.fingerprint in revoked else None


def read_signature(path: str | Path) -> str:
    """Return the text of a file that has a signature.

    Raises
    ------
    InputFault
        If it can't be read, or is no text.
    """
    source, data = read_bytes(path, SIGNATURE_BYTES)
    try:
        return data.decode("ascii")
    except UnicodeDecodeError as error:
        what = "this isn't a signature of OpenSSH or minisign"
        raise InputFault(what, place=Place(file=source)) from error
