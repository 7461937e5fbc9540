"""Who may sign: a list of allowed signers as OpenSSH has it, and one of the same form for minisign.

A line has a name, options, the kind of the key and the key: `anna@mill valid-after="20240101"
ssh-ed25519 AAAA..`. The kind of a minisign key is `minisign`. A name is one person, so patterns and
authorities are refused, and so is a key that two names have. A person who leaves keeps the line,
with an end in `valid-before`: without the key nobody could verify what was signed by then.
"""

from __future__ import annotations

import base64
import binascii
import datetime
import hashlib
import re
from collections.abc import Iterator, Sequence
from dataclasses import dataclass
from enum import StrEnum

from plantbal.faults import InputFault, Place
from plantbal.sentence import Sentence

MINISIGN = "minisign"
_NAME = re.compile(r"[A-Za-z0-9][A-Za-z0-9@._+-]{0,99}")
_WORD = re.compile(r'(?:[^\s"]|"[^"]*")+')
_OPTION = re.compile(r'([a-z-]+)="([^"]*)"')
_DAY = re.compile(r"[0-9]{8}(?:[0-9]{4}(?:[0-9]{2})?)?Z?")
_OPTIONS = frozenset(("namespaces", "valid-after", "valid-before"))
_FORM = 'write: anna@mill valid-after="20240101" ssh-ed25519 AAAA.., as in the .pub file'


class Scheme(StrEnum):
    """Whose signature it is: that of OpenSSH or of minisign."""

    OPENSSH = "OpenSSH"
    MINISIGN = "minisign"


@dataclass(frozen=True)
class Signer:
    """A line of the file: who may sign with which key, and when.

    Attributes
    ----------
    name : str
        The person.
    kind, key : str
        The kind of the key, and the key in base64.
    namespaces : tuple of str
        What may be signed with it; empty if all may.
    after, before : str
        From when and up to when it may be used, as the file says it, in UTC; empty without a limit.
    line : int
        Its line.
    """

    name: str
    kind: str
    key: str
    namespaces: tuple[str, ...] = ()
    after: str = ""
    before: str = ""
    line: int = 0

    @property
    def scheme(self) -> Scheme:
        """Whose key it is."""
        return Scheme.MINISIGN if self.kind == MINISIGN else Scheme.OPENSSH

    @property
    def fingerprint(self) -> str:
        """The key in short, as `ssh-keygen -l` prints it, or as minisign numbers it."""
        return fingerprint(self.scheme, base64.b64decode(self.key))

    def is_valid(self, when: datetime.datetime) -> bool:
        """Say whether the key may be used at a time."""
        after, before = signers_time(self.after), signers_time(self.before)
        return (after is None or when >= after) and (before is None or when < before)

    def since(self) -> str:
        """Return in words since when the key may be used, and up to when."""
        after, before = signers_time(self.after), signers_time(self.before)
        if after is None and before is None:
            return Sentence("allowed without a first day")
        if after is None or before is None:
            form = "allowed since {first}" if after else "allowed without a first day, up to {last}"
        else:
            form = "allowed since {first}, up to {last}"
        return Sentence(form, first=after and after.date(), last=before and before.date())


def fingerprint(scheme: Scheme, key: bytes) -> str:
    """Return a key in short.

    Parameters
    ----------
    scheme : Scheme
        Whose key it is.
    key : bytes
        The key.
    """
    if scheme is Scheme.MINISIGN:
        return key[2:10][::-1].hex().upper()
    digest = base64.b64encode(hashlib.sha256(key).digest()).decode("ascii")
    return f"SHA256:{digest.rstrip('=')}"


def signers_time(text: str) -> datetime.datetime | None:
    """Return a time of the file, in UTC; None without a text."""
    if not text:
        return None
    digits = text.removesuffix("Z").ljust(14, "0")
    return datetime.datetime.strptime(digits, "%Y%m%d%H%M%S").replace(tzinfo=datetime.timezone.utc)


def read_signers(file: str, text: str) -> list[Signer]:
    """Return the lines of a file of signers.

    Parameters
    ----------
    file : str
        The file, for what is said of it.
    text : str
        Its text.

    Raises
    ------
    InputFault
        If a line has the wrong form, or two names have a key.
    """
    found = list(_read(file, text))
    owners: dict[str, str] = {}
    for signer in found:
        if owners.setdefault(signer.key, signer.name) != signer.name:
            form = "{name} and {other} have the same key"
            what = Sentence(form, name=owners[signer.key], other=signer.name)
            place = Place(file=file, line=signer.line)
            raise InputFault(what, place=place, remedy="a key is one person's: give each their own")
    return found


def _read(file: str, text: str) -> Iterator[Signer]:
    for number, line in enumerate(text.split("\n"), 1):
        if not line.strip() or line.lstrip().startswith("#"):
            continue
        try:
            yield _signer(line, number)
        except ValueError as error:
            place = Place(file=file, line=number)
            raise InputFault(f"{error}", place=place, text=line, remedy=_FORM) from error


def _signer(line: str, number: int) -> Signer:
    """Return a line as a signer.

    Raises
    ------
    ValueError
        If it isn't one.
    """
    words = _WORD.findall(line)
    if not words or not _NAME.fullmatch(words[0]):
        raise ValueError("a line begins with the name of one person, without * ? ! or commas")
    options: dict[str, str] = {}
    if len(words) > 2 and _is_options(words[1]):
        options = _options(words.pop(1))
    if len(words) < 3:
        raise ValueError("a line has a name, options, the kind of a key and the key")
    try:
        key = base64.b64decode(words[2], validate=True)
    except binascii.Error:
        raise ValueError("the key isn't one of a .pub file") from None
    size = int.from_bytes(key[:4], "big")
    is_minisign = words[1] == MINISIGN and len(key) == 42 and key[:2] == b"Ed"
    if not is_minisign and (words[1] == MINISIGN or key[4 : 4 + size] != words[1].encode()):
        raise ValueError(f"the key isn't one of the kind {words[1][:40]}")
    spaces = tuple(filter(None, options.get("namespaces", "").split(",")))
    after, before = options.get("valid-after", ""), options.get("valid-before", "")
    return Signer(words[0], words[1], words[2], spaces, after, before, number)


def _is_options(word: str) -> bool:
    return "=" in word or word == "cert-authority"


def _options(word: str) -> dict[str, str]:
    """Return the options of a line.

    Raises
    ------
    ValueError
        If one isn't known, or has the wrong form.
    """
    found = dict(_OPTION.findall(word))
    if ",".join(f'{name}="{value}"' for name, value in found.items()) != word:
        raise ValueError('its options aren\'t NAME="VALUE" with commas between them')
    for name, value in found.items():
        if name not in _OPTIONS:
            raise ValueError(f"the option {name} isn't taken here")
        if name != "namespaces":
            if not _DAY.fullmatch(value):
                raise ValueError(f"{name} is {value!r}, and isn't a day such as 20240101")
            signers_time(value)
    return found


def signers_text(signers: Sequence[Signer], scheme: Scheme) -> str:
    """Return the lines of one scheme, as its program reads them."""
    lines = []
    for signer in signers:
        if signer.scheme is scheme:
            spaces = ",".join(signer.namespaces)
            options = {"namespaces": spaces, "valid-after": signer.after}
            options["valid-before"] = signer.before
            said = ",".join(f'{name}="{value}"' for name, value in options.items() if value)
            lines.append(" ".join(filter(None, (signer.name, said, signer.kind, signer.key))))
    return "".join(f"{line}\n" for line in lines)


def lost_keys(before: Sequence[Signer], after: Sequence[Signer]) -> list[Signer]:
    """Return the lines of an earlier file whose names or keys a later one hasn't any more."""
    there = {(each.name, each.key) for each in after}
    return [each for each in before if (each.name, each.key) not in there]
