"""A record of who submits or approves what: the text that is signed.

It names its own place in the journal and the head that it stands on, so it can be moved to no other
place and no other book; and the files by their digests, so that what was seen is what was signed.
It is kept as `approvals/17.txt`, its signature as `approvals/17.sig`, and a time stamp of that as
`approvals/17.tsr`. Whoever has OpenSSH can verify it without plantbal.
"""

from __future__ import annotations

import datetime
import re
from collections.abc import Mapping
from dataclasses import dataclass, field
from enum import StrEnum

from plantbal.book.journal import Kept
from plantbal.faults import InputFault, Place

_FIRST = "plantbal record 1"
_WHEN = "%Y-%m-%dT%H:%M:%SZ"
_HEAD = re.compile(r"([0-9]{1,9}) ([0-9a-f]{64})")
_DIGEST = re.compile(r"[0-9a-f]{64}")
_KEYS = ("book", "number", "deed", "act", "of", "after", "submission", "who", "user", "when")


class ApprovalDeed(StrEnum):
    """What a record does."""

    RULES = "rules"
    SUBMIT = "submit"
    APPROVE = "approve"
    REJECT = "reject"


@dataclass(frozen=True)
class ApprovalRecord:
    """Who submits or approves what.

    Attributes
    ----------
    book : str
        The book: the digest of its first action.
    number : int
        The place of this record's line in the journal.
    deed : ApprovalDeed
        What it does.
    act, of : str
        Which action it is about, and of what that is.
    after : (int, str)
        The head on which it stands: the action before it, and its digest.
    submission : (int, str) or None
        The action that has submitted it, and its digest; None if this is the submission.
    who, user : str
        Who it is by name, if that is known, and the user.
    when : str
        When, in UTC.
    files : mapping of str to Kept
        Files as they are approved.
    """

    book: str
    number: int
    deed: ApprovalDeed
    act: str
    of: str
    after: tuple[int, str]
    submission: tuple[int, str] | None
    who: str
    user: str
    when: str
    files: Mapping[str, Kept] = field(default_factory=dict)

    @property
    def time(self) -> datetime.datetime:
        """When, as a time."""
        when = datetime.datetime.strptime(self.when, _WHEN)
        return when.replace(tzinfo=datetime.timezone.utc)

    @property
    def text(self) -> str:
        """It as it is signed."""
        values = (
            self.book,
            str(self.number),
            self.deed.value,
            self.act,
            self.of or "-",
            _head_text(self.after),
            _head_text(self.submission) if self.submission else "-",
            self.who or "-",
            self.user,
            self.when,
        )
        lines = [_FIRST, *(f"{key} {value}" for key, value in zip(_KEYS, values))]
        lines += [f"file {name} {kept}" for name, kept in sorted(self.files.items())]
        return "".join(f"{line}\n" for line in lines)

    @classmethod
    def read(cls, file: str, text: str) -> ApprovalRecord:
        """Return the record of a text.

        Raises
        ------
        InputFault
            If it isn't one, to the byte.
        """
        try:
            record = _read(text)
        except (ValueError, KeyError, IndexError, TypeError):
            record = None
        if record is None or record.text != text:
            what = "this isn't a record of an approval"
            raise InputFault(what, place=Place(file=file), remedy="put it back, from a backup")
        return record


def _head_text(head: tuple[int, str]) -> str:
    return f"{head[0]} {head[1]}"


def _head(text: str) -> tuple[int, str]:
    found = _HEAD.fullmatch(text)
    if found is None:
        raise ValueError(text)
    return int(found[1]), found[2]


def _read(text: str) -> ApprovalRecord | None:
    """Return a record of its lines, or None if they aren't those of one."""
    first, *lines = text.split("\n")
    if first != _FIRST or len(lines) < len(_KEYS):
        return None
    parts = [line.partition(" ") for line in lines[: len(_KEYS)]]
    if tuple(key for key, _, _ in parts) != _KEYS:
        return None
    values = {key: "" if value == "-" else value for key, _, value in parts}
    if not _DIGEST.fullmatch(values["book"]):
        return None
    files: dict[str, Kept] = {}
    for line in lines[len(_KEYS) :]:
        if line:
            _, name, rest = line.split(" ", 2)
            kept = Kept.read(rest)
            if kept is None:
                return None
            files[name] = kept
    record = ApprovalRecord(
        values["book"],
        int(values["number"]),
        ApprovalDeed(values["deed"]),
        values["act"],
        values["of"],
        _head(values["after"]),
        _head(values["submission"]) if values["submission"] else None,
        values["who"],
        values["user"],
        values["when"],
        files,
    )
    return record if record.time else None
