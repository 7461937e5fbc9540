"""The bundle of a month: a zip of session, output, summary, manifest and digests."""

from __future__ import annotations

import json
import struct
import zipfile
import zlib
from collections.abc import Iterable, Iterator, Mapping
from dataclasses import asdict, dataclass, field
from io import BytesIO
from pathlib import Path
from typing import Any

from plantbal.audit.changed import digest
from plantbal.audit.container import layout_fault, other_reading
from plantbal.faults import InputFault, Place, read_bytes
from plantbal.limits import SESSION_BYTES

SESSION, OUTPUT, SUMMARY = "session.csv", "output.csv", "summary.txt"
MANIFEST, DIGESTS = "manifest.json", "SHA256SUMS"
NAMES = (SESSION, OUTPUT, SUMMARY, MANIFEST, DIGESTS)
# How the masses of the session were calculated, in a bundle of a book that has such.
MEASURED = "measured.csv"
# Of which hours readings of the session were made, in a bundle of a book that has such.
SUMMED = "summed.csv"
CARRIED = (MEASURED, SUMMED)
VERSION = 6
# What a manifest has of the program, by the version of its form.
_BUILD = ("sha256", "version", "commit")
_FROM = (*_BUILD, "from")
_PROGRAM: dict[int, tuple[str, ...]] = {1: _BUILD, **dict.fromkeys(range(2, 9), _FROM)}
_SEALED = 3  # from this version on a manifest has the digests of parts, and a zip one of its own
_CHAINED = 4  # from this version on a manifest names the head of a book, and the bundle before it
_JUDGING = 5  # from this version on a summary has the ± of each flow
APPROVED = 6  # from this version on a manifest has the approvals of the month
WITH_MEASURED = 7  # the version of a bundle that has how masses were calculated
WITH_SUMMED = 8  # the version of a bundle that has of which hours readings were made
# What it has of these two, if anything.
_HEAD = ("number", "head")
_LINKS = {"book": _HEAD, "before": ("sha256", *_HEAD)}
_NESTED = ("parts", "approvals")
_SEAL = "SHA-256 of the bytes before this comment: "
# The most bytes of a file: a session has no more for the program either.
MOST_BYTES = {
    SESSION: SESSION_BYTES,
    OUTPUT: 1 << 28,
    MEASURED: 1 << 28,
    SUMMED: SESSION_BYTES,
    SUMMARY: 1 << 26,
    MANIFEST: 1 << 26,
    DIGESTS: 1 << 16,
}
_WHEN = (1980, 1, 1, 0, 0, 0)
_BROKEN = (
    zipfile.BadZipFile,
    zlib.error,
    struct.error,
    NotImplementedError,
    RuntimeError,
    EOFError,
    OSError,
    ValueError,
)
_FIXED = (
    "date_time",
    "compress_type",
    "comment",
    "extra",
    "create_system",
    "create_version",
    "extract_version",
    "flag_bits",
    "volume",
    "internal_attr",
    "external_attr",
)


@dataclass(frozen=True)
class Manifest:
    """What a bundle says of itself.

    Attributes
    ----------
    archive : int
        The version of this form.
    plant, period : str
        What the plant is called, and the period that is archived.
    first, last : str
        The days of the period.
    made : str
        When the bundle was made.
    words : str
        The words of the run.
    program : dict
        The program's ``sha256``, ``version`` and ``commit``, and what these two are ``from``; what
        isn't known is said to be so.
    desk : str
        The version of the package that made it.
    reports : list of str
        The periods of the output's blocks, in order, each with its round.
    refused : int
        How many rows are refused.
    files : dict
        The SHA-256 of each file.
    parts : dict
        The SHA-256 of each fifty lines of the session and of the output; not before version 3.
    book : dict
        The ``head`` of the book that the session is from, and its ``number``; empty if it is from
        none. Not before version 4.
    before : dict
        The ``sha256`` of the plant's bundle before this one, and the ``number`` and the ``head``
        that are in it; empty if none was named. Not before version 4.
    approvals : dict
        Lines of the book's ``journal`` that closed the period, and the ``files`` of its approvals;
        empty without a book, or if the period is open. Not before version 6.
    """

    archive: int
    plant: str
    period: str
    first: str
    last: str
    made: str
    words: str
    program: dict[str, str]
    desk: str
    reports: list[str]
    refused: int
    files: dict[str, str]
    parts: dict[str, list[str]] = field(default_factory=dict)
    book: dict[str, str] = field(default_factory=dict)
    before: dict[str, str] = field(default_factory=dict)
    approvals: dict[str, dict[str, str]] = field(default_factory=dict)

    @property
    def is_sealed(self) -> bool:
        """Whether it has the digests of parts, and its zip one of its own."""
        return self.archive >= _SEALED

    @property
    def has_deviations(self) -> bool:
        """Whether its summary has the ± of each flow."""
        return self.archive >= _JUDGING

    def to_json(self) -> bytes:
        """Return it as JSON, an item a line."""
        items = asdict(self)
        if not self.is_sealed:
            del items["parts"]
        if self.archive < _CHAINED:
            del items["book"], items["before"]
        if self.archive < APPROVED:
            del items["approvals"]
        return (json.dumps(items, indent=2) + "\n").encode("utf-8")

    @classmethod
    def read(cls, data: bytes) -> Manifest:
        """Return the manifest of its JSON.

        Raises
        ------
        InputFault
            If it isn't one; the place is in the manifest.
        """
        try:
            found = json.loads(data.decode("utf-8"))
        except ValueError as error:
            place = Place(file=MANIFEST, line=getattr(error, "lineno", None))
            raise InputFault(f"this isn't JSON: {error}", place=place) from error
        except RecursionError as error:
            what = "its lists are nested deeper than any manifest's"
            raise InputFault(what, place=Place(file=MANIFEST)) from error
        wanted: dict[str, type | tuple[type, type]] = {
            **dict.fromkeys(("plant", "period", "first", "last", "made", "words", "desk"), str),
            **dict.fromkeys(("archive", "refused"), int),
            **dict.fromkeys(("program", "files"), dict),
            "reports": list,
        }
        place = Place(file=MANIFEST)
        if isinstance(found, dict) and "parts" in found:  # before version 3 it has none
            wanted["parts"] = dict
        if isinstance(found, dict) and "book" in found:  # before version 4 it has none
            wanted |= dict.fromkeys(_LINKS, dict)
        if isinstance(found, dict) and "approvals" in found:  # before version 5 it has none
            wanted["approvals"] = dict
        if not isinstance(found, dict) or set(found) != set(wanted):
            said = ", ".join(wanted)
            raise InputFault("its items aren't those of a manifest", place=place, remedy=said)
        for name, type_ in wanted.items():
            if not isinstance(found[name], type_) or not _has_texts(found[name], name in _NESTED):
                raise InputFault(f"its item {name!r} has the wrong form", place=place)
        names = _PROGRAM.get(found["archive"])
        if names is None:
            what = f"it says that it is of version {found['archive']}"
            remedy = "if it wasn't changed, a newer plantbal-desk reads it"
            raise InputFault(what, place=place, remedy=remedy)
        if set(found["program"]) != set(names):
            remedy = f"it has {', '.join(names)}"
            raise InputFault("its item 'program' has the wrong form", place=place, remedy=remedy)
        # In the order in which they are written, so that another order is a difference.
        found["program"] = {name: found["program"][name] for name in names}
        since = {"parts": _SEALED, "book": _CHAINED, "approvals": APPROVED}
        if any((name in found) != (found["archive"] >= at) for name, at in since.items()):
            said = ", ".join(wanted)
            raise InputFault("its items aren't those of its version", place=place, remedy=said)
        for name, inner in _LINKS.items() if "book" in found else ():
            if found[name] and tuple(found[name]) != inner:
                remedy = f"it has {', '.join(inner)}"
                what = f"its item {name!r} has the wrong form"
                raise InputFault(what, place=place, remedy=remedy)
        return cls(**found)


def _has_texts(item: Any, nested: bool) -> bool:
    """Return whether an item of a manifest has texts in it, or lists or tables of texts."""
    inner = item.values() if isinstance(item, dict) else item if isinstance(item, list) else []
    if nested:
        return all(isinstance(each, (list, dict)) and _has_texts(each, False) for each in inner)
    return all(isinstance(each, str) for each in inner)


def members_of(names: Iterable[str]) -> tuple[str, ...]:
    """Return the files that a bundle has, in their order, by which of a book's files are among them."""
    there = {*names}
    return (*NAMES[:2], *(name for name in CARRIED if name in there), *NAMES[2:])


def bundle_form(carried: Iterable[str]) -> int:
    """Return the form of a bundle that has some files of a book."""
    there = {*carried}
    return WITH_SUMMED if SUMMED in there else WITH_MEASURED if MEASURED in there else VERSION


def digests_text(files: Mapping[str, bytes]) -> bytes:
    """Return the digests of files as `sha256sum --check` reads them."""
    lines = (f"{digest(data)}  {name}\n" for name, data in sorted(files.items()) if name != DIGESTS)
    return "".join(lines).encode("ascii")


def _entry(name: str) -> zipfile.ZipInfo:
    """Return the entry of a file: the same at all times, of all users and on all machines."""
    entry = zipfile.ZipInfo(name, _WHEN)
    entry.compress_type = zipfile.ZIP_DEFLATED
    entry.create_system = 3
    entry.external_attr = 0o100644 << 16
    return entry


def packed(files: Mapping[str, bytes], *, sealed: bool = True) -> bytes:
    """Return files as the bytes of a zip; the same files give the same bytes.

    A sealed zip ends with a comment that has the digest of all bytes before it, which may be packed
    in more than one way.
    """
    out = BytesIO()
    with zipfile.ZipFile(out, "w") as bundle:
        for name in members_of(files):
            bundle.writestr(_entry(name), files[name], compresslevel=9)
        bundle.comment = _seal(b"") if sealed else b""
    data = out.getvalue()
    return _sealed(data[: -len(bundle.comment)]) if sealed else data


def _seal(data: bytes) -> bytes:
    """Return the comment of a zip, by the bytes before it."""
    return (_SEAL + digest(data)).encode("ascii")


def _sealed(data: bytes) -> bytes:
    """Return the bytes of a zip up to its comment, and the comment."""
    return data + _seal(data)


def _entry_faults(entry: zipfile.ZipInfo) -> Iterator[str]:
    """Give what of an entry isn't as it is written."""
    wanted = _entry(entry.filename)
    wanted.extract_version = wanted.create_version = 20
    for name in _FIXED:
        if getattr(entry, name) != getattr(wanted, name):
            yield f"{name.replace('_', ' ')} is {getattr(entry, name)!r}"


@dataclass(frozen=True)
class Unpacked:
    """The files of a bundle, what is wrong with the zip itself, and what may be looked at in it.

    Attributes
    ----------
    files : dict
        The files.
    wrong : list of str
        What is wrong with the zip.
    other : list of str
        How another packer has packed it, which changes nothing of what any reader finds.
    note : str
        What may be looked at in a zip that is packed otherwise than here.
    is_sealed : bool
        Whether it has one.
    """

    files: dict[str, bytes]
    wrong: list[str]
    other: list[str] = field(default_factory=list)
    note: str = ""
    is_sealed: bool = False


def unpacked(path: str | Path) -> Unpacked:
    """Return the files of a bundle, and what is wrong with the zip itself.

    Raises
    ------
    InputFault
        If it isn't a bundle, or one of its files can't be read.
    """
    source, data = read_bytes(path)
    try:
        with zipfile.ZipFile(BytesIO(data)) as bundle:
            entries = bundle.infolist()
            names = tuple(entry.filename for entry in entries)
            if sorted(names) != sorted(members_of(names)):
                raise InputFault(
                    f"this zip has {', '.join(names) or 'no file'}",
                    place=Place(file=source),
                    remedy=f"a bundle has {', '.join(NAMES)}, and maybe {' and '.join(CARRIED)}",
                )
            comment = bundle.comment
            wrong = _comment_faults(comment, data)
            other = [] if names == members_of(names) else ["its files are in another order"]
            files = {}
            for entry in entries:
                other += [f"{entry.filename}: its entry's {what}" for what in _entry_faults(entry)]
                files[entry.filename] = _read(bundle, entry, source)
            reads = other_reading if other else layout_fault
            if not wrong and (fault := reads(entries, bundle.start_dir, data)):
                wrong.append(f"{fault}: some unpackers may find other files in it")
    except _BROKEN as error:
        raise InputFault(
            f"this zip can't be read: {error}",
            place=Place(file=source),
            remedy="it was cut or changed: ask for it again",
        ) from error
    if wrong or other or packed(files, sealed=bool(comment)) == data:
        return Unpacked(files, wrong, other, is_sealed=bool(comment))
    note = "the zip's own bytes aren't those that are packed here, but its files are the same for"
    rest = "each reader of zips: there is nothing before, between or after them"
    return Unpacked(files, wrong, note=f"{note} {rest}", is_sealed=bool(comment))


def _comment_faults(comment: bytes, data: bytes) -> list[str]:
    """Return what is wrong with a zip by its comment, if it has one."""
    if not comment or data.endswith(comment) and comment == _seal(data[: -len(comment)]):
        return []
    if not comment.startswith(_SEAL.encode("ascii")):
        return ["the zip has another comment than the digest of its bytes"]
    return ["the zip's bytes aren't those of the digest in its comment: one of them was changed"]


def _read(bundle: zipfile.ZipFile, entry: zipfile.ZipInfo, source: str) -> bytes:
    """Return a file of a bundle, of which no more is unpacked than a bundle may have."""
    place, most = Place(file=source, sheet=entry.filename), MOST_BYTES[entry.filename]
    try:
        with bundle.open(entry) as file:
            data = file.read(most + 1) if entry.file_size <= most else b""
        if len(data) <= most >= entry.file_size:
            return data
        what = f"it has more than the {most:,} bytes that this file of a bundle may have"
        raise InputFault(what, place=place, remedy="archive writes no such bundle")
    except _BROKEN as error:
        raise InputFault(
            f"this file can't be read: {error}",
            place=place,
            remedy="the bundle was cut or changed: ask for it again",
        ) from error
