"""A bundle's own files: its zip, its digests, and what manifest and summary have to be."""

from __future__ import annotations

from collections.abc import Collection, Iterator, Mapping
from typing import TYPE_CHECKING

from plantbal.audit.approved import approvals_held
from plantbal.audit.archive import bundle_files
from plantbal.audit.bundle import (
    DIGESTS,
    MANIFEST,
    OUTPUT,
    SESSION,
    SUMMARY,
    Manifest,
    Unpacked,
    digests_text,
    members_of,
    unpacked,
    bundle_form,
)
from plantbal.audit.carried import carried_held, carried_in
from plantbal.audit.changed import digest, where
from plantbal.audit.linked import Linked
from plantbal.audit.runwords import words_read, words_shown
from plantbal.audit.signed import ANYBODY, Beside
from plantbal.audit.said import SHORT, Audit, Audited, SentenceKind, differs_at
from plantbal.faults import Fault, read_bytes
from plantbal.limits import SESSION_BYTES
from plantbal.report.output import parse_report

if TYPE_CHECKING:
    import argparse


def given_of_bundle(audit: Audit, path: str, options: argparse.Namespace) -> Audited:
    """Audit a bundle's own files and what it names, and return what it is a bundle of."""
    found = unpacked(path)
    files = found.files
    for what in found.wrong:
        audit.add(SentenceKind.WRONG, f"{path}: {what}; archive doesn't write it so")
    if found.note:
        audit.add(SentenceKind.NOTE, f"{path}: {found.note}")
    changed = set(_digest_faults(audit, path, files))
    there = _manifest_changed(files)
    if there:
        changed.add(MANIFEST)
    manifest = _manifest(audit, path, files)
    if manifest is None:
        _manifest_digest(audit, path, files, True, there)
        _say_packed(audit, path, found, False, False)
        report = parse_report(files[OUTPUT].decode("utf-8", "replace"), f"{path}!{OUTPUT}")
        return _given(path, files, words_shown(report))
    least = bundle_form(carried_in(files))
    if carried_in(files) and manifest.archive < least:
        what = f"it says form {manifest.archive}, and a bundle with these files is of form {least}"
        audit.add(SentenceKind.WRONG, f"{path}!{MANIFEST}: {what}")
    other = _made_again(audit, path, files, manifest, changed)
    same = _manifest_digest(audit, path, files, bool(other), there) and not other and not changed
    holds = same and files[DIGESTS] == digests_text(files)
    if same and not holds:
        at = differs_at(files[DIGESTS], digests_text(files))
        what = f"found {at.one}, and {at.other} follows from the other files"
        audit.add(SentenceKind.WRONG, f"{path}!{DIGESTS}: {at.place}: {what}")
    _say_packed(audit, path, found, manifest.is_sealed and not found.is_sealed, holds)
    if holds:
        what = f"the digests of its {len(files) - 1} files hold"
        rest = "manifest and summary are those of the session and the output"
        audit.add(SentenceKind.GOOD, f"{path}: {what}, and {rest}")
    for kind, said in carried_held(path, files):
        audit.add(kind, said)
    linked = Linked(path, manifest, files[SESSION], files[OUTPUT])
    for kind, said in linked.held(options.book, options.before):
        audit.add(kind, said)
    beside = Beside(path, options.signature or f"{path}.sig")
    for kind, said in beside.held(options, manifest.made):
        audit.add(kind, said)
    for kind, said in approvals_held(path, manifest, files, options):
        if (kind, said) not in audit.said:  # a look at the book may have said it
            audit.add(kind, said)
    if not any((options.signers, options.book, options.after, options.session)):
        audit.add(SentenceKind.NOTE, f"{path}: {ANYBODY}")
    words = words_read(manifest.words)
    return _given(path, files, words, manifest.program.get("sha256", ""))


def _say_packed(audit: Audit, path: str, found: Unpacked, lacks_seal: bool, holds: bool) -> None:
    """Say what of the zip itself archive doesn't write: of one packed anew it is a note, if all of
    its contents hold."""
    if found.other and holds and not found.wrong:
        first, more = found.other[0], len(found.other) - 1
        rest = f" and {more} more like it" if more else ""
        what = f"another packer has zipped it again ({first}{rest}): its files are those of archive"
        audit.add(SentenceKind.NOTE, f"{path}: {what}, and each reader of zips finds them")
        return
    seal = ["the zip has no digest of its own"] if lacks_seal else []
    for what in [*found.other, *seal]:
        audit.add(SentenceKind.WRONG, f"{path}: {what}; archive doesn't write it so")


def _given(path: str, files: Mapping[str, bytes], words: list[str], program: str = "") -> Audited:
    """Return what a bundle has, as it is audited."""
    return Audited(
        path,
        f"{path}!{OUTPUT}",
        f"{path}!{SESSION}",
        files[OUTPUT],
        files[SESSION],
        words,
        program,
        f"; its SHA-256 is {digest(read_bytes(path)[1])}",
    )


def _digests(files: Mapping[str, bytes]) -> dict[str, tuple[int, str]]:
    """Return the line and the digest that a bundle has of each file."""
    lines = files[DIGESTS].decode("ascii", "replace").split("\n")
    found = {}
    for number, line in enumerate(lines, 1):
        said, _, name = line.partition("  ")
        found[name] = number, said
    return found


def _digest_faults(audit: Audit, path: str, files: Mapping[str, bytes]) -> Iterator[str]:
    """Say of each file but the manifest whether its digest is another one, and give its name."""
    stated = _digests(files)
    for number, line in enumerate(files[DIGESTS].decode("ascii", "replace").split("\n"), 1):
        if line and line.partition("  ")[2] not in members_of(files)[:-1]:
            what = f"line {number}: {line[:SHORT]!r} isn't a digest of a file of the bundle"
            audit.add(SentenceKind.WRONG, f"{path}!{DIGESTS}: {what}")
            yield DIGESTS
    inner = files[MANIFEST].decode("utf-8", "replace")
    parts = _parts(files)
    for name in (each for each in members_of(files) if each not in (MANIFEST, DIGESTS)):
        found, (number, said) = digest(files[name]), stated.get(name, (0, ""))
        if said == found:
            continue
        if found in inner:
            what = f"line {number}: this isn't" if number else "there is no line with"
            rest = f"the digest of {name}, which is in the manifest"
            audit.add(SentenceKind.WRONG, f"{path}!{DIGESTS}: {what} {rest}: a digest was changed")
            yield DIGESTS
        else:
            # What the summary has to be is known: it is made again.
            there = "" if name == SUMMARY else where(files[name], said, parts.get(name, ()))
            _say_changed(audit, f"{path}!{name}", there, found, f"line {number} of {DIGESTS}", said)
            yield name


def _parts(files: Mapping[str, bytes]) -> dict[str, list[str]]:
    """Return the digests that the manifest has of the parts of files, if it can be read."""
    try:
        return Manifest.read(files[MANIFEST]).parts
    except Fault:
        return {}


def _say_changed(audit: Audit, name: str, there: str, found: str, line: str, said: str) -> None:
    """Say of a file that it was changed, and where, as far as that is known."""
    what = f"its SHA-256 is {found}, and {line} says {said}: the file was changed"
    audit.add(SentenceKind.WRONG, f"{name}: {there}; {what}" if there else f"{name}: {what}")


def _manifest_changed(files: Mapping[str, bytes]) -> str:
    """Return in words where the manifest was changed, if one digit of it was."""
    _, said = _digests(files).get(MANIFEST, (0, ""))
    return "" if said == digest(files[MANIFEST]) else where(files[MANIFEST], said)


def _manifest_digest(
    audit: Audit, path: str, files: Mapping[str, bytes], differs: bool, there: str
) -> bool:
    """Say whether the manifest's digest is another one, and return whether it isn't.

    Then the manifest was changed, if something differs or the place is known, or else the digest.
    """
    number, said = _digests(files).get(MANIFEST, (0, ""))
    found = digest(files[MANIFEST])
    if said == found:
        return True
    if differs or there:
        line = f"line {number} of {DIGESTS}"
        _say_changed(audit, f"{path}!{MANIFEST}", there, found, line, said)
    else:
        what = f"line {number}: this isn't" if number else "there is no line with"
        rest = f"the digest of {MANIFEST}, which agrees with all other files"
        audit.add(SentenceKind.WRONG, f"{path}!{DIGESTS}: {what} {rest}: a digest was changed")
    return False


def _manifest(audit: Audit, path: str, files: Mapping[str, bytes]) -> Manifest | None:
    """Return the manifest, or say why it is none."""
    try:
        manifest = Manifest.read(files[MANIFEST])
        words_read(manifest.words)
    except Fault as fault:
        said = str(fault).removeprefix(f"{MANIFEST}: ")
        audit.add(
            SentenceKind.WRONG, f"{path}!{MANIFEST}: {said}; the words are taken from the report"
        )
        return None
    return manifest


def _made_again(
    audit: Audit,
    path: str,
    files: Mapping[str, bytes],
    manifest: Manifest,
    changed: Collection[str],
) -> list[str]:
    """Make manifest and summary again from session and output, and return those that differ.

    If they differ because another file was changed, this was said already.
    """
    try:
        again = bundle_files(files[SESSION], files[OUTPUT], manifest, carried_in(files))
    except KeyError:
        what = f"the session has no period {manifest.period}"
        audit.add(SentenceKind.WRONG, f"{path}!{MANIFEST}: {what}, which is said to be archived")
        return [MANIFEST]
    except (Fault, ValueError) as fault:
        audit.add(SentenceKind.WRONG, f"{path}!{OUTPUT}: {str(fault).removeprefix(OUTPUT + ': ')}")
        return [OUTPUT]
    differ = [name for name in (SUMMARY, MANIFEST) if files[name] != again[name]]
    causes = {SESSION, OUTPUT, MANIFEST} & set(changed)
    for name in differ:
        if name not in causes and (name in changed or not causes):
            found = differs_at(files[name], again[name])
            what = f"found {found.one}, and {found.other} follows from the other files"
            audit.add(SentenceKind.WRONG, f"{path}!{name}: {found.place}: {what}")
    return differ


def session_held(audit: Audit, given: Audited, path: str) -> None:
    """Hold the session of a bundle against that of the books, which may have gone on since."""
    source, data = read_bytes(path, SESSION_BYTES)
    if data.startswith(given.data):
        rest = "" if data == given.data else ", with which it begins"
        audit.add(SentenceKind.GOOD, f"{given.session}: it is that of the books, {source}{rest}")
        return
    there = differs_at(given.data, data)
    what = f"found {there.one}, and the session of the books, {source}, has {there.other}"
    audit.add(SentenceKind.WRONG, f"{given.session}: {there.place}: {what}")
