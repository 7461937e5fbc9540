"""Changes of inputs at random: bytes, fields, rows, members of zips, bundles, journals."""

from __future__ import annotations

import csv
import hashlib
import io
import random
import zipfile
from collections.abc import Callable
from dataclasses import replace

from plantbal.book.journal import FIRST_BEFORE, HEAD_TEXT, HEADS, journal_text
from plantbal.audit.bundle import DIGESTS, MANIFEST, NAMES, Manifest, digests_text, packed
from plantbal.audit.changed import digest
from plantbal.faults import Fault

# What a field or a cell may become: ends of ranges, other forms, other kinds of texts.
ODD = (
    "", "0", "-1", "1", "x", "env", "A", "9" * 20, "9" * 5000, "-" + "9" * 40, "1e9", "1.5", "1,5",
    "NaN", "inf", "=1+1", "\x1b[2J", "\0", '"', '""', "ü", "\udcff", "2024-02-30", "2024-05-01",
    "redundant", "unobservable", "reject", "cut", "cycle", "+A -B", "+", " ", "a" * 40, "late",
    "report", "end", "window", "yes", "no", "100 %", "3 mm", "kg", "t", "1899-12-31", "[" * 3000,
    "[" * 300_000, "{}", '{"row":"end"}', "\ufeff", "\r", "true", "١٢", "−5", "- - -", "None",
    "2024.csv", "../x", "reports/2024-04.csv", "0001-01-01", "9999-12-31", "1e400", "1_000",
)  # fmt: skip
Change = Callable[[random.Random, bytes], bytes]


def changed(rng: random.Random, data: bytes, ending: str) -> bytes:
    """Return an input, changed at up to four places."""
    if ending == ".xlsx" and rng.random() < 0.8:
        return _changed_zip(rng, data)
    if ending == ".zip" and rng.random() < 0.9:
        return _changed_bundle(rng, data)
    return _some(rng, data)


def _some(rng: random.Random, data: bytes) -> bytes:
    """Change a text at up to four places."""
    kinds: tuple[Change, ...] = (_bytes, _fields, _fields, _fields, _rows, _rows)
    for _ in range(rng.choice((1, 1, 1, 2, 4))):
        data = rng.choice(kinds)(rng, data)
    return data


def _bytes(rng: random.Random, data: bytes) -> bytes:
    """Change, insert, take out or repeat some bytes, or cut the end off."""
    at = rng.randrange(len(data) + 1)
    length = rng.choice((1, 1, 2, 8, 100))
    part = data[at : at + length]
    other = bytes(rng.randrange(256) for _ in range(rng.choice((1, 2, 4))))
    return rng.choice(
        (
            data[:at] + other + data[at + length :],
            data[:at] + other + data[at:],
            data[:at] + data[at + length :],
            data[:at] + part * rng.choice((2, 3, 50)) + data[at + length :],
            data[:at],
            b"\xff\xfe" + data[at:],
        )
    )


def _fields(rng: random.Random, data: bytes) -> bytes:
    """Change a field: to an odd text, or to another field of the file."""
    lines = data.split(b"\n")
    at = rng.randrange(len(lines))
    fields = lines[at].split(b",")
    other = rng.choice(lines).split(b",")
    odd = rng.choice(ODD).encode("utf-8", "surrogateescape")
    fields[rng.randrange(len(fields))] = rng.choice((odd, rng.choice(other)))
    lines[at] = b",".join(fields)
    return b"\n".join(lines)


def _rows(rng: random.Random, data: bytes) -> bytes:
    """Take a row out, repeat it, move it, or make a field more or less of it."""
    lines = data.split(b"\n")
    at, to = rng.randrange(len(lines)), rng.randrange(len(lines))
    row = lines[at]
    how = rng.randrange(6)
    if how == 0:
        del lines[at]
    elif how == 1:
        lines.insert(to, row)
    elif how == 2:
        lines[at], lines[to] = lines[to], row
    elif how == 3:
        lines[at] = row + rng.choice((b",", b",x", b",,,", b';"'))
    elif how == 4:
        lines[at] = row.rpartition(b",")[0]
    else:
        lines[at:at] = [row] * rng.choice((2, 120))
    return b"\n".join(lines)


def _changed_zip(rng: random.Random, data: bytes) -> bytes:
    """Change a member of a zip, take one out, or give it another name."""
    out = io.BytesIO()
    with zipfile.ZipFile(io.BytesIO(data)) as given:
        names = given.namelist()
        chosen = rng.choice([name for name in names if "sheet" in name] + names)
        with zipfile.ZipFile(out, "w", zipfile.ZIP_DEFLATED) as made:
            for name in names:
                member = given.read(name)
                if name == chosen:
                    how = rng.randrange(8)
                    if how == 0:
                        continue
                    member = _bytes(rng, member) if how < 3 else _changed_xml(rng, member)
                made.writestr(name, member)
    return out.getvalue()


def _changed_xml(rng: random.Random, data: bytes) -> bytes:
    """Change what stands between two quotes or two marks of XML."""
    ends = [at for at, byte in enumerate(data) if byte in b'"<>']
    if len(ends) < 2:
        return data
    at = rng.randrange(len(ends) - 1)
    odd = rng.choice(ODD).encode("utf-8", "replace").replace(b"<", b"&lt;")
    return data[: ends[at] + 1] + odd + data[ends[at + 1] :]


# ---- bundles and journals, whose digests are made anew


def _changed_bundle(rng: random.Random, data: bytes) -> bytes:
    """Change a file of a bundle; mostly its digests are made anew, as a stranger would."""
    with zipfile.ZipFile(io.BytesIO(data)) as given:
        files = {name: given.read(name) for name in given.namelist()}
    name = rng.choice(NAMES)
    files[name] = _some(rng, files[name])
    if rng.random() < 0.8:
        files = _summed(files)
    made = packed(files)
    return _bytes(rng, made) if rng.random() < 0.1 else made


def _summed(files: dict[str, bytes]) -> dict[str, bytes]:
    """Return a bundle's files with the digests that they have."""
    try:
        manifest = Manifest.read(files[MANIFEST])
        sums = {name: digest(files[name]) for name in manifest.files if name in files}
        files[MANIFEST] = replace(manifest, files=sums).to_json()
    except (Fault, TypeError, ValueError):
        pass  # the manifest itself was changed
    return files | {DIGESTS: digests_text(files)}


def rebound(data: bytes) -> bytes:
    """Return a changed journal as a stranger leaves it: its lines are bound to each other again."""
    lines = data.decode("utf-8", "replace").splitlines()[1:]
    before, rows = FIRST_BEFORE, []
    csv.field_size_limit(1 << 24)
    for number, cells in enumerate(csv.reader(lines), start=1):
        row = [*cells[: len(HEADS) - 2], before]
        if cells[:1] != [""]:
            row[0] = str(number)
        before = hashlib.sha256(journal_text([row]).rstrip("\n").encode()).hexdigest()
        rows.append([*row, before])
    return (HEAD_TEXT + journal_text(rows)).encode()
