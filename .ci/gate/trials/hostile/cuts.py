"""Sessions and reports that are cut at each of their bytes."""

from __future__ import annotations

import csv

from gate.running import Ended, Status
from gate.trials.hostile.scene import Scene, difference, many
from gate.trials.hostile.sessions import (
    AMENDED,
    AMENDED_DIP,
    ENDS,
    FIELDS,
    OUTSIDE,
    SERVED,
    SESSION_2,
)


def refusal(rest: str, has_service: bool, closed: bool) -> tuple[int, str] | None:
    """The code and the word of the refusal of a row that is cut, and None where it is a row of its kind, or blank: by the number of its
    fields, and by what the last of them is. In a session of version 2 it may have dates of service, and has to after a close.
    """
    fields: list[str] = next(csv.reader([rest]), [])
    while fields and not fields[-1]:
        fields.pop()
    if not fields:
        return None
    if fields[0] == "late" and len(fields) > 1:
        fields = fields[1:]
        if fields[0] not in ("reading", "transfer", "dip"):
            return 1, "kind"
    if fields[0] == "critical" and len(fields) > 1:
        fields = [",".join(fields[:2])] + fields[2:]
    if fields[0] == "advise":
        return (2, "fields") if len(fields) % 2 == 0 else None
    if fields[0] not in ("critical", "late", "amend") and fields[0] not in FIELDS:
        return 1, "kind"
    if fields[0] == "stream" and len(fields) > 4 and fields[4] not in ("metered", "batch", "plain"):
        return 1, "kind"
    wanted = (
        (AMENDED_DIP if fields[1:2] == ["p2"] else AMENDED)
        if fields[0] == "amend"
        else FIELDS.get(fields[0], "none").split()
    )
    served = SERVED.get(fields[0], "").split()
    if has_service and served and len(fields) == len(served) + 1:
        wanted = served
    if fields[0] == "amend" and wanted is AMENDED_DIP and len(fields) == 5:
        return 9, "mismatch"
    if len(fields) != len(wanted) + 1:
        return 2, "fields"
    if wanted[-1:] == ["date"] and len(fields[-1]) < 10:
        return 5, "date"
    if has_service and closed and served and wanted is not served:
        return 10, "sealed"
    if wanted[-1:] == ["known"] and fields[-1] not in ("d1", "d2"):
        return 6, "unknown"
    return None


def cut(scene: Scene, whole: list[Ended], place: int) -> str | None:
    """Say what is wrong with the output of a session that is cut.

    It is that of the records that are there whole, and of the cut one its refusal, or nothing where
    it is a row of its kind.
    """
    text = scene.text[:place]
    count = text.count(b"\n")
    rest = text[text.rfind(b"\n") + 1 :].decode()
    line = scene.text.splitlines()[count].decode() if rest else ""
    known = whole[count + 1 if rest and rest.rstrip(",") == line.rstrip(",") else count]
    status, output = known.status, known.output
    closed = any(row.startswith(b"close") for row in text.splitlines()[:count])
    refused = None if rest == line else refusal(rest, scene.text is SESSION_2, closed)
    if rest.startswith("advise") and not refused:
        # a part of it may be a row that asks for another answer: that of the row with its end
        known = scene.trial.run(scene.words, text + b"\n")
        status, output = known.status, known.output
    if refused:
        code, word = refused
        status = Status.DONE_REFUSED
        output += f"refused,{count + 1},{code},{word}\n".encode()
    found = scene.trial.run(scene.words, text)
    return difference(f"cut at {place}, {rest!r}", found, Ended(status, output, b""))


def cuts(scene: Scene) -> None:
    """Cut a session at each of its bytes."""
    lines = scene.text.splitlines(keepends=True)
    parts = (b"".join(lines[:count]) for count in range(len(lines) + 1))
    whole = [scene.trial.run(scene.words, part) for part in parts]
    jobs = [(scene, whole, place) for place in range(len(scene.text) + 1)]
    scene.trial.report(f"{scene.name}: cut at each of {len(scene.text)} bytes", many(cut, jobs))


def cut_report(scene: Scene, place: int) -> str | None:
    """Say what is wrong with the check of a report that is cut.

    It has a yes for each block that is there whole, and after the last of them at most one row, of
    the first record that is no part of an output; within a block it is the cut row, or the end of
    the input.
    """
    found = scene.trial.run(scene.words, scene.text[:place])
    records = scene.text[:place].decode().splitlines()
    ends = [number for number, record in enumerate(records, 1) if record in ENDS]
    rows = found.output.decode().splitlines()
    tail = records[ends[-1] :] if ends else records
    passed = [record.split(",")[0] in OUTSIDE for record in tail]
    unreadable = [] if all(passed) else rows[len(ends) :]
    faults = [
        rows[: len(ends)] != scene.output.decode().splitlines()[: len(ends)],
        len(rows) != len(ends) + len(unreadable),
        found.status != (Status.DONE if all(passed) else Status.DONE_REFUSED),
        found.error,
    ]
    if not all(passed):
        row = unreadable[0].split(",") if len(unreadable) == 1 else [""]
        faults.append(row[0] != "unreadable" or int(row[1]) not in (len(records), len(records) + 1))
        faults.append(
            row[0] == "unreadable" and int(row[1]) > len(records) and row[2:] != ["11", "ended"]
        )
    said = f"cut at {place}: status {found.status:d}, {found.output[-80:]!r}"
    return said if any(faults) else None


def report_cuts(scene: Scene) -> None:
    """Cut a report at each of its bytes."""
    jobs = [(scene, place) for place in range(len(scene.text) + 1)]
    scene.trial.report(f"check: cut at each of {len(scene.text)} bytes", many(cut_report, jobs))
