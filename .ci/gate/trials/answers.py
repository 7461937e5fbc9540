"""Edits that the prover accepts, since every call may be out of memory, and that a run must refuse.

    .ci/answers             tries each crates/NAME/answers/*.edit
    .ci/answers EDIT..      tries these

Such an edit answers that it is out of memory where there is memory. Its first line names the run
that has to end otherwise with it: an example, by its path without an ending (NAME.in, NAME.words,
NAME.status), or `.ci/long_sessions SESSION`. The other lines are those of a must-fail edit. The
edit is applied to a copy of the sources, and `./plantbal` builds the program there without proofs.
"""

from __future__ import annotations

import tempfile
from dataclasses import dataclass
from pathlib import Path

from gate.checkout import TOP, copied
from gate.running import Status, run

LONG = ".ci/long_sessions "
EDITS = "crates/*/answers/*.edit"


def read(path: str) -> str:
    """Return the text of a file of the checkout."""
    return (TOP / path).read_text(encoding="utf-8")


@dataclass(frozen=True)
class Edit:
    """An edit: the run that refuses it, and in each file what stands once and what is put there."""

    path: str
    run: str
    changes: list[tuple[str, str, str]]

    @property
    def crate(self) -> str:
        return self.path.split("/")[1]


def edit_of(path: str) -> Edit:
    """Return an edit by its lines."""
    run, file, old, changes = "", "", "", []
    for line in read(path).splitlines():
        word, _, text = line.partition(": ")
        if word == "run":
            run = text
        elif word == "file":
            file = text
        elif word == "old":
            old = text
        elif word == "new":
            changes.append((file, old, text))
        else:
            raise SystemExit(f"answers: {path}: what is this line? {line}")
    if not run or not changes:
        raise SystemExit(f"answers: {path}: no run refuses it, or it changes nothing")
    return Edit(path, run, changes)


def apply(edit: Edit, copy: Path) -> None:
    """Apply an edit to a copy of the sources."""
    for file, old, new in edit.changes:
        path = copy / "crates" / edit.crate / file
        text = path.read_text(encoding="utf-8")
        if text.count(old) != 1:
            raise SystemExit(f"answers: {edit.path}: `{old}` isn't there once in {file}")
        path.write_text(text.replace(old, new), encoding="utf-8")


def refused(edit: Edit, copy: Path) -> bool:
    """Return whether the run of an edit is out of memory in a copy, which it isn't by itself."""
    program = copy / "plantbal"
    if edit.run.startswith(LONG):
        words = [str(program), edit.run.removeprefix(LONG)]
        ended = run(TOP / LONG.strip(), words, seconds=None)
        return ended.status != 0 and f"(status {Status.NO_MEMORY:d})" in ended.output.decode()
    given = (TOP / f"{edit.run}.in").read_bytes()
    ended = run(program, read(f"{edit.run}.words").split(), given, seconds=None)
    return ended.status == Status.NO_MEMORY != int(read(f"{edit.run}.status"))


def tried(path: str) -> bool:
    """Try an edit, and return whether it is refused."""
    edit = edit_of(path)
    with tempfile.TemporaryDirectory() as work:
        copy = copied(Path(work) / "copy")
        apply(edit, copy)
        good = refused(edit, copy)
    said = "refused" if good else "NOT REFUSED"
    print(f"answers: {edit.crate}: {Path(path).stem}: {said} by {edit.run}", flush=True)
    return good


def main(words: list[str]) -> int:
    """Try these edits, or all, and return 1 if one isn't refused."""
    paths = words or sorted(str(path.relative_to(TOP)) for path in TOP.glob(EDITS))
    return 0 if all([tried(path) for path in paths]) else 1
