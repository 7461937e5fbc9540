"""Compares the model of a session with the program, on random sessions.

    python3 python/tests/compare_sessions.py PROGRAM COUNT [FIRST]
    make compare-sessions COUNT=100000 FIRST=0

Each session has rows of all kinds, right and wrong, in version 1 or 2, some with a run of readings.
Compared are the refused rows with their codes, and each answer to a ``history`` row: whether the
period is closed, and the rows that edit what touches it. The codes alone, and the facts in the end,
are compared with those that a reader finds that asks nothing more of each row. `PLANTBAL_LIBRARY`
names the library that answers the rows; with `none` the rules of the package do.
"""

from __future__ import annotations

import csv
import io
import subprocess
import sys
import time
from collections.abc import Iterator
from pathlib import Path

from sessions import session_of

from plantbal.model.asking import History
from plantbal.model.causes import Refused
from plantbal.model.facts import Edit
from plantbal.model.file import Rows, Step, steps
from plantbal.model.refusals import Coded
from plantbal.model.ledger import Ledger
from plantbal.model.state import State

Row = tuple[str, ...]


def of_program(program: Path, data: bytes) -> list[Row]:
    """Return the rows ``refused``, ``history`` and ``edit`` that the program writes."""
    words = [program, "run", "--sweeps", "0"]
    done = subprocess.run(words, input=data, stdout=subprocess.PIPE, close_fds=False)
    assert done.returncode in (0, 1), f"the program ended with status {done.returncode}"
    rows = csv.reader(io.StringIO(done.stdout.decode(), newline=""))
    return [_whole(row) for row in rows if row[0] in ("refused", "history", "edit")]


def of_model(data: bytes) -> list[Row]:
    """Return the same rows by the model."""
    state = State()
    return [row for step in steps(state, data) for row in _rows_of(state, step)]


def _rows_of(state: State, step: Step | Rows | Coded) -> Iterator[Row]:
    if not isinstance(step, Step):
        return
    if isinstance(step.answer, Refused):
        cause = step.answer.cause
        yield _whole(["refused", str(step.at.record), str(int(cause)), cause.word])
    elif isinstance(step.answer.effect, History):
        yield from _history_of(state, step.answer.effect.period)


def _history_of(state: State, period: str) -> Iterator[Row]:
    edits = [edit for edit in state.edits if period in _touched(state, edit)]
    closed = "closed" if period in state.periods.closed else "open"
    yield _whole(["history", period, closed, str(len(edits))])
    for edit in edits:
        fact = edit.after or edit.before
        identity = "" if fact is None else fact.id
        yield _whole(["edit", str(edit.at.record), edit.word, identity, edit.reason])


def _touched(state: State, edit: Edit) -> list[str]:
    fact = edit.after or edit.before
    return [edit.period] if fact is None else [each.name for each in state.periods_of(fact)]


def _whole(row: list[str]) -> Row:
    """Return a row without empty fields at its end."""
    return tuple(row[: len(row) - next((n for n, text in enumerate(row[::-1]) if text), len(row))])


def is_alike(program: Path, data: bytes) -> bool:
    """Say whether the program, the model and a reader of codes alone say the same of a session."""
    said, state, by_codes = of_program(program, data), State(), Ledger("", data, kept=0)
    rows = [row for step in steps(state, data) for row in _rows_of(state, step)]
    codes = [(int(row[1]), int(row[2])) for row in rows if row[0] == "refused"]
    return (
        rows == said
        and codes == sorted(by_codes.refused.pairs())
        and list(state.facts) == list(by_codes.state.facts)
    )


def differing(program: Path, numbers: range) -> Iterator[int]:
    """Give the numbers of the sessions of which one of them says something else."""
    return (number for number in numbers if not is_alike(program, session_of(number)))


def main() -> int:
    """Compare the sessions of the numbers that are asked for."""
    program, count, *first = sys.argv[1:]
    begin, start = int(first[0]) if first else 0, time.monotonic()
    wrong = 0
    for number in differing(Path(program), range(begin, begin + int(count))):
        wrong += 1
        print(f"session {number}: the model and the program differ", flush=True)
    seconds = time.monotonic() - start
    print(
        f"{count} random sessions from number {begin} on in {seconds:.0f} s: "
        f"{wrong} answered otherwise than by the program"
    )
    return 1 if wrong else 0


if __name__ == "__main__":
    sys.exit(main())
