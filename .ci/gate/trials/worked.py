"""Runs the program on the worked cases, and compares its output and its status, byte for byte.

    .ci/worked PROGRAM [FILE..]

The cases are those of the files, or of all files of examples/worked. `cases.py`
says what a file looks like. What they give was worked out apart from the program.
"""

from __future__ import annotations

import sys
from itertools import zip_longest
from pathlib import Path

from gate.checkout import TOP
from gate.running import run
from gate.trials import cases


def differs(program: Path, case: cases.Case) -> str:
    """Return in words how the program does otherwise, or nothing."""
    ran = run(program, case.words, case.given.encode())
    if ran.status != case.status or ran.error:
        return f"status {ran.status} and not {case.status}: {ran.error.decode()}"
    output = ran.output.decode(errors="replace")
    if output == case.wanted:
        return ""
    rows = zip_longest(output.splitlines(True), case.wanted.splitlines(True), fillvalue="no row")
    found, wanted = next(pair for pair in rows if pair[0] != pair[1])
    return f"{found!r} and not {wanted!r}"


def main(words: list[str]) -> int:
    """Run the cases, and return 1 if the program does otherwise in one of them."""
    if not words:
        sys.exit(__doc__)
    program, files = Path(words[0]).resolve(), [Path(name) for name in words[1:]]
    failed = 0
    for file in files or sorted((TOP / cases.FOLDER).glob("*.cases")):
        found = cases.cases(file.read_bytes().decode("utf-8"))
        for case in found:
            if said := differs(program, case):
                print(f"worked: {file.name}: {case.title}: {said}")
                failed = 1
        print(f"worked: {file.name}: {len(found)} cases")
    return failed
