"""Runs a night on a scheduler and three workers with disks of their own, one killed in the middle.

    .ci/cluster_tries PROGRAM [--plants N] [--books N] [--years N] [--pause SECONDS]

Each plant and each book has to be in the night once, with its own output, and all nights and books
have to come into one database. The gate makes the same of 40 plants (test_cluster.py); `make
cluster-tries` of 10,000 plants with tests and 100 books of five years.
"""

from __future__ import annotations

import argparse
import os
import sys
import tempfile
import time
from pathlib import Path

from gate.checkout import TOP

sys.path[:0] = [str(TOP / "python"), str(TOP / "python" / "tests")]

from cluster import faults_of, night  # noqa: E402

from plantbal import desk  # noqa: E402


def main(words: list[str]) -> int:
    """Make a night, and say what came of it."""
    parser = argparse.ArgumentParser(description=__doc__.splitlines()[0])
    parser.add_argument("program", type=Path)
    parser.add_argument("--plants", type=int, default=10_000)
    parser.add_argument("--books", type=int, default=100)
    parser.add_argument("--years", type=int, default=5)
    parser.add_argument("--pause", type=float, default=0.0, help="seconds before each run")
    options = parser.parse_args(words)
    program = options.program.resolve()
    os.environ["PLANTBAL"] = str(program)
    with tempfile.TemporaryDirectory(prefix="plantbal-cluster-") as name:
        room = Path(name)
        found = night(room, program, options.plants, options.books, options.years, options.pause)
        wrong = faults_of(found, options.plants, options.books, room)
        size = (room / "head" / "out" / "nights" / "2026-11-29" / "outputs.sqlar").stat().st_size
        print(
            f"cluster: {len(found.rows)} rows in {found.seconds:.0f} s; begun {found.runs} by the"
            f" workers, the second of which was killed; the pack has {size:,} bytes"
        )
        begun = time.monotonic()
        across = next(command for command in desk.COMMANDS if command.word == "across")
        folders = [str(room / "head" / "out"), *map(str, sorted(room.glob("head/sessions/book*")))]
        given = ["--out", str(room / "group.sqlite"), *folders]
        if desk.run_words(desk.parser_of(across, "plantbal-desk across"), given):
            wrong.append("not all of it came into one database")
        print(f"cluster: across took {time.monotonic() - begun:.0f} s")
    for line in wrong:
        print(f"cluster: {line}, which is wrong")
    return int(bool(wrong))
