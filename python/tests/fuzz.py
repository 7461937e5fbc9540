"""Changes inputs at random and gives them to the subcommands: no traceback, no hang, no other
status than the documented ones.

    python3 python/tests/fuzz.py [--count N] [--seconds S] [--seed N] [--only WORD] [--keep FOLDER]
                                 [--counts]

Everything happens in this process. `fuzzed.py` has the subcommands and the inputs, which are the
sessions, outputs and workbooks of examples/, a book, bundles and a fleet's folder; `mutated.py` has
the changes. Each subcommand has as much of the time as each other. An input that fails is kept, and
its file and command are printed; the status is 1 then.
"""

from __future__ import annotations

import argparse
import contextlib
import io
import random
import re
import resource
import shutil
import signal
import sys
import tempfile
import time
import traceback
from collections import Counter
from collections.abc import Callable, Iterator
from dataclasses import dataclass
from pathlib import Path
from typing import Any

TOP = Path(__file__).resolve().parents[2]
sys.path.insert(0, str(TOP / "python"))

from fuzzed import Target, targets  # noqa: E402
from mutated import changed  # noqa: E402

from plantbal import desk  # noqa: E402
from plantbal.faults import ToolMissing  # noqa: E402
from plantbal.program import find_program  # noqa: E402

HANG = 60  # seconds of a processor; of the clock twenty times as many: the machine may be busy
STATUSES = {"run": {0, 1, 2, 3, 4, 5, 6}, "archive": {0, 1, 2, 3, 4, 5, 6}}
NORMAL = {0, 1, 2}
# A fleet says of a plant, and goes on, what else would be a traceback.
_RAISED = re.compile(r"Traceback|: [A-Z][A-Za-z]*(?:Error|Exception): ")


class Hang(Exception):
    """A command took too long."""


@dataclass
class Failure:
    """What went wrong with an input."""

    target: Target
    what: str
    where: str


def tried(target: Target, path: Path) -> Failure | None:
    """Call a subcommand with a file, and return what is wrong with how it ended."""
    words = [str(path) if word == "{}" else word for word in target.words]
    signal.setitimer(signal.ITIMER_PROF, HANG)
    signal.alarm(20 * HANG)
    try:
        with _quiet() as said:
            status = target.call() if target.call else desk.run_words(_parser(words[0]), words[1:])
        if found := _RAISED.search(said()):
            return Failure(target, said()[max(0, found.start() - 100) : found.end() + 100], "")
    except SystemExit as ended:
        status = int(ended.code or 0)
    except BaseException as error:  # whatever comes is what is looked for
        where = traceback.extract_tb(error.__traceback__)[-1]
        text = f"{Path(where.filename).name}:{where.lineno}"
        return Failure(target, f"{type(error).__name__}: {str(error)[:200]}", text)
    finally:
        signal.setitimer(signal.ITIMER_PROF, 0)
        signal.alarm(0)
    if status not in STATUSES.get(words[0], NORMAL):
        return Failure(target, f"the status is {status}", "")
    return None


_PARSERS: dict[str, argparse.ArgumentParser] = {}


def _parser(word: str) -> argparse.ArgumentParser:
    """Return the parser of a subcommand, which is made once."""
    if word not in _PARSERS:
        command = next(each for each in desk.COMMANDS if each.word == word)
        _PARSERS[word] = desk.parser_of(command, f"plantbal-desk {word}")
    return _PARSERS[word]


@contextlib.contextmanager
def _quiet() -> Iterator[Callable[[], str]]:
    """Keep what is said in this process, and give what was said on standard error."""
    streams = [io.TextIOWrapper(io.BytesIO(), encoding="utf-8") for _ in range(3)]
    before = sys.stdin, sys.stdout, sys.stderr
    sys.stdin, sys.stdout, sys.stderr = streams

    def said() -> str:
        streams[2].flush()
        return streams[2].buffer.getvalue().decode("utf-8", "replace")  # type: ignore[attr-defined]

    try:
        yield said
    finally:
        sys.stdin, sys.stdout, sys.stderr = before


def _stop(*_: Any) -> None:
    raise Hang(f"more than {HANG} seconds of a processor")


def fuzz(
    count: int,
    seconds: float,
    *,
    seed: int = 0,
    only: str = "",
    keep: Path | None = None,
    counts: bool = False,
    say: Callable[[str], None] = print,
) -> int:
    """Try that many inputs, or as many as there is time for, and return how many failed."""
    for each in (signal.SIGALRM, signal.SIGPROF):
        signal.signal(each, _stop)
    rng, begin, done = random.Random(seed), time.monotonic(), Counter[str]()
    spent, failures = Counter[str](), Counter[tuple[str, str, str]]()
    with tempfile.TemporaryDirectory(prefix="plantbal-fuzz-") as name:
        room = Path(name)
        every = [each for each in targets(room) if only in each.name]
        if not _has_program():
            every = [each for each in every if not each.needs_program]
        given = {path: path.read_bytes() for each in every for path in each.seeds}
        while sum(done.values()) < count and time.monotonic() - begin < seconds:
            target = min(every, key=lambda each: (spent[each.name], rng.random()))
            began, path = _spent(), room / f"input{target.ending}"
            seed = rng.choice(target.seeds)
            path.write_bytes(changed(rng, given[seed], target.ending))
            if target.put is not None:
                target.put(rng, seed, path.read_bytes())
            done[target.name] += 1
            failure = tried(target, path)
            spent[target.name] += _spent() - began
            if failure is not None:
                key = target.words[0], failure.what[:60], failure.where
                failures[key] += 1
                if failures[key] == 1:
                    say(_kept(failure, path, keep, len(failures)))
    took = time.monotonic() - begin
    for name, number in done.items() if counts else ():
        say(f"fuzz: {number:,} of {name}")
    say(f"fuzz: {sum(done.values()):,} inputs in {took:.0f} s, {sum(failures.values())} failed")
    return sum(failures.values())


def _spent() -> float:
    """Return the time that processors gave to this process and to those that it waited for."""
    children = resource.getrusage(resource.RUSAGE_CHILDREN)
    return time.process_time() + children.ru_utime + children.ru_stime


def _has_program() -> bool:
    try:
        find_program()
    except ToolMissing:
        return False
    return True


def _kept(failure: Failure, path: Path, keep: Path | None, number: int) -> str:
    """Keep an input that failed, and return what is said of it."""
    folder = keep or Path(tempfile.gettempdir()) / "plantbal-fuzz-failed"
    folder.mkdir(parents=True, exist_ok=True)
    kept = folder / f"{number:03}-{failure.target.words[0]}{path.suffix}"
    shutil.copyfile(path, kept)
    words = failure.target.name.replace("{}", str(kept))
    return f"fuzz: plantbal-desk {words}: {failure.what} ({failure.where})"


def main() -> int:
    """Read the words, and try."""
    parser = argparse.ArgumentParser(description=__doc__)
    parser.add_argument("--count", type=int, default=10**9, help="at most this many inputs")
    parser.add_argument("--seconds", type=float, default=60, help="at most this many seconds")
    parser.add_argument("--seed", type=int, default=0, help="where chance begins")
    parser.add_argument("--only", default="", help="only commands with this text in their words")
    parser.add_argument("--keep", type=Path, help="where inputs that fail are kept")
    parser.add_argument("--counts", action="store_true", help="say how many of each were tried")
    given = parser.parse_args()
    failed = fuzz(
        given.count,
        given.seconds,
        seed=given.seed,
        only=given.only,
        keep=given.keep,
        counts=given.counts,
    )
    return 1 if failed else 0


if __name__ == "__main__":
    sys.exit(main())
