"""Tries a book: commands that are killed, that meet a full or a faulty disk, and that come in pairs.

    .ci/book_tries PROGRAM [--kills N] [--pairs N] [--steps N] [--seed N]

After each try the book has to be as before the command or as after it, `book verify` has to find
all its files as the journal says, and to type the command again has to come to the same end.

  --kills  how often a command is killed at a random moment
  --pairs  how often two commands run at once
  --steps  at how many of the system calls that write each command is killed, and gets EIO and
           ENOSPC: a number, or all

The gate makes some of each in a few seconds; `make book-tries` makes them all. On SIGTERM what came
of the tries so far is said.
"""

from __future__ import annotations

import argparse
import os
import random
import shutil
import signal
import subprocess
import sys
import tempfile
import time
from collections import Counter
from collections.abc import Iterator
from contextlib import suppress
from pathlib import Path

from gate.checkout import TOP

sys.path[:0] = [str(TOP / "python"), str(TOP / "python" / "tests")]

from books import ANYWAY, PLANT, files_of, folder, journal_of, month, typed  # noqa: E402
from conftest import text_of  # noqa: E402

from plantbal.book.store import Store  # noqa: E402

# What writes; of `openat` only what makes a file.
CALLS = ("openat", "write", "fsync", "rename", "unlink", "mkdir", "fchmod", "fchown")
WHY = ["--why", "a look at the log"]
Files = dict[str, str]


class Tries:
    """Tries of one book, in a folder of their own.

    Parameters
    ----------
    room : Path
        The folder.
    seed : int
        Of the random moments.
    """

    def __init__(self, room: Path, seed: int) -> None:
        self.room = room
        self.mill = room / "mill"
        self.chance = random.Random(seed)
        self.faults: list[str] = []
        self.counts: Counter[str] = Counter()
        later = month(last=9)
        later["readings"][2][1] = "1210"
        for name, sheets in {"plant": PLANT, "april": month(last=9), "later": later}.items():
            folder(room / name, sheets)
        self.commands = {
            "add": ["add", str(room / "april")],
            "amend": ["amend", "truck-04", "32000 t", *WHY, "--error", "500 t"],
            "add again": ["add", str(room / "later"), *WHY],
            "report": ["report", "--no-tests"],
            "close": ["close", "2024-04", *ANYWAY],
        }

    def begun(self) -> None:
        """Make the book anew."""
        shutil.rmtree(self.mill, ignore_errors=True)
        self.run(["new", "2024", str(self.room / "plant")])

    def words(self, command: list[str]) -> list[str]:
        """Return a command's words with those of the book."""
        return [*command, "--book", str(self.mill), "--who", "anna"]

    def run(self, command: list[str]) -> int:
        """Type a command in a child of this process, and return its status."""
        child = self.child(command)
        return os.waitstatus_to_exitcode(os.waitpid(child, 0)[1])

    def child(self, command: list[str]) -> int:
        """Begin a command in a child of this process."""
        child = os.fork()
        if child:
            return child
        status = 2
        signal.signal(signal.SIGTERM, signal.SIG_DFL)
        try:
            os.setpgid(0, 0)
            said = os.open(self.room / "said", os.O_RDWR | os.O_CREAT | os.O_TRUNC)
            for number in (1, 2):
                os.dup2(said, number)
            status = typed(*self.words(command))
        finally:
            os._exit(status)

    def cases(self) -> Iterator[tuple[str, list[str], Path, Files, Files]]:
        """Give each command with the book before it, and its files before and after it."""
        self.begun()
        saved = self.room / "saved"
        for name, command in self.commands.items():
            shutil.rmtree(saved, ignore_errors=True)
            shutil.copytree(self.mill, saved)
            before = files_of(self.mill)
            self.run(command)
            after = files_of(self.mill)
            if before == after:
                self.faults.append(f"{name}: it does nothing")
            yield name, command, saved, before, after
            self.put_back(saved)
            self.run(command)

    def put_back(self, saved: Path) -> None:
        """Have the book as it was."""
        shutil.rmtree(self.mill, ignore_errors=True)
        shutil.copytree(saved, self.mill)

    def judge(self, what: str, command: list[str], before: Files, after: Files) -> str:
        """Look at the book after a try, and type the command again; return how the book was."""
        with Store(self.mill).opened():
            found = files_of(self.mill)
        state = {str(before): "before", str(after): "after"}.get(str(found), "")
        if not state:
            self.faults.append(f"{what}: the book is neither as before nor as after")
        if self.run(["verify"]):
            said = text_of(self.room / "said").strip()
            self.faults.append(f"{what}: not all files are as the journal says: {said}")
        self.run(command)
        if files_of(self.mill) != after:
            self.faults.append(f"{what}: typed again it comes to another end")
        return state

    # ---- kill -9 at random moments

    def kills(self, count: int) -> None:
        """Kill commands at random moments of their time."""
        for name, command, saved, before, after in self.cases() if count else ():
            self.put_back(saved)
            begin = time.monotonic()
            self.run(command)
            took = time.monotonic() - begin
            for _ in range(max(1, count // len(self.commands))):
                self.put_back(saved)
                child = self.child(command)
                time.sleep(self.chance.uniform(0, took))
                os.kill(child, signal.SIGKILL)
                status = os.waitstatus_to_exitcode(os.waitpid(child, 0)[1])
                killed = "killed" if status < 0 else "came to its end"
                state = self.judge(f"{name}, killed at a moment", command, before, after)
                self.counts[f"{killed}, as {state}"] += 1

    # ---- at each system call that writes

    def steps(self, most: int) -> None:
        """Kill commands at system calls that write, and have these fail."""
        for name, command, saved, before, after in self.cases() if most else ():
            self.put_back(saved)
            places = list(self.places(command))
            for call, at in self.chance.sample(places, min(most, len(places))):
                for how in ("signal=KILL", "error=EIO", "error=ENOSPC"):
                    self.put_back(saved)
                    self.traced(command, f"inject={call}:{how}:when={at}")
                    what = f"{name}, {call} {at}, {how}"
                    state = self.judge(what, command, before, after)
                    self.counts[f"{how}, as {state}"] += 1

    def places(self, command: list[str]) -> Iterator[tuple[str, int]]:
        """Give each system call of a command that writes, and the how manieth of its kind it is."""
        log = self.room / "calls"
        self.traced(command, f"trace={','.join(CALLS)}", log)
        seen = Counter[str]()
        for line in text_of(log).splitlines():
            call = line.split("(")[0].split()[-1]
            seen[call] += 1
            if call in CALLS and (call != "openat" or "O_CREAT" in line):
                yield call, seen[call]

    def traced(self, command: list[str], what: str, log: Path = Path(os.devnull)) -> None:
        """Type a command under strace."""
        python = [sys.executable, "-B", "-m", "plantbal", "book", *self.words(command)]
        subprocess.run(
            ["strace", "-qq", "-o", str(log), "-e", what, *python],
            env=os.environ | {"PYTHONPATH": str(TOP / "python")},
            stdin=subprocess.DEVNULL,
            stdout=subprocess.DEVNULL,
            stderr=subprocess.DEVNULL,
            check=False,
        )

    # ---- two at once

    def pairs(self, count: int) -> None:
        """Run two commands at once: both are done, one after the other."""
        if count:
            self.begun()
            self.run(self.commands["add"])
        for number in range(count):
            before = len(journal_of(self.mill))
            days = self.chance.sample(range(1, 10), 2)
            tonnes = 1_000 + number
            children = [
                self.child(["amend", "F-1", f"2024-04-{day:02}", f"{tonnes + 1000 * day} t", *WHY])
                for day in days
            ]
            done = [os.waitstatus_to_exitcode(os.waitpid(child, 0)[1]) for child in children]
            rows = text_of(self.mill / "2024.csv").splitlines()[-2:]
            wanted = {f"amend,F-1_2024-04-{day:02},{tonnes + 1000 * day}" for day in days}
            there = {",".join(row.split(",")[:3]).removesuffix("000000") for row in rows}
            lines = len(journal_of(self.mill)) - before
            if (done, lines, there) != ([0, 0], 2, wanted) or self.run(["verify"]):
                self.faults.append(f"pair {number}: {done}, {lines} lines, {there}")
            self.counts["pairs"] += 1


class Stopped(Exception):
    """SIGTERM came: what came of the tries so far is said."""


def stop(*_: object) -> None:
    """End the tries of a kind, in this process alone."""
    signal.signal(signal.SIGTERM, signal.SIG_IGN)
    raise Stopped


def number(text: str) -> int:
    """Return a number, which may be all there are."""
    return 10**9 if text == "all" else int(text)


def main(words: list[str]) -> int:
    """Make the tries, say what came of them, and return the status."""
    parser = argparse.ArgumentParser(usage=str(__doc__).split("\n\n")[1].strip())
    parser.add_argument("program")
    for name, default in (("kills", 20), ("pairs", 5), ("steps", 1), ("seed", 0)):
        parser.add_argument(f"--{name}", type=number, default=default)
    options = parser.parse_args(words)
    os.environ["PLANTBAL"] = str(Path(options.program).resolve())
    os.environ["PYTHONDONTWRITEBYTECODE"] = "1"
    signal.signal(signal.SIGTERM, stop)
    faults = 0
    for name in ("kills", "pairs", "steps"):
        with tempfile.TemporaryDirectory() as made:
            tries = Tries(Path(made), options.seed)
            with suppress(Stopped):
                getattr(tries, name)(getattr(options, name))
        said = ", ".join(f"{count} {what}" for what, count in sorted(tries.counts.items()))
        print(f"book, {name}: {said or 'none'}", flush=True)
        for fault in tries.faults[:20]:
            print(f"  wrong: {fault}")
        faults += len(tries.faults)
    return 1 if faults else 0
