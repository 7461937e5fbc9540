"""The program itself: where it is, and a call of it."""

from __future__ import annotations

import os
import select
import shutil
import subprocess
import sys
import tempfile
import time
from collections.abc import Callable, Sequence
from dataclasses import dataclass
from operator import index
from pathlib import Path

from plantbal import inside
from plantbal.faults import InputFault, ProgramFault, ToolMissing
from plantbal.schema import schema

# The statuses beside 0 and 1, and what to do about each.
STATUSES = {
    2: ("Usage", "this program has no such command: is it another version?"),
    3: ("ReadFault", "reading its input failed"),
    4: ("WriteFault", "writing its output failed"),
    5: ("TooLarge", "the input has more than 67,108,864 bytes: split it"),
    6: ("NoMemory", "it ran out of memory"),
}
# The program that a wheel has beside its modules, and the one that is built in a checkout.
OWN = Path(__file__).resolve().parent / "bin" / "plantbal"
CHECKOUT = Path(__file__).resolve().parents[2] / "crates" / "plantbal" / "out" / "plantbal"


def find_program(program: str | Path | None = None) -> Path:
    """Return where the program is.

    Parameters
    ----------
    program : str or Path, optional
        The program. Without it, it is that of the environment's ``PLANTBAL``, else the one that a
        wheel installed with this package, else ``plantbal`` on the path, else the one that is
        built in this checkout.

    Raises
    ------
    ToolMissing
        If there is none.
    """
    named = program or os.environ.get("PLANTBAL")
    if named:
        found = shutil.which(str(named))
        if found is None:
            raise ToolMissing(f"program {named}", "plantbal, or name it in PLANTBAL")
        return Path(found).resolve()
    if os.access(OWN, os.X_OK):
        return OWN
    found = shutil.which("plantbal")
    if found is not None:
        return Path(found).resolve()
    if os.access(CHECKOUT, os.X_OK):
        return CHECKOUT
    raise ToolMissing("program plantbal on the path", "plantbal, or name it in PLANTBAL")


def main() -> None:
    """Become the program that a wheel installed: this is its command there."""
    try:
        os.execv(OWN, ["plantbal", *sys.argv[1:]])
    except OSError as error:
        raise SystemExit(f"plantbal: {OWN}: {error.strerror}") from error


def call(
    words: Sequence[str],
    data: bytes,
    *,
    program: str | Path | None = None,
    timeout: float | None = None,
    memory: int | None = None,
    watch: Callable[[bytes], None] | None = None,
) -> tuple[int, bytes]:
    """Run the program with its words on bytes, and return its status, 0 or 1, and what it wrote.

    It may take as many seconds as `timeout` says and as many bytes of memory as `memory` says.

    `watch` gets what it writes piece by piece, and nothing once in a while. If neither a program
    nor a limit is named, here or in the environment, and no wheel brought a program, a run or a
    check takes place in this process, if the library is there: it gives the same bytes.

    Raises
    ------
    ProgramFault
        If it ends otherwise; the fault has the status and its name.
    """
    limited = timeout is not None or memory is not None
    named = program is not None or os.environ.get("PLANTBAL") or OWN.exists()
    if not named and not limited and watch is None:
        answered = inside.answer(words, data)
        if answered is not None:
            return answered
    found = find_program(program)
    command = [*_memory_words(memory), str(found), *words]
    try:
        if watch is None:
            done = subprocess.run(
                command, input=data, capture_output=True, timeout=timeout, check=False
            )
        else:
            done = _watched(command, data, timeout, watch)
    except subprocess.TimeoutExpired as error:
        said = f"{found.name} {' '.join(words)} didn't finish within {timeout} s"
        raise ProgramFault(said, status=-1, name="Timeout") from error
    except OSError as error:
        raise ProgramFault(f"{found}: {error.strerror}", status=127, name="NotRun") from error
    if done.returncode in (0, 1):
        return done.returncode, done.stdout
    name, remedy = STATUSES.get(done.returncode, ("Ended", ""))
    said = done.stderr.decode("utf-8", "replace").strip()
    what = f"{found.name} {' '.join(words)} ended with status {done.returncode}"
    raise ProgramFault(f"{what} ({said or name})", status=done.returncode, name=name, remedy=remedy)


def _watched(
    command: list[str], data: bytes, timeout: float | None, watch: Callable[[bytes], None]
) -> subprocess.CompletedProcess[bytes]:
    """Run a command as `subprocess.run` does, and show what it writes as it comes."""
    begin = time.monotonic()
    with tempfile.TemporaryFile() as given, tempfile.TemporaryFile() as said:
        given.write(data)
        given.seek(0)
        with subprocess.Popen(command, stdin=given, stdout=subprocess.PIPE, stderr=said) as process:
            assert process.stdout is not None
            pieces: list[bytes] = []
            try:
                while True:
                    ready, _, _ = select.select([process.stdout], [], [], 0.5)
                    piece = os.read(process.stdout.fileno(), 1 << 16) if ready else b""
                    if ready and not piece:
                        break
                    pieces.append(piece)
                    watch(piece)
                    if timeout is not None and time.monotonic() - begin > timeout:
                        raise subprocess.TimeoutExpired(command, timeout)
            except BaseException:
                process.kill()
                raise
            status = process.wait()
        said.seek(0)
        return subprocess.CompletedProcess(command, status, b"".join(pieces), said.read())


def _memory_words(memory: int | None) -> list[str]:
    """Return what stands before a command that may take so many bytes of memory."""
    if memory is None:
        return []
    if shutil.which("prlimit") is None:
        raise ToolMissing("command prlimit", "util-linux")
    return ["prlimit", f"--as={_whole('memory', memory, 1, 1 << 62)}", "--"]


def _whole(name: str, value: int, low: int, high: int) -> int:
    """Return a whole number of a range.

    Raises
    ------
    InputFault
        If it is none.
    """
    try:
        number = index(value)
    except TypeError:
        number = low - 1
    if isinstance(value, bool) or not low <= number <= high:
        remedy = f"give a whole number from {low:,} to {high:,}"
        raise InputFault(f"{name} is {value!r}", text=str(value), remedy=remedy)
    return number


def words_of(*, tests: bool, eliminate: int, gap: int, sweeps: int) -> list[str]:
    """Return the words of a run.

    Raises
    ------
    InputFault
        If a number isn't in its range.
    """
    most = schema().limits
    words = ["run", "--gap", str(_whole("gap", gap, 1, most["most_gap"]))]
    words += ["--sweeps", str(_whole("sweeps", sweeps, 0, most["most_sweeps"]))]
    if eliminate:
        words += ["--eliminate", str(_whole("eliminate", eliminate, 0, most["most_rounds"]))]
    return [*words, "--tests"] if tests else words


@dataclass(frozen=True)
class RunSettings:
    """How a session is run; what is None nobody says: in a book it is as the last report has it.

    Attributes
    ----------
    tests : bool or None
        Whether tests are made; they are if nobody says it.
    eliminate : int or None
        The most suspects that are taken out, one in each round; none if nobody says it.
    gap : int or None
        The greatest gap, in thousandths of a standard deviation; 10 if nobody says it.
    sweeps : int or None
        The most sweeps; 5,000 if nobody says it.
    program : str, Path or None
        The program, as `find_program` takes it.
    """

    tests: bool | None = None
    eliminate: int | None = None
    gap: int | None = None
    sweeps: int | None = None
    program: str | Path | None = None

    @property
    def rounds(self) -> int:
        """The most suspects that are taken out."""
        return self.eliminate or 0

    @property
    def is_tested(self) -> bool:
        """Whether tests are made."""
        return self.tests is not False

    @property
    def numbers(self) -> dict[str, int]:
        """The settings as numbers, by their names."""
        gap = 10 if self.gap is None else self.gap
        sweeps = 5000 if self.sweeps is None else self.sweeps
        tests = int(self.is_tested)
        return {"tests": tests, "eliminate": self.rounds, "gap": gap, "sweeps": sweeps}

    @property
    def words(self) -> list[str]:
        """The words of such a run."""
        of = self.numbers
        tests, rounds = bool(of["tests"]), of["eliminate"]
        return words_of(tests=tests, eliminate=rounds, gap=of["gap"], sweeps=of["sweeps"])

    def after(self, last: RunSettings) -> RunSettings:
        """Return them with those of a last report in place of what nobody says.

        Without tests nothing is taken out, and taking out is by tests.
        """
        tests = self.tests
        if tests is None:
            tests = True if self.eliminate else last.tests
        eliminate = self.eliminate
        if eliminate is None:
            eliminate = 0 if tests is False else last.eliminate
        gap = last.gap if self.gap is None else self.gap
        sweeps = last.sweeps if self.sweeps is None else self.sweeps
        return RunSettings(tests, eliminate, gap, sweeps, self.program)
