"""What the tests share: the top of the repository, the built program, and its words."""

from __future__ import annotations

import gc
import io
import resource
import time
from collections.abc import Callable
from dataclasses import dataclass
from pathlib import Path

import pytest

from plantbal import Session, desk
from plantbal.faults import Fault, Refusal
from plantbal.program import find_program

TOP = Path(__file__).resolve().parents[2]


@pytest.fixture(name="program", scope="session")
def fixture_program() -> Path:
    """The built program: without it these tests fail, and aren't skipped."""
    try:
        return find_program()
    except Fault as fault:
        pytest.fail(str(fault))


def words_of(session: Path) -> list[str]:
    """The words that a shipped session is run with."""
    path = session.with_name(session.stem + ".words")
    return path.read_text(encoding="utf-8").split() if path.exists() else ["run"]


def session_of(text: str) -> Session:
    """The session of rows, of which none is to be refused."""
    session = Session()
    for line in text.splitlines():
        session.row(*line.split(","))
    return session


def assert_refused(session: Session, row: str, code: int, said: str) -> None:
    """Fails unless a session refuses a row with this code, and says this."""
    with pytest.raises(Refusal) as refused:
        session.row(*row.split(","))
    assert (refused.value.code, said in str(refused.value)) == (code, True), refused.value


@dataclass
class Said:
    """What a command said: its status, standard output, and standard error."""

    status: int
    out: str
    err: str


Desk = Callable[..., Said]


@pytest.fixture(name="say")
def fixture_say(capfdbinary: pytest.CaptureFixture[bytes], monkeypatch: pytest.MonkeyPatch) -> Desk:
    """Calls a subcommand of the desk in this process, with a text as standard input."""

    def say(*words: object, text: str | bytes = "") -> Said:
        data = text.encode() if isinstance(text, str) else text
        monkeypatch.setattr("sys.stdin", io.TextIOWrapper(io.BytesIO(data)))
        capfdbinary.readouterr()
        try:
            status = desk.run_words(desk.desk_parser(), [str(word) for word in words])
        except SystemExit as ended:
            status = int(ended.code or 0)
        out, err = capfdbinary.readouterr()
        return Said(status, out.decode(), err.decode())

    return say


def spent(call: Callable[[], object]) -> float:
    """The time that processors give to a call and to the programs that it waits for.

    It doesn't hang on how busy the machine is. What other tests have left in memory isn't looked
    through again, as it isn't in a process of its own.
    """
    gc.collect()
    gc.freeze()
    try:
        begin = _spent_so_far()
        call()
        return _spent_so_far() - begin
    finally:
        gc.unfreeze()


def _spent_so_far() -> float:
    """The processor time of this process and of those that it waited for."""
    children = resource.getrusage(resource.RUSAGE_CHILDREN)
    return time.process_time() + children.ru_utime + children.ru_stime


def least_spent(call: Callable[[], object], most: float) -> float:
    """The least time of up to three calls: shared processors are slower at some times."""
    least = spent(call)
    for _ in range(2):
        if least >= most:
            least = min(least, spent(call))
    return least


def example(name: str) -> Path:
    """A file of the examples."""
    return TOP / "examples" / name


def text_of(path: Path) -> str:
    """The text of a file, its line ends as they are."""
    return path.read_bytes().decode("utf-8")
