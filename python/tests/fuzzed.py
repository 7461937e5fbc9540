"""What the fuzzer tries: subcommands with their words, and the inputs that are changed for them.

Most read a file, which is changed. Of a book, a fleet's folder or a bundle, one file of several is:
the others are made anew for each try, and of a book the journal too, since a stranger binds its
lines to what he has changed.
"""

from __future__ import annotations

import csv
import io
import json
import random
import shutil
from collections.abc import Callable, Sequence
from contextlib import redirect_stdout
from dataclasses import dataclass, replace
from pathlib import Path

from books import ANYWAY, PLANT, folder, month, typed
from conftest import TOP
from mutated import rebound
from test_bundle_container import month as stated

from plantbal.audit.archive import bundle_files
from plantbal.book.journal import HEAD_TEXT, Act, JournalLine, Kept, following, read_journal
from plantbal.audit.bundle import packed
from plantbal.audit.changed import digest
from plantbal.faults import Fault
from plantbal.fleet import night
from plantbal.fleet.gather import gather
from plantbal.fleet.given import Given
from plantbal.fleet.night import Night
from plantbal.fleet.sites import Site

EXAMPLES = TOP / "examples"
DAY, DAY_OUT = EXAMPLES / "refinery_day.csv", EXAMPLES / "refinery_day.out.csv"
TABLES = "flows classes count contents suspects imbalance".split()
NIGHT = "2026-11-29"
ACCOUNTS = [
    ["name", "kind", "product", "group", "owner", "unit", "density"],
    ["SILO", "", "meal", "meal", "", "t", ""],
    ["FEED", "receipt", "grain", "grain", "", "t", ""],
    ["PRODUCT", "production", "meal", "meal", "", "t", ""],
    ["TRUCKS", "shipment", "meal", "meal", "", "t", ""],
]
Put = Callable[[random.Random, Path, bytes], None]


@dataclass(frozen=True)
class Target:
    """A subcommand with its words, and the files that are changed for it.

    Attributes
    ----------
    words : tuple of str
        Its words, in which `{}` is the changed file.
    seeds : tuple of Path
        The files.
    ending : str
        The ending of the changed file.
    needs_program : bool
        Whether it runs the program.
    put : callable or None
        Puts a changed file among others; without it, it is a file by itself.
    call : callable or None
        What is called in place of the subcommand, which returns a status.
    """

    words: tuple[str, ...]
    seeds: tuple[Path, ...]
    ending: str = ".csv"
    needs_program: bool = False
    put: Put | None = None
    call: Callable[[], int] | None = None

    @property
    def name(self) -> str:
        """Its words in one line."""
        return " ".join(self.words)


def _files(pattern: str) -> tuple[Path, ...]:
    return tuple(sorted(path for path in EXAMPLES.glob(pattern) if path.is_file()))


def targets(room: Path) -> list[Target]:
    """Return what is tried; files that it needs besides are made in a folder."""
    return [*_files_alone(room), *_of_audits(room), *_of_books(room), *_of_fleets(room)]


def _files_alone(room: Path) -> list[Target]:
    """Return the commands that read a file."""
    outputs = _files("*.out.csv")
    sessions = tuple(path for path in _files("*.csv") if path not in outputs)
    lines = _files("*.jsonl")
    copper, copper_out = EXAMPLES / "flotation_copper.csv", EXAMPLES / "flotation_copper.out.csv"
    tags, readings = (EXAMPLES / "concentrator" / f"{name}.csv" for name in ("tags", "readings"))
    books = [path for path in sorted(EXAMPLES.glob("*_workbook")) if list(path.glob("*.csv"))]
    sheets = tuple(path for book in books for path in sorted(book.glob("*.csv")))
    xlsx = tuple(_xlsx(book, room) for book in books)
    out = str(room / "made")
    return [
        Target(("lint", "{}"), sessions),
        Target(("lint", "--json", "{}"), sessions),
        Target(("explain", "{}"), sessions),
        Target(("explain", "{}", str(DAY_OUT)), (DAY,)),
        Target(("explain", str(DAY), "{}"), (DAY_OUT,)),
        Target(("report", "{}"), (*outputs, *lines)),
        Target(("report", "{}", "--out", f"{out}.xlsx"), outputs),
        Target(("report", "{}", "--out", f"{out}.sqlite"), outputs),
        *(Target(("tables", what, "{}"), (*outputs, *lines)) for what in TABLES),
        Target(("uncertainty", "{}"), (*outputs, *lines)),
        Target(("recovery", "{}"), (copper_out,)),
        Target(("draw", "--dot", "{}"), (*outputs, *lines)),
        Target(("draw", "--dot", "--session", "{}", str(DAY_OUT)), (DAY,)),
        Target(("chart", "{}", "--out", f"{out}.svg"), (DAY_OUT,)),
        Target(("page", "{}", "--seconds", "0"), (*outputs, *lines)),
        Target(("page", "{}", "--seconds", "0", "--session", str(DAY)), (DAY_OUT,)),
        Target(("page", str(DAY_OUT), "--seconds", "0", "--session", "{}"), (DAY,)),
        Target(("page", "{}", "--xlsx", f"{out}.xlsx"), outputs),
        Target(("from-scipy", "{}"), outputs),
        Target(("from-spreadsheet", "{}", str(readings)), (tags,)),
        Target(("from-spreadsheet", str(tags), "{}"), (readings,)),
        Target(("convert", "{}"), sheets),
        Target(("convert", "--locale", "de", "{}"), sheets),
        Target(("convert", "--design", "{}"), sheets),
        Target(("convert", "{}"), xlsx, ".xlsx"),
        Target(("advise", "{}"), sessions, needs_program=True),
        Target(("run", "{}"), sessions, needs_program=True),
        Target(("check", "{}"), (*outputs, *lines), needs_program=True),
        Target(("explain", "{}"), outputs, needs_program=True),
        Target(("solve", "{}"), sessions, needs_program=True),
        Target(("balance", "{}", "jun03"), (copper,), needs_program=True),
        Target(("archive", "{}", "--out", f"{out}.zip"), sessions, needs_program=True),
    ]


def _xlsx(book: Path, room: Path) -> Path:
    """Return a workbook of a folder of CSV files."""
    import openpyxl

    made = openpyxl.Workbook()
    made.remove(made.active)
    for path in sorted(book.glob("*.csv")):
        sheet = made.create_sheet(path.stem)
        for row in csv.reader(io.StringIO(path.read_text(encoding="utf-8"))):
            sheet.append(row)
    target = room / f"{book.name}.xlsx"
    made.save(target)
    return target


# ---- audits


def _of_audits(room: Path) -> list[Target]:
    """Return audits of bundles, and of reports and sessions."""
    whole = [EXAMPLES / f"{name}.out.csv" for name in ("missed_dip", "flotation_copper")]
    bundle = room / "refinery.zip"
    files = bundle_files(DAY.read_bytes(), DAY_OUT.read_bytes(), stated("refinery"))
    bundle.write_bytes(packed(files))
    alone = ("audit", "--no-program")
    pairs = [(out, out.with_name(out.name.replace(".out", ""))) for out in (DAY_OUT, *whole)]
    return [
        Target((*alone, "{}"), (bundle,), ".zip"),
        Target(("audit", "{}"), (bundle,), ".zip", needs_program=True),
        *(Target((*alone, "{}", str(session)), (out,)) for out, session in pairs),
        *(Target((*alone, str(out), "{}"), (session,)) for out, session in pairs),
    ]


# ---- books


class Books:
    """A book in which one file of several is changed.

    Parameters
    ----------
    room : Path
        The folder in which it is made.
    """

    def __init__(self, room: Path) -> None:
        self.mill, self._saved = room / "mill", room / "saved"
        folder(room / "plant", PLANT | {"accounts": ACCOUNTS})
        self.april, self._april = folder(room / "april", month()), room / "april.saved"
        shutil.copytree(self.april, self._april)
        words = ("--book", self.mill, "--who", "anna")
        for command in (
            ("new", "2024", room / "plant"),
            ("add", self.april),
            ("report", "2024-04"),
            ("posted", "2024-04", "--anyway"),
            ("amend", "F-1", "2024-04-01", "1201 t", "--why", "x"),
            ("report", "2024-04"),
        ):
            with redirect_stdout(io.StringIO()):
                typed(*command, *words)
        self.mill.rename(self._saved)
        self.files = tuple(sorted(path for path in self._saved.rglob("*") if path.is_file()))
        self.sheets = tuple(sorted(self._april.glob("*.csv")))
        text = (self._saved / "journal.csv").read_text(encoding="utf-8")
        self._lines = read_journal("journal.csv", text)[0]

    def put(self, rng: random.Random, seed: Path, data: bytes) -> None:
        """Make the book anew, with one file changed: known by its journal, or not, or by an old one."""
        shutil.rmtree(self.mill, ignore_errors=True)
        shutil.copytree(self._saved, self.mill)
        name = seed.relative_to(self._saved).as_posix()
        how = rng.randrange(4)
        if name == "journal.csv":
            data = rebound(data) if how else data
        elif how == 1:
            last = JournalLine(0, "", "", "", Act.ACCEPT, name, files={name: Kept.of(data)})
            lines = [*self._lines, following(self._lines, last)]
            text = HEAD_TEXT + "".join(line.text for line in lines)
            (self.mill / "journal.csv").write_text(text, encoding="utf-8")
        elif how > 1:
            rows = [(each.when, "anna", f"{each.act} {each.of or 'x'}") for each in self._lines]
            text = "when,who,what,why,rows\n" + "".join(f"{','.join(row)},,\n" for row in rows)
            (self.mill / "journal.csv").write_text(text, encoding="utf-8")
        (self.mill / name).write_bytes(data)

    def put_waiting(self, rng: random.Random, seed: Path, data: bytes) -> None:
        """Make the book anew, with an action that waits."""
        shutil.rmtree(self.mill, ignore_errors=True)
        shutil.copytree(self._saved, self.mill)
        (self.mill / ".pending").write_bytes(data)

    def put_sheet(self, rng: random.Random, seed: Path, data: bytes) -> None:
        """Make book and workbook anew, with a sheet changed."""
        for made, saved in ((self.mill, self._saved), (self.april, self._april)):
            shutil.rmtree(made, ignore_errors=True)
            shutil.copytree(saved, made)
        (self.april / seed.name).write_bytes(data)


def _of_books(room: Path) -> list[Target]:
    """Return the commands on a book."""
    books = Books(room)
    of = ("--book", str(books.mill), "--who", "anna")
    why = ("--why", "x")
    waiting = room / "waiting.json"
    row = {"file": "2024.csv", "from": len(books.files), "text": "unit,X\n"}
    waiting.write_text(json.dumps([row, row | {"file": "plant.csv", "from": None}]))
    commands: Sequence[tuple[tuple[str, ...], bool]] = (
        (("status",), False),
        (("show", "F-1"), False),
        (("verify",), False),
        (("accept", "2024.csv", *why), False),
        (("amend", "F-1", "2024-04-02", "1300 t", *why), False),
        (("strike", "SILO", "2024-04-30", *why), False),
        (("estimate", "2024-04", "F-1", "--take", *why), False),
        (("add", str(books.april), *why), False),
        (("next", "2024-2"), True),
        (("account", "2024-04"), False),
        (("difference", "2024-04", "posted", "now"), False),
        (("posted", "2024-04", "--anyway"), False),
        (("report", "2024-04"), True),
        (("close", "2024-04", *ANYWAY), True),
    )
    return [
        *(
            Target(("book", *command, *of), books.files, "", needs, books.put)
            for command, needs in commands
        ),
        Target(("book", "status", *of), (waiting,), "", False, books.put_waiting),
        Target(
            ("book", "add", str(books.april), *why, *of), books.sheets, "", False, books.put_sheet
        ),
    ]


# ---- fleets


class Fleets:
    """A fleet of a plant: its session, its output, or a file of an earlier night is changed.

    Parameters
    ----------
    room : Path
        The folder in which it is made.
    """

    def __init__(self, room: Path) -> None:
        self.sessions, self.out, self._saved = (room / name for name in ("sites", "nights", "kept"))
        self.written, self.program = room / "written", room / "writes"
        self.program.write_text(f'#!/bin/sh\nexec cat "{self.written}"\n', encoding="utf-8")
        self.program.chmod(0o755)
        self._night = Night(self.out, NIGHT, self.program, "", ["run"])
        self._site = Site("a", self.sessions / "a.csv")
        kept = self.out / "a" / NIGHT
        kept.mkdir(parents=True)
        asked = self._night.asked_of(self._site, self._given(DAY.read_bytes()))
        run = replace(asked, program_sha256=digest(self.program.read_bytes()), status=0)
        run = replace(run, output_sha256=digest(DAY_OUT.read_bytes()))
        shutil.copyfile(DAY_OUT, kept / "output.csv")
        (kept / "stderr.txt").touch()
        (kept / "run.json").write_bytes(run.to_json())
        self.out.rename(self._saved)
        self.of_night = tuple(sorted(each for each in self._saved.rglob("*") if each.is_file()))

    def _given(self, session: bytes) -> Given:
        """Write the plant's session, and read it as a fleet does."""
        self.sessions.mkdir(exist_ok=True)
        self._site.path.write_bytes(session)
        return Given.read(self._site.path)

    def put(self, rng: random.Random, seed: Path, data: bytes) -> None:
        """Make the folders anew, with another session or another output."""
        shutil.rmtree(self.out, ignore_errors=True)
        is_output = seed.name.endswith(".out.csv")
        self._given(DAY.read_bytes() if is_output else data)
        self.written.write_bytes(data if is_output else DAY_OUT.read_bytes())

    def put_night(self, rng: random.Random, seed: Path, data: bytes) -> None:
        """Make the folders anew, with a night of which a file was changed."""
        shutil.rmtree(self.out, ignore_errors=True)
        shutil.copytree(self._saved, self.out)
        self._given(DAY.read_bytes())
        self.written.write_bytes(DAY_OUT.read_bytes())
        (self.out / seed.relative_to(self._saved)).write_bytes(data)

    def read(self) -> int:
        """Take in what came of the plant as a fleet's reader does, in this process."""
        data = self.written.read_bytes()
        given = Given.read(self._site.path)
        run = replace(self._night.asked_of(self._site, given), status=0)
        output = self._night.output_of(self._site)
        output.parent.mkdir(parents=True, exist_ok=True)
        output.write_bytes(data)
        try:
            gather(self._night, self._site, night.KeptPlant(run, len(data), {}), given)
        except Fault:
            return 1
        return 0


def _of_fleets(room: Path) -> list[Target]:
    """Return nights of a fleet."""
    fleets = Fleets(room)
    words = ("fleet", "--program", str(fleets.program), "--jobs", "1", "--date", NIGHT, "--out")
    words += (str(fleets.out), str(fleets.sessions))
    outputs = _files("*.out.csv")
    of_plants = (*outputs, *(path for path in _files("*.csv") if path not in outputs))
    return [
        Target(words, of_plants, "", False, fleets.put),
        Target(words, fleets.of_night, "", False, fleets.put_night),
        Target(("fleet", "(its reader)"), of_plants, "", False, fleets.put, fleets.read),
    ]
