"""Brings all nights and books of a group into one SQLite database, with views for its questions.

For each plant and period the last report counts: in a folder of nights that of the newest night
with an output of it, in a book the one that the book keeps. Amounts are whole grams; the views have
tonnes.
"""

from __future__ import annotations

import argparse
import sqlite3
import sys
from collections.abc import Iterable, Iterator
from contextlib import closing
from dataclasses import dataclass, field
from pathlib import Path

from plantbal.faults import Fault, FileFault, InputFault, Place, decoded, read_bytes
from plantbal.files import replacing
from plantbal.fleet.given import given_days
from plantbal.fleet.limits import JUDGED_BYTES
from plantbal.fleet.pack import outputs_in
from plantbal.fleet.sites import NIGHT, is_book
from plantbal.limits import SESSION_BYTES
from plantbal.packed import PACK
from plantbal.report.blocks import Block, blocks_of, last_blocks
from plantbal.report.parsing import parse_rows
from plantbal.statuses import ExitStatus, looks

HELP = """
Each FOLDER is the folder of all nights of a fleet, packed or not, or that of a plant's book. OUT is made anew. Its
tables:

  reports   a row for the last report of each plant and period: state, statistic, verdict
  flows     a row for each stream of these: measured and booked, in grams; its class; the adjustment
            in standard deviations of what was measured

and its views, in tonnes:

  loss_by_month          what was measured as it came in less what was measured as it went out, with
                         what tanks gained, by plant and month; NULL if a stream there isn't measured
  adjustments_by_meter   by how much each meter was adjusted, by year
  drifting_meters        meters that were adjusted to the same side for six periods or more: the sum
                         of the adjustments in standard deviations over the root of their number is
                         beyond 3

examples:
  plantbal-desk across --out group.sqlite /var/lib/plantbal /srv/books/mill /srv/books/refinery
  sqlite3 -header group.sqlite "SELECT * FROM loss_by_month WHERE month >= '2026-01'"
"""
_TABLES = """
CREATE TABLE reports (
    site TEXT, period TEXT, first TEXT, last TEXT, month TEXT, source TEXT, night TEXT, state TEXT,
    dof INTEGER, statistic REAL, critical REAL, verdict TEXT, PRIMARY KEY (site, period));
CREATE TABLE flows (
    site TEXT, period TEXT, stream TEXT, "from" TEXT, "to" TEXT, class TEXT, measured INTEGER,
    flow INTEGER, variance INTEGER, in_sd REAL, PRIMARY KEY (site, period, stream));
CREATE VIEW loss_by_month AS
    SELECT site, month, COUNT(DISTINCT period) AS periods,
        SUM(CASE WHEN "from" = 'env' THEN measured ELSE 0 END) / 1e6 AS in_t,
        SUM(CASE WHEN "to" = 'env' THEN measured ELSE 0 END) / 1e6 AS out_t,
        CASE WHEN COUNT(measured) = COUNT(*) THEN
            SUM(CASE WHEN "from" = 'env' THEN measured ELSE -measured END) / 1e6 END AS loss_t
    FROM flows JOIN reports USING (site, period)
    WHERE ("from" = 'env') <> ("to" = 'env') GROUP BY site, month;
CREATE VIEW adjustments_by_meter AS
    SELECT site, stream, SUBSTR(month, 1, 4) AS year, COUNT(*) AS periods,
        SUM(measured) / 1e6 AS measured_t, SUM(flow - measured) / 1e6 AS adjustment_t,
        AVG(in_sd) AS mean_in_sd, MIN(in_sd) AS least_in_sd, MAX(in_sd) AS most_in_sd
    FROM flows JOIN reports USING (site, period)
    WHERE measured IS NOT NULL GROUP BY site, stream, year;
CREATE VIEW drifting_meters AS
    SELECT site, stream, MIN(month) AS since, MAX(month) AS until, COUNT(*) AS periods,
        AVG(in_sd) AS mean_in_sd, SUM(in_sd) / SQRT(COUNT(*)) AS significance,
        SUM(flow - measured) / 1e6 AS adjustment_t
    FROM flows JOIN reports USING (site, period)
    WHERE class = 'redundant' AND in_sd IS NOT NULL
    GROUP BY site, stream HAVING COUNT(*) >= 6 AND ABS(SUM(in_sd)) / SQRT(COUNT(*)) > 3;
"""


@dataclass(frozen=True, slots=True)
class FoundReport:
    """A report's file: the plant, what it is from, and the session that has its periods.

    Attributes
    ----------
    site : str
        The plant.
    source : Path
        The folder of nights or the book.
    night : str
        The night; empty if it is from a book.
    path : Path
        The file of the output.
    sessions : tuple of Path
        The sessions in which the days of its periods stand.
    """

    site: str
    source: Path
    night: str
    path: Path
    sessions: tuple[Path, ...]


@dataclass
class Across:
    """The database while it is filled.

    Attributes
    ----------
    base : Connection
        The database.
    said : list of str
        What couldn't be read, and why.
    seen : set of (str, str)
        The plants and periods that are in it.
    """

    base: sqlite3.Connection
    said: list[str] = field(default_factory=list)
    seen: set[tuple[str, str]] = field(default_factory=set)

    def add(self, found: FoundReport) -> None:
        """Add the last reports of a file, but not of periods that are there from a newer one."""
        try:
            source, data = read_bytes(found.path, JUDGED_BYTES)
            blocks = last_blocks(blocks_of(parse_rows(source, decoded(source, data))))
        except InputFault as fault:
            self.said.append(f"{found.site}: {fault}")
            return
        new = [each for each in blocks.values() if each.is_report and each.solved and each.ended]
        new = [each for each in new if (found.site, each.period) not in self.seen]
        days = _days(found.sessions, {each.period for each in new})
        for block in new:
            self.seen.add((found.site, block.period))
            self._add_block(found, block, days.get(block.period, ""))

    def _add_block(self, found: FoundReport, block: Block, days: str) -> None:
        """Add a report and its flows."""
        first, _, last = days.partition("..")
        solved, whole = block.solved or {}, block.whole or {}
        self.base.execute(
            "INSERT INTO reports VALUES (?, ?, ?, ?, ?, ?, ?, ?, ?, ?, ?, ?)",
            (
                *(found.site, block.period, first, last, first[:7], str(found.source)),
                *(found.night, solved["state"], int(solved["dof"]), int(solved["low"]) / 1000),
                *(int(whole["critical"]) / 1000 if whole.get("critical") else None,),
                whole.get("verdict", ""),
            ),
        )
        self.base.executemany(
            "INSERT INTO flows VALUES (?, ?, ?, ?, ?, ?, ?, ?, ?, ?)",
            (_flow(found.site, block.period, row) for row in block.streams),
        )


def _flow(site: str, period: str, row: dict[str, str]) -> tuple[object, ...]:
    """Return a stream's row; what nothing determines has no flow."""
    flow = None if row["class"] == "unobservable" else int(row["flow"])
    measured = int(row["value"]) if row["value"] else None
    # a variance may have more digits than SQLite's whole numbers
    variance = int(row["variance"]) if row["value"] else None
    in_sd = None
    if measured is not None and flow is not None and variance:
        in_sd = (flow - measured) / variance**0.5
    kept = variance if variance is not None and variance < 1 << 63 else None
    ends = row["name"], row["from"], row["to"], row["class"]
    return (site, period, *ends, measured, flow, kept, in_sd)


def _days(sessions: Iterable[Path], periods: set[str]) -> dict[str, str]:
    """Return the first and the last day of periods, as far as sessions have them."""
    found: dict[str, str] = {}
    for path in sessions:
        if lacking := periods - set(found):
            try:
                found |= given_days(read_bytes(path, SESSION_BYTES)[1], lacking)
            except InputFault:
                continue  # a session that has gone since: its periods have no days
    return found


# ---- what there is


def of_folder(folder: Path) -> Iterator[FoundReport]:
    """Give the reports of a folder of nights, the newest first, or of a book.

    Raises
    ------
    Fault
        If it is neither.
    """
    if is_book(folder):
        years = tuple(sorted(path for path in folder.glob("[0-9]*.csv")))
        for path in sorted((folder / "reports").glob("*.csv")):
            if "+" not in path.name:  # a window of several periods
                yield FoundReport(folder.resolve().name, folder, "", path, years)
        return
    if not (folder / "fleet.sqlite").is_file():
        if not folder.is_dir():
            raise FileFault("there is no such folder", place=Place(file=str(folder)))
        remedy = "name the --out of a fleet, or the folder of a book"
        raise InputFault("neither nights nor a book", place=Place(file=str(folder)), remedy=remedy)
    names = {path.name for path in (folder / "nights").iterdir() if NIGHT.fullmatch(path.name)}
    for night in sorted(names, reverse=True):
        found = {
            path.parent.parent.relative_to(folder).as_posix(): path
            for path in sorted(folder.glob(f"**/{night}/output.*"))
        }
        pack = folder / "nights" / night / PACK
        if pack.is_file():  # what has a folder of its own is newer
            found = {site: pack / name for site, name in outputs_in(pack).items()} | found
        for site in sorted(found):
            yield FoundReport(site, folder, night, found[site], tuple(_session_of(found[site])))


def _session_of(output: Path) -> Iterator[Path]:
    """Give the session that an output was made of, as its record has it."""
    from plantbal.fleet.job import STATUS
    from plantbal.fleet.night import Run

    try:
        run = Run.read(read_bytes(output.with_name(STATUS), 1 << 20)[1])
    except (InputFault, ValueError):
        return
    yield Path(run.session)


# ---- the command


def add_arguments(parser: argparse.ArgumentParser) -> None:
    """Add the words of the command."""
    parser.add_argument("folders", metavar="FOLDER", nargs="+")
    parser.add_argument("--out", metavar="OUT", required=True, help="the database, made anew")


def run(options: argparse.Namespace) -> int:
    """Fill the database, and say what is missing in it."""
    found = [each for folder in options.folders for each in of_folder(Path(folder))]
    if not found:
        raise Fault("there is no report in these folders", remedy="run the fleet, or book report")
    with replacing(options.out) as made:
        with closing(sqlite3.connect(made)) as base, base:
            base.executescript(_TABLES)
            across = Across(base)
            for each in found:
                across.add(each)
    for said in across.said:
        print(f"{options.prog}: {said}", file=sys.stderr)
    plants = len({site for site, _ in across.seen})
    what = f"{len(across.seen):,} reports of {plants:,} plants are in {options.out}"
    print(f"{options.prog}: {what}", file=sys.stderr)
    return looks(across.said) if across.seen else ExitStatus.LOOK
