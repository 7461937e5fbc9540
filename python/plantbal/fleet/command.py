"""Runs a folder of sessions, keeps each night, and says which plants need a person."""

# Only what starts the first sessions is loaded here: `_load` loads the rest while these run.

from __future__ import annotations

import argparse
import datetime
import re
import signal
import sys
import threading
from collections.abc import Callable, Iterator, Sequence
from contextlib import contextmanager, nullcontext
from pathlib import Path

from plantbal.commands.options import seconds_of
from plantbal.faults import Fault, WordsFault
from plantbal.files import write_text
from plantbal.fleet.alarms import age_of, level_of
from plantbal.fleet.engines import Engine, EngineChoice
from plantbal.fleet.given import sha256_of
from plantbal.fleet.night import Night, alone
from plantbal.fleet.pack import Packer
from plantbal.fleet.rows import FleetPlant, failed_plant, plants_summary
from plantbal.fleet.running import Fleet, lint_plants
from plantbal.fleet.sites import NIGHT, Site, sites
from plantbal.program import find_program
from plantbal.statuses import ExitStatus, looks

HELP = """
Each FOLDER/SITE.csv is a session, and each FOLDER/SITE with a journal.csv is the book of a plant,
whose open periods are run. These files are kept for each night, which is named after its day:

  OUT/SITE/NIGHT/output.csv   the output (.jsonl with --format json), with stderr.txt and run.json
  OUT/SITE/latest             a link to the last night that has an output
  OUT/nights/NIGHT/           table.csv, SHA256SUMS, sessions.sha256, and the joblog of GNU parallel
  OUT/latest                  a link to the last night that is complete
  OUT/fleet.sqlite            the tables `nights` and `plants` of all nights
  OUT/index.html              the last night, for a browser
  OUT/night.json, night.prom  the last night, for programs and for Prometheus' textfile collector

With --pack the outputs of all plants are in one file, OUT/nights/NIGHT/outputs.sqlar, an archive of
SQLite. All commands find what is in it: as OUT/nights/NIGHT/outputs.sqlar/SITE/output.csv, and
under the names above, such as OUT/SITE/latest/output.csv. `sqlite3 outputs.sqlar -Ax` unpacks it.

An output is put in its place only when it is complete. A fleet that was stopped continues if you
give the same command again: plants that have their output aren't run again, unless the session, the program or the options have changed.

The table goes to standard output too, with a row for each period's last report:

  site,period,days,state,dof,statistic,critical,p,verdict,suspects,refused,first_refusal,status,
  seconds,warnings,look

Windows and balances of components have their own rows, with a `period` such as may to june or cu in
may; a window's `suspects` are codes of its streams, whose names are in `look`. `state` is
converged, unconverged, over (a total beyond the limits), none (no report), unreadable (the output
isn't plantbal's), refused (it doesn't agree with itself), yes or no (of a check). For a plant
without an output it is the name of the program's status (2 to 6), ended (another status), timeout,
lost (by a machine of the cluster), nosession or nooutput (files that can't be read or written). `p`
is the probability of a statistic at least as great if there is no gross error. `verdict` is that of
the global test, which needs --tests or --eliminate N among WORDS; `suspects` are given only if it
rejects and no row is refused, or if a stream was taken out. `look` says why somebody has to look: a
row is refused, there is no report, it hasn't converged, the global test rejects or can't be made, a
stream carries more of a component than its whole mass, the session is stale, or it has gone. A
plant whose session has gone is reported each night until --forget SITE. Standard error says so too.
The status is 1 if somebody has to look at any plant, 3 if no plant could be run or the night
couldn't be saved, and 0 otherwise.

Arguments after a single -- are given to plantbal; the default is `run`:

  plantbal-desk fleet --out nights sessions -- run --tests > table.csv
  plantbal-desk fleet --timeout 600 --retries 2 --out nights sessions -- run --tests > table.csv
  plantbal-desk fleet --scheduler tcp://head:8786 --program /usr/bin/plantbal \\
      --out /shared/nights /shared/sessions > table.csv

With a cluster of dask each machine has the program in the same place, and sees the folders under
the same names; with --send it doesn't need to: then the bytes of sessions and outputs go over the
network. With --lint each session is also read for what is accepted but looks wrong, which takes
longer than most reports do.
"""


def add_arguments(parser: argparse.ArgumentParser) -> None:
    """Add the words of the command."""
    parser.usage = f"{parser.prog} [OPTIONS] --out OUT FOLDER [-- WORDS]"
    add = parser.add_argument
    add("folder", metavar="FOLDER")
    add("--out", metavar="OUT", required=True, help="the folder of all nights")
    add("--date", metavar="NIGHT", type=_night, help="the night's name (default: today's date)")
    add("--again", action="store_true", help="run sessions that already have their output, too")
    add("--recursive", action="store_true", help="take the sessions in folders inside FOLDER too")
    engine = "what runs the sessions (default: dask with --scheduler or --send, else parallel)"
    add("--engine", choices=["parallel", "dask"], help=engine)
    processors = "N sessions at once (default: as many as there are processors)"
    add("--jobs", metavar="N", type=_count, help=processors)
    timeout = "stop a session after that many seconds"
    add("--timeout", metavar="SECONDS", type=seconds_of, help=timeout)
    add("--retries", metavar="N", type=_count, default=1, help="try a failing one N times in all")
    add("--scheduler", metavar="ADDRESS", help="the scheduler of a dask cluster")
    add("--send", action="store_true", help="send bytes to the cluster, not paths")
    program = "the program (default: that of PLANTBAL, of the path, or of this checkout)"
    add("--program", metavar="PATH", help=program)
    add("--lint", action="store_true", help="show what lint warns of, too")
    stale = (
        "report plants whose session hasn't changed, or has no newer fact, for this long: 26h or 3d"
    )
    add("--stale", metavar="AGE", type=age_of, help=stale)
    level = "test reports without a critical value at this level, such as 0.01"
    add("--level", metavar="P", type=level_of, help=level)
    forget = "stop reporting that this plant has no session"
    add("--forget", metavar="SITE", action="append", default=[], help=forget)
    nights = "remove the files of nights before the newest N; the database keeps their tables"
    add("--keep", metavar="N", type=_count, help=nights)
    pack = "keep the outputs of all plants in one file of the night, nights/NIGHT/outputs.sqlar"
    add("--pack", action="store_true", help=pack)
    parser.set_defaults(words=[])


def _night(text: str) -> str:
    if not NIGHT.fullmatch(text):
        said = f"{text!r} isn't a night: write 2026-11-29, or 2026-11-29T18"
        raise argparse.ArgumentTypeError(said)
    return text


def _count(text: str) -> int:
    if not (text.isdecimal() and int(text)):
        raise argparse.ArgumentTypeError(f"{text!r} isn't a number from 1 on")
    return int(text)


@contextmanager
def _stopped_by_sigterm() -> Iterator[None]:
    """Take SIGTERM as Ctrl-C is taken."""
    if threading.current_thread() is not threading.main_thread():
        yield
        return

    def stop(*_: object) -> None:
        """Stop the night as Ctrl-C does."""
        raise KeyboardInterrupt

    before = signal.signal(signal.SIGTERM, stop)
    try:
        yield
    finally:
        signal.signal(signal.SIGTERM, before)


def today() -> datetime.date:
    """Return the day of this machine's clock."""
    return datetime.date.today()


def _say_future(say: Callable[[str], None], night: Night) -> bool:
    """Say which nights lie in the future, and return whether any does."""
    from plantbal.fleet.keep import in_future

    found = in_future(night, today())
    for name in found:
        what = f"the night {name} lies in the future, and latest stays at it until that day"
        remedy = f"if a clock was wrong, move nights/{name} and each SITE/{name} away"
        say(f"{what}: {remedy}, and run this night with --again")
    return bool(found)


def _now() -> str:
    return datetime.datetime.now().astimezone().isoformat(timespec="seconds")


def _engine(by_cluster: bool) -> Engine:
    """Return what runs the sessions."""
    if by_cluster:
        from plantbal.fleet import by_dask

        return by_dask.run
    from plantbal.fleet import by_parallel

    return by_parallel.run


def run(options: argparse.Namespace) -> int:
    """Run the sessions, keep what comes, and write the table."""
    say: Callable[[str], None] = lambda said: print(f"{options.prog}: {said}", file=sys.stderr)
    elsewhere = options.scheduler is not None
    if options.engine == "parallel" and (elsewhere or options.send):
        say("--scheduler and --send are options for dask: leave --engine parallel out")
        return ExitStatus.USAGE
    program = _program(options.program, elsewhere)
    out, folder = Path(options.out), Path(options.folder)
    chosen = sites(folder, recursive=options.recursive, out=out)
    for left in chosen.left:
        say(left)
    name = options.date or today().isoformat()
    digest = _digest_elsewhere(say, options.scheduler, program) if elsewhere else sha256_of(program)
    wants_days = options.stale is not None
    night = Night(out, name, program, digest, options.words or ["run"], wants_days)
    packer = Packer(night) if options.pack else None
    fleet = Fleet(night, chosen.sites, packer=packer)
    for site, said in chosen.wrong.items():
        fleet.plants[site.name] = failed_plant(site, "nosession", said)
    engine = _engine(elsewhere or options.send or options.engine == "dask")
    begun = _now()
    with _stopped_by_sigterm(), alone(out) as lock, packer or nullcontext(), fleet.taker:
        asked = EngineChoice(
            command=[str(program), *fleet.night.words],
            log=fleet.night.folder / "joblog",
            jobs=options.jobs,
            timeout=options.timeout,
            retries=options.retries,
            scheduler=options.scheduler,
            send=options.send,
            lock=lock,
        )
        try:
            if chosen.books:
                _add_books(fleet, chosen.books)
            fleet.run(engine, asked, options.again)
        except KeyboardInterrupt:
            count = f"{len(fleet.plants)} of {len(chosen.sites) + len(chosen.wrong)} plants"
            say(f"stopped after {count}: the same command with --date {name} runs the others")
            return ExitStatus.STOPPED
        from plantbal.fleet.index import index
        from plantbal.fleet.keep import Times, keep_night, plants_table, thin_out
        from plantbal.fleet.signals import Signal, write_signals

        _take_gone(fleet, folder, options.forget, chosen.books)
        plants = fleet.in_order()
        alarm(fleet, plants, options.level, options.stale)
        if options.lint:
            lint_plants(fleet.taker, plants, fleet.sites)
        for plant in plants:
            plant.tell()
        times, unkept = Times(begun, _now()), list[Exception]()
        try:
            if packer is not None:
                packer.finish()
            keep_night(fleet.night, plants, fleet.runs, fleet.sums, times)
            index(fleet.night, plants, times)
            if options.keep is not None:
                thin_out(fleet.night, options.keep)
        except (Fault, OSError) as error:  # the disk is full, mostly: what is known is said
            unkept.append(error)
        is_late = _say_future(say, fleet.night)
        status = night_status(plants, is_late)
        runs = {site.name: run for site, run in fleet.runs.items()}
        signals = [Signal(plant, runs.get(plant.site)) for plant in plants]
        try:
            ends = ExitStatus.FAILED if unkept else status
            write_signals(fleet.night, signals, times, ends)
        except (Fault, OSError) as error:
            unkept.append(error)
    write_text("-", plants_table(plants))
    _say_all(say, plants, None if unkept else out / "index.html")
    for fault in unkept:
        raise fault
    return status


def night_status(plants: Sequence[FleetPlant], is_late: bool) -> ExitStatus:
    """Return the status of a night that was kept.

    Parameters
    ----------
    plants : sequence of FleetPlant
        The plants.
    is_late : bool
        Whether there are nights in the future.
    """
    if plants and all(plant.is_not_run for plant in plants):
        return ExitStatus.FAILED
    return looks(is_late or any(plant.needs for plant in plants))


def _add_books(fleet: Fleet, found: list[Site]) -> None:
    """Add the books to a night: their sessions, or why they have none."""
    from plantbal.fleet.books import Books

    books = Books(fleet.night)
    books.read(fleet.taker, found)
    fleet.plants.update(books.plants)
    for site in books.sites:
        fleet.add(site)


def _take_gone(fleet: Fleet, folder: Path, forgotten: Sequence[str], books: Sequence[Site]) -> None:
    """Take in the plants whose sessions have gone, but not those that are to be forgotten.

    Raises
    ------
    Fault
        If one that is to be forgotten has not gone.
    """
    from plantbal.fleet.keep import plants_gone

    found = plants_gone(fleet.night, fleet.plants)
    for book in books:  # an earlier year of one that has no open period any more
        for name in [name for name in found if name.startswith(f"{book.name}/")]:
            if re.fullmatch(r"[^/]+", name[len(book.name) + 1 :]):
                del found[name]
    unknown = [name for name in forgotten if name not in found]
    if unknown:
        names = ", ".join(sorted(found)) or "none"
        raise WordsFault(
            f"the session of {unknown[0]} has not gone", remedy=f"those that have: {names}"
        )
    for name, before in found.items():
        if name not in forgotten:
            site = Site(name, folder / f"{name}.csv")
            said = f"its session has gone; it was run on {before}; --forget {name} ends this"
            fleet.plants[name] = failed_plant(site, "nosession", said)


def alarm(fleet: Fleet, plants: list[FleetPlant], level: float | None, stale: float | None) -> None:
    """Add to plants what ought to alarm although each of them ran."""
    from plantbal.fleet.alarms import add_probabilities, alarm_stale, alarm_untested

    add_probabilities(plants)
    alarm_untested(plants, level)
    if stale is not None:
        runs = {site.name: run for site, run in fleet.runs.items()}
        alarm_stale(plants, runs, stale, datetime.datetime.now().astimezone())


def _program(named: str | None, elsewhere: bool) -> Path:
    """Return the program: here it is found, on other machines it has to be named."""
    if not elsewhere:
        return find_program(named).absolute()
    if named is None:
        raise WordsFault(
            "no program is named", remedy="use --program PATH, where each machine has it"
        )
    return Path(named)


def _digest_elsewhere(say: Callable[[str], None], scheduler: str, program: Path) -> str:
    """Return the digest of the program that most machines of a cluster have."""
    from plantbal.fleet.by_dask import programs_of

    found = programs_of(scheduler, str(program))
    if len(found) > 1:
        each = ", ".join(f"{digest} on {count}" for digest, count in found.most_common())
        say(f"the machines have different programs as {program}: {each}")
    return found.most_common(1)[0][0]


def _say_all(say: Callable[[str], None], plants: list[FleetPlant], page: Path | None) -> None:
    """Say which plants need a person and why, and where the page is."""
    wanting = [plant for plant in plants if plant.needs]
    for plant in wanting:
        for said in plant.says():
            say(said)
    for plant in plants:
        if warnings := plant.rows[0].warnings:
            say(f"{plant.site}: {warnings}")
    say(f"{plants_summary(plants)}: {page}" if page else plants_summary(plants))
