"""Puts a month into a bundle: its session, its output, a summary, a manifest and digests."""

from __future__ import annotations

import argparse
import datetime
import os
import re
import sys
from collections.abc import Mapping
from dataclasses import replace
from pathlib import Path

from plantbal.audit.believed import require_believed
from plantbal.audit.bundle import (
    MANIFEST,
    MOST_BYTES,
    OUTPUT,
    SESSION,
    SUMMARY,
    VERSION,
    DIGESTS,
    Manifest,
    digests_text,
    packed,
    bundle_form,
)
from plantbal.audit.changed import digest, digests_of_parts
from plantbal.audit.linked import named_approvals, named_book, named_bundle
from plantbal.audit.carried import carried_files
from plantbal.audit.signed import add_signing, sign_bundle
from plantbal.audit.summary import summary_text
from plantbal.build import build_of
from plantbal.commands.options import AS_REPORTED, add_run, add_timeout, settings_of
from plantbal.commands.progress import Progress
from plantbal.faults import Fault, Place, ProgramFault, WordsFault, read_bytes
from plantbal.limits import SESSION_BYTES
from plantbal.model.forms import day_text
from plantbal.model.ledger import Ledger
from plantbal.newfile import write_new
from plantbal.program import RunSettings, call, find_program
from plantbal.report.output import Output, parse_report
from plantbal.statuses import looks

HELP = """
SESSION is a file; `-` is standard input. The program is run, and the bundle is written by rename:

  session.csv    the session, byte for byte
  output.csv     the program's output for it
  summary.txt    what you need to know, and the flows of the period in tonnes, with their ±
  manifest.json  the period, its days, the time, the command line, the program's digest, its version
                 and where that is from, the digest of each file, and of each fifty lines of
                 session and output, and, if they are named, the head of the book, who submitted,
                 approved and signed the close, and the digest of the bundle before
  SHA256SUMS     the digests of all these, for `sha256sum --check`
  measured.csv   with --book, if masses of the session were calculated by temperatures, water,
                 roofs or densities of days: what was measured and applied, a row for each
  summed.csv     with --book, if readings of the session are sums of hours, or what a counter
                 advanced: of which cells and hours, a row for each

The zip ends with a comment that has the digest of all bytes before it.

With --key the bundle is signed, by `ssh-keygen -Y sign` or minisign, and with --stamps a server
stamps the time of that; both files are written beside it.

The same session, command line, program and time give the same bytes. The time is that of --time, or else
that of the variable SOURCE_DATE_EPOCH, or else now. An existing bundle isn't overwritten.

The status is 1 if somebody has to look (a row is refused, a report hasn't converged, a global test
rejects), and 3 if the program can't do its work. If there is a report, the bundle is written all
the same.

examples:
  plantbal-desk archive plant.csv --period 2024-04
  plantbal-desk audit plant_2024-04.zip
"""
_TIME = "%Y-%m-%dT%H:%M:%SZ"


def program_of(path: Path) -> dict[str, str]:
    """Return what the manifest says of a program."""
    build = build_of(path)
    return {
        "sha256": build.sha256,
        "version": build.version,
        "commit": f"commit {build.commit}",
        "from": build.source,
    }


def bundle_time(text: str | None) -> str:
    """Return the time of a bundle, in UTC and whole seconds.

    Raises
    ------
    Fault
        If the text is no time.
    """
    if text is None:
        epoch = os.environ.get("SOURCE_DATE_EPOCH")
        if epoch is not None and not epoch.isdecimal():
            raise WordsFault(f"SOURCE_DATE_EPOCH is {epoch!r}", remedy="it is a number of seconds")
        zone = datetime.timezone.utc
        now = datetime.datetime.fromtimestamp(int(epoch), zone) if epoch else None
        return (now or datetime.datetime.now(zone)).strftime(_TIME)
    try:
        return datetime.datetime.strptime(text, _TIME).strftime(_TIME)
    except ValueError as error:
        remedy = "write it as 2024-05-02T06:00:00Z, in UTC"
        raise WordsFault(f"--time is {text!r}", text=text, remedy=remedy) from error


def manifest_of(
    stated: Manifest, ledger: Ledger, output: Output, files: dict[str, bytes]
) -> Manifest:
    """Return the manifest of files: what follows from them is computed, and the rest is stated."""
    days = ledger.periods[stated.period]
    return replace(
        stated,
        first=day_text(days.first),
        last=day_text(days.last),
        reports=[f"{block.subject}, round {block.round}" for block in output.blocks_in_order],
        refused=sum(row["row"] == "refused" for row in output.rows),
        files={name: digest(data) for name, data in sorted(files.items())},
        parts={name: digests_of_parts(files[name]) for name in (OUTPUT, SESSION)},
    )


def period_of(output: Output, wanted: str | None) -> str:
    """Return the period that is archived: that which is named, or the one that is reported last.

    Raises
    ------
    Fault
        If there is no report of it.
    """
    reported = list(dict.fromkeys(block.period for block in output.reports))
    if not reported:
        remedy = "add the row report,PERIOD to the session"
        raise Fault("there is no report, so nothing can be archived", remedy=remedy)
    if wanted is None:
        return output.reports[-1].period
    if wanted not in reported:
        remedy = f"there are reports of {', '.join(reported)}"
        raise Fault(f"there is no report of the period {wanted}", text=wanted, remedy=remedy)
    return wanted


def bundle_files(
    session: bytes, output: bytes, stated: Manifest, carried: Mapping[str, bytes] | None = None
) -> dict[str, bytes]:
    """Return the files of a bundle; plant, period, time, words, program and desk are stated.

    Parameters
    ----------
    session, output : bytes
        The session, and the program's output for it.
    stated : Manifest
        What is stated.
    carried : mapping of str to bytes, optional
        The rows of files of its book that are of the session.
    """
    ledger, report = Ledger(SESSION, session), parse_report(output.decode("utf-8"), OUTPUT)
    files = {SESSION: session, OUTPUT: output, **(carried or {})}
    first = manifest_of(stated, ledger, report, files)
    files[SUMMARY] = summary_text(first, ledger, report).encode("utf-8")
    files[MANIFEST] = manifest_of(stated, ledger, report, files).to_json()
    files[DIGESTS] = digests_text(files)
    return files


def add_arguments(parser: argparse.ArgumentParser) -> None:
    """Add the words of the command."""
    parser.add_argument("session", metavar="SESSION")
    period = "the period to archive (default: the one reported last)"
    parser.add_argument("--period", metavar="NAME", help=period)
    plant = "what the plant is called (default: the name of the file)"
    parser.add_argument("--plant", metavar="NAME", help=plant)
    parser.add_argument("--out", metavar="FILE", help="the bundle (default: PLANT_PERIOD.zip)")
    time = "when it is archived, such as 2024-05-02T06:00:00Z (default: now)"
    parser.add_argument("--time", metavar="TIME", help=time)
    book = "the book that the session is from: the bundle names the head of its chain"
    parser.add_argument("--book", metavar="FOLDER", help=book)
    before = "the plant's previous bundle, whose digest this one records"
    parser.add_argument("--before", metavar="BUNDLE", help=before)
    add_signing(parser)
    add_timeout(parser)
    add_run(parser, default=AS_REPORTED)


def _write(path: str, data: bytes) -> bool:
    """Write a bundle, unless it is there with the same bytes; return whether it was written.

    Raises
    ------
    Fault
        If it is there with other bytes.
    """
    target = Path(path)
    if write_new(target, data):
        return True
    if read_bytes(target)[1] == data:
        return False
    what = "it already exists with other bytes, and an archive isn't overwritten"
    raise Fault(what, place=Place(file=path), remedy="name another file with --out")


def plant_name(options: argparse.Namespace) -> str:
    """Return what the plant is called: by its word, or by the name of the session's file.

    Raises
    ------
    Fault
        If it isn't one line of printable text: it would look like other lines of the summary.
    """
    stem = "plant" if options.session == "-" else Path(options.session).name.split(".")[0]
    plant: str = options.plant or stem
    if not plant.isprintable():
        remedy = "use --plant NAME, in one line of letters, digits, signs and spaces"
        raise WordsFault(f"the plant can't be called {plant!r}", text=plant, remedy=remedy)
    return plant


def _fits(files: dict[str, bytes]) -> dict[str, bytes]:
    """Return files that a bundle may have.

    Raises
    ------
    Fault
        If one is larger than a bundle's may be.
    """
    for name, data in files.items():
        if len(data) > MOST_BYTES[name]:
            what = f"{name} has {len(data):,} bytes, and in a bundle it may have"
            remedy = "archive a session that asks for fewer reports"
            raise Fault(f"{what} {MOST_BYTES[name]:,}", remedy=remedy)
    return files


def _settings(options: argparse.Namespace, session: bytes) -> RunSettings:
    """Return how the session is run: one of a book, as far as nobody says it, as its reports."""
    given = settings_of(options)
    if options.book is None:
        return given
    from plantbal.book.rounds import settings_asked

    return settings_asked(options.book, session, given)


def _check_closed(options: argparse.Namespace, output: Output, settings: RunSettings) -> None:
    """Refuse a bundle that has other figures of a closed period than its book."""
    if options.book is not None:
        from plantbal.book.rounds import check_closed

        check_closed(options.book, output, settings, older=True)


def run(options: argparse.Namespace) -> int:
    """Run the session, write the bundle, and return the status."""
    import plantbal

    if options.session == "-" and sys.stdin.isatty():
        print("reading standard input, up to Ctrl-D", file=sys.stderr)
    made, plant = bundle_time(options.time), plant_name(options)
    source, session = read_bytes(options.session, SESSION_BYTES)
    book = named_book(options.book, session, source)
    settings = _settings(options, session)
    words = settings.words
    program = find_program(options.program)
    try:
        with Progress(options.prog, session) as progress:
            status, written = call(
                words, session, program=program, timeout=options.timeout, watch=progress.watch()
            )
    except ProgramFault as fault:
        print(f"{options.prog}: {source}: {fault}", file=sys.stderr)
        return fault.ends
    require_believed(written, f"the output of {source}", program)
    output = parse_report(written.decode("utf-8"), f"the output of {source}", status)
    _check_closed(options, output, settings)
    period = period_of(output, options.period)
    stated = Manifest(
        archive=VERSION,
        plant=plant,
        period=period,
        first="",
        last="",
        made=made,
        words=" ".join(words),
        program=program_of(program),
        desk=plantbal.__version__,
        reports=[],
        refused=0,
        files={},
        book=book,
        before=named_bundle(options.before),
        approvals=named_approvals(options.book, period),
    )
    carried = carried_files(options.book, session)
    stated = replace(stated, archive=bundle_form(carried))
    files = _fits(bundle_files(session, written, stated, carried))
    path = options.out or f"{re.sub('[^A-Za-z0-9_.-]', '_', plant)}_{period}.zip"
    state = "" if _write(path, packed(files)) else ", as it was before"
    for made_too in sign_bundle(path, options.key, options.stamps):
        print(f"{options.prog}: its signature: {made_too}", file=sys.stderr)
    for line in output.why:
        print(f"{options.prog}: {line}", file=sys.stderr)
    print(f"{options.prog}: {period} is archived in {path}{state}", file=sys.stderr)
    return looks(not output.ok)
