"""Reads what came of a plant."""

from __future__ import annotations

from collections.abc import Collection, Mapping, Sequence
from contextlib import suppress
from dataclasses import dataclass, field, replace
from functools import cached_property
from itertools import islice
from pathlib import Path

from plantbal.audit.believed import require_believed
from plantbal.faults import InputFault, decoded, read_beginning, read_bytes
from plantbal.fleet.alarms import last_day
from plantbal.fleet.engines import WHY
from plantbal.fleet.given import Given, given_days, has_critical
from plantbal.fleet.job import SAID
from plantbal.fleet.limits import (
    JUDGED_BYTES,
    OUTPUT_BYTES,
    REFUSED_EXPLAINED,
    REFUSED_KNOWN,
    ROWS_AFTER,
    SAID_BYTES,
    SETS_STREAMS,
)
from plantbal.fleet.night import KeptPlant, Night
from plantbal.fleet.outline import Outline, outline_of
from plantbal.fleet.rows import FleetPlant, FleetRow, failed_plant
from plantbal.fleet.sites import Site
from plantbal.limits import SESSION_BYTES
from plantbal.program import STATUSES
from plantbal.records import read_records
from plantbal.report.blocks import Block, Subject, Values, blocks_of, over_of, subjects_of
from plantbal.report.parsing import csv_of, parse_rows
from plantbal.schema import schema

_VERDICTS = {
    "reject": "the global test rejects",
    "undecided": "the global test is undecided; a smaller --gap decides it",
}
# The bytes of a session in which its periods are looked for first.
_HEAD = 1 << 16
# The rows for which the program ends with 1.
_FOUND = frozenset(["refused", "no", "unreadable"])


@dataclass(frozen=True)
class GatheredOutput:
    """What an output says, beside the session that it is of.

    Attributes
    ----------
    site : Site
        The plant.
    outline : Outline
        What is kept of the output.
    asked : mapping of str to str
        The gap and the sweeps that a run was asked for, as its reports have to show them.
    """

    site: Site
    outline: Outline
    asked: Mapping[str, str] = field(default_factory=dict)

    @property
    def refused(self) -> set[int]:
        """The numbers of the first refused rows of the session."""
        return self.outline.refused

    @cached_property
    def session(self) -> bytes:
        """The session."""
        return read_bytes(self.site.path, SESSION_BYTES)[1] if self.site.path.exists() else b""

    def days(self, periods: Collection[str]) -> dict[str, str]:
        """Return the first and the last day of periods: mostly they stand in the first rows.

        If more rows are refused than are known, none are returned.
        """
        if self.outline.refused_count > REFUSED_KNOWN:
            return {}
        if not self.refused:
            with suppress(OSError), self.site.path.open("rb") as file:
                head = file.read(_HEAD)
                found = given_days(head[: head.rfind(b"\n") + 1], periods)
                if len(found) == len(periods):
                    return found
        return given_days(self.session, periods, self.refused)

    @cached_property
    def over(self) -> dict[Subject, str]:
        """What has no flows since a total is beyond the limits, and the stream of that total."""
        if "over" not in self.outline.kinds:
            return {}
        return over_of(self.outline.answers, subjects_of(self.session, self.refused))

    @cached_property
    def has_critical(self) -> bool:
        """Whether the session has critical values of the global test."""
        return has_critical(self.session, self.refused)


def gather(night: Night, site: Site, kept: KeptPlant, given: Given) -> FleetPlant:
    """Return what came of a plant.

    Parameters
    ----------
    night : Night
        The night.
    site : Site
        The plant.
    kept : KeptPlant
        What is kept of it.
    given : Given
        Its session before the run.
    """
    run = kept.run
    if run.status is None:
        return failed_plant(site, "stopped", WHY["stopped"])
    if run.status not in (0, 1):
        return failed_plant(site, *_of_status(night, site, kept), run)
    path = night.output_of(site)
    try:
        outline = outline_of(path)
    except InputFault as fault:
        return failed_plant(site, "unreadable", str(fault), run)
    told = GatheredOutput(site, outline, gap_and_sweeps(night.words))
    plant = _of_outline(told)
    if run.program_sha256 != night.program_sha256:
        what = (
            f"it was run by another program than the others, with the SHA-256 {run.program_sha256}"
        )
        plant.why.append(f"{what}: install the same one on each machine, and use --again")
    if night.wants_days:
        plant.last_day = last_day(told.session)
    if kept.size <= JUDGED_BYTES:
        if all(row.state != "unreadable" for row in plant.rows):  # that is said by itself
            try:
                _judge(night, path)
            except InputFault as fault:
                return replace(failed_plant(site, "refused", str(fault), run), is_believed=False)
    else:
        what = f"its output has more than the {JUDGED_BYTES:,} bytes that a check reads"
        plant.why.append(f"{what}, so it isn't judged: ask for fewer reports")
    if outline.has_components:
        _of_components(plant, path, kept.size)
    if run.status == 1 and not _FOUND & outline.kinds:
        plant.why.append("the program ended with status 1, and no row of its output says why")
    plant.rows = [
        replace(row, status=str(run.status), seconds=f"{run.seconds:.3f}") for row in plant.rows
    ]
    try:
        if given.changed(site.path):
            plant.why.append("its session was changed while it ran; run the fleet again")
    except InputFault as fault:
        plant.why.append(str(fault))
    return plant


def _judge(night: Night, output: Path) -> None:
    """Judge an output of `run` by its own numbers.

    Raises
    ------
    InputFault
        If it doesn't agree with itself.
    """
    if night.words[:1] != ["run"]:
        return
    source, data = read_bytes(output)
    if data.startswith(b"{"):
        data = csv_of(parse_rows(source, decoded(source, data))).encode("utf-8")
    require_believed(data, source, night.program)


def _of_status(night: Night, site: Site, kept: KeptPlant) -> tuple[str, str]:
    """Return the state of a plant by a status other than 0 and 1, and a sentence."""
    status = kept.run.status or 0
    name, remedy = STATUSES.get(status, ("ended", ""))
    if status > 128:
        remedy = f"signal {status - 128} stopped it"
        remedy += "; often that means that memory ran out" if status == 128 + 9 else ""
    if kept.size >= OUTPUT_BYTES:
        remedy = f"its output has more than {OUTPUT_BYTES:,} bytes: ask for fewer reports"
    try:
        _, said = read_beginning(night.folder_of(site) / SAID, SAID_BYTES)
    except InputFault:
        said = b""
    first = said.decode("utf-8", "replace").partition("\n")[0].strip()
    first = "" if first == name else first
    what = f"the program ended with status {status}" + (f", {name}" if status in STATUSES else "")
    return name, "; ".join(filter(None, (what, first, remedy)))


def _of_outline(told: GatheredOutput) -> FleetPlant:
    """Return what an output says of a plant."""
    site, outline = told.site, told.outline
    plant = FleetPlant(site.name)
    blocks = {block.asked: block for block in blocks_of(outline.rows)}
    over = told.over
    subjects = dict.fromkeys([*blocks, *over])
    days = told.days({name for each in subjects for name in (each.period, each.last) if name})
    for each in subjects:
        if each in over:
            row = FleetRow(site.name, str(each), state="over")
            said = [f"no {each.what}: the total of {over[each]} is beyond the limits"]
        else:
            row, said = _of_block(told, blocks[each])
        plant.rows.append(replace(row, days=_days_of(each, days), refused="0"))
        plant.why_of[str(each)] = said
    for what in outline.cut():
        plant.rows.append(FleetRow(site.name, state="unreadable"))
        plant.why.append(f"{what} is cut off")
    if any(row.verdict == "nocritical" for row in plant.rows):
        plant.has_critical = told.has_critical
    _of_check(plant, outline)
    if told.refused or not plant.rows:
        _of_refused(plant, told)
    return plant


def _days_of(subject: Subject, days: Mapping[str, str]) -> str:
    """Return the first and the last day of a subject by those of its periods."""
    first, last = (days.get(name, "") for name in (subject.period, subject.last or subject.period))
    return f"{first.split('..')[0]}..{last.split('..')[-1]}" if first and last else ""


def _of_block(told: GatheredOutput, block: Block) -> tuple[FleetRow, list[str]]:
    """Return the row of a subject's last round, and why a person has to look at it.

    If rows are refused, the report is that of another plant: its suspects aren't worth a look.
    """
    site = told.site
    if block.solved is None or not block.ended:
        return FleetRow(site.name, block.subject, state="unreadable"), ["its report is cut off"]
    solved, suspects = block.solved, list(block.taken)
    said = _of_solution(told, block, solved)
    verdict = block.whole["verdict"] if block.whole else ""
    critical = block.whole["critical"] if block.whole else ""
    if verdict == "reject" and not told.refused:
        suspects += [name for name in block.suspects() if name not in suspects]
    if verdict in _VERDICTS:
        said.append(_VERDICTS[verdict])
    row = FleetRow(
        site.name,
        block.subject,
        state=solved["state"],
        dof=solved["dof"],
        statistic=_thousandths(solved["low"]),
        critical=_thousandths(critical),
        verdict=verdict,
        suspects=" ".join(suspects),
    )
    if verdict == "reject" and suspects:
        said[-1] += f"; suspects are {', '.join(_suspects_said(block, suspects)[:5])}"
    return row, said


def _suspects_said(block: Block, suspects: Sequence[str]) -> list[str]:
    """Return how suspects are named: those that no reading tells apart as one of them.

    To find these sets takes a while in a large plant, whose suspects are named one by one.
    """
    if len(block.streams) > SETS_STREAMS:
        return list(map(block.shown, suspects))
    from plantbal.diagnosis.rounds import one_of_said, suspects_by_set

    sets = suspects_by_set(block)
    there = {name for names in sets for name in names}
    taken = [block.shown(name) for name in suspects if name not in there]
    return [*taken, *(one_of_said(names, block, 5) for names in sets)]


def gap_and_sweeps(words: Sequence[str]) -> dict[str, str]:
    """Return the gap and the sweeps that words of a run ask for."""
    asked = {"gap": "10", "sweeps": "5000"}
    flat = [part for word in words for part in word.split("=", 1)]
    if flat[:1] != ["run"]:
        return {}
    for name, value in zip(flat, flat[1:]):
        if name.removeprefix("--") in asked and name.startswith("--"):
            asked[name[2:]] = value
    return asked


def _of_solution(told: GatheredOutput, block: Block, solved: Values) -> list[str]:
    """Return why a person has to look at a solution, whatever its global test says."""
    said = []
    for name, wanted in told.asked.items():
        if block.head[name] != wanted:
            said.append(f"its report has the {name} {block.head[name]}, and {wanted} was asked for")
    if solved["state"] != "converged":
        said.append("its report isn't converged; --sweeps allows more sweeps")
    if told.refused and solved["dof"] == "0":
        said.append("without the refused rows nothing checks its flows: don't book them")
    if block.taken:
        taken = ", ".join(map(block.shown, block.taken))
        said.append(f"{taken} was taken out, so that the rest fits")
    return said


def _of_components(plant: FleetPlant, output: Path, size: int) -> None:
    """Say which streams carry more of a component than their whole mass."""
    from plantbal.report.carried import impossible

    if size > JUDGED_BYTES:
        return  # it isn't judged, which is said
    try:
        source, data = read_bytes(output)
        for found in impossible(blocks_of(parse_rows(source, decoded(source, data)))):
            plant.why_of.setdefault(found.subject, []).append(found.said)
    except InputFault as fault:
        plant.why.append(str(fault))


def _thousandths(text: str) -> str:
    return f"{int(text) / 1000:.3f}" if text else ""


def _of_check(plant: FleetPlant, outline: Outline) -> None:
    """Add the rows of a check: of each period whether all its blocks pass."""
    states = outline.states.items()
    plant.rows += [FleetRow(plant.site, period, state=state) for period, state in states]
    for row in outline.failed:
        if row["row"] == "no":
            test = schema().tests.get(int(row["code"]))
            where = f" at {row['name']}" if row["name"] else ""
            about = f": {test.about}" if test else ""  # no check that is known says another code
            said = f"the check says no: {row['word']}{where}{about}"
            plant.why_of.setdefault(row["period"], []).append(said)
        elif row["row"] == "unreadable":
            fault = schema().unreadable.get(int(row["code"]))
            about = f": it {fault.about}" if fault else ""
            plant.rows.append(FleetRow(plant.site, state="unreadable"))
            plant.why.append(f"the check can't read row {row['at']}{about}")


def _of_refused(plant: FleetPlant, told: GatheredOutput) -> None:
    """Say why the first row is refused, or why there is no report."""
    from plantbal.explain import Explanation, explain_bytes

    site, count = told.site, told.outline.refused_count
    try:
        found = explain_bytes(str(site.path), _about_first(told))
    except (InputFault, MemoryError):  # of a session with more rows than can be explained here
        found = Explanation([], [], 0)
    # That a session asks for nothing isn't why its first row is refused.
    asks = [each for each in found.whole if not each.asks_nothing]
    first = next(iter([*asks, *found.rows, *found.whole]), None)
    said = first.headline if first else ""
    if count:
        rows = "1 row is refused" if count == 1 else f"{count:,} rows are refused, the first"
        plant.why.insert(0, f"{rows}: {said}" if said else rows.removesuffix(", the first"))
    if not plant.rows and not count and subjects_of(told.session, told.refused):
        plant.rows.append(FleetRow(site.name, state="unreadable", refused="0"))
        plant.why.append("its output has none of the reports that its session asks for")
    if not plant.rows:
        plant.rows.append(FleetRow(site.name, state="none", refused="0"))
        if not count:
            plant.why.append(said or "there is no report; add a row report,PERIOD to the session")
    if count:
        plant.rows = [replace(row, refused=str(count), first_refusal=said) for row in plant.rows]


def _about_first(told: GatheredOutput) -> bytes:
    """Return the session, or of one with very many refused rows those up to the first of these."""
    if told.outline.refused_count <= REFUSED_EXPLAINED:
        return told.session
    first = min(told.refused)
    records = islice(read_records(told.session), first + ROWS_AFTER)
    line = max((record.line for record in records), default=0)
    return b"\n".join(told.session.split(b"\n", line)[:line])
