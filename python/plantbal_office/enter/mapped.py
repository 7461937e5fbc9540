"""The mapping of a workbook that was dropped: what is proposed, what a person makes of it, and where
it is kept until the book has it.

It is proposed as `plantbal-desk map` does. Of what the book's own mapping has of the workbook already
nothing is guessed. An accepted mapping lies beside the workbook, and the book keeps it with the rows.
"""

from __future__ import annotations

import re
from collections.abc import Mapping, Sequence
from dataclasses import dataclass, replace
from pathlib import Path

from django.utils.translation import gettext as _

from plantbal.faults import Fault
from plantbal.workbook.mapping.finding import sheet_mapping
from plantbal.workbook.mapping.form import (
    DAY_OF_MONTH,
    HOUR,
    OPEN,
    SITE,
    TIME,
    Path_,
    SheetMapping,
    WorkbookMapping,
    mapping_text,
    parse_mapping,
)
from plantbal.workbook.mapping.known import KnownPlant
from plantbal.workbook.mapping.profile import ColumnProfile, SheetProfile, profile_of
from plantbal.workbook.mapping.proposing import MappingProposal, propose
from plantbal.workbook.options import ReadingOptions
from plantbal.workbook.sheetkinds import PASSED, SHEETS
from plantbal.workbook.sheets import Sheet, read_workbook
from plantbal_office.enter.drops import TABLES, folder_of, options_of, path_of
from plantbal_office.enter.models import Drop

# No file of a workbook is called so: names that begin with a point are refused.
KEPT = ".mapping.toml"
# What a column may be beside the heads of its kind, and what a choice of it says otherwise.
BESIDE = (DAY_OF_MONTH, TIME, HOUR, SITE)
AS_CALLED, NOT_READ = "=", "-"
LONGEST, SAMPLES = 200, 3
# Names of tags are choices of a column if there aren't too many of both.
MOST_CHOICES = 4_000


@dataclass(frozen=True)
class MappedColumn:
    """A column as a person sees it: its head, what it is taken for and why, and what is in it."""

    number: int
    head: str
    to: str
    why: str
    unit: str
    unit_why: str
    samples: tuple[str, ...]
    choices: tuple[str, ...]

    @property
    def is_open(self) -> bool:
        """Whether it is a question."""
        return OPEN in (self.to, self.unit)


@dataclass(frozen=True)
class MappedSheet:
    """A sheet as a person sees it.

    Attributes
    ----------
    number : int
        Its place among the sheets of the proposal.
    name : str
        What it is called.
    own : SheetMapping
        What it is taken for.
    why : dict of str to str
        What speaks for each of its values.
    columns : list of MappedColumn
        Its columns; none if it isn't read.
    others : list of (str, str, str, str)
        What else there is to say of it: the field of the form, what it is of, its value, and why.
    """

    number: int
    name: str
    own: SheetMapping
    why: Mapping[str, str]
    columns: list[MappedColumn]
    others: list[tuple[str, str, str, str]]


def wants_mapping(drop: Drop, kept: WorkbookMapping | None, known: KnownPlant) -> bool:
    """Say whether a workbook has sheets with figures of which nobody has said yet what they are.

    A table by itself is what its heads say, and readings without that: it is tried first.
    """
    if drop.is_typed or accepted(drop) is not None:
        return False
    path = path_of(drop)
    if not path.is_dir() and path.name.lower().endswith(TABLES):
        return False
    try:
        sheets = [sheet for sheet in read_workbook(path) if sheet.lines]
    except Fault:  # it is said where the workbook is looked at
        return False
    unknown = [is_unknown(sheet, kept) for sheet in sheets]
    if not any(unknown):
        return False
    made = propose(sheets, known).mapping.sheets
    return any(is_one and own.kind for is_one, own in zip(unknown, made))


def is_unknown(sheet: Sheet, kept: WorkbookMapping | None) -> bool:
    """Say whether neither the book's mapping nor its name says what a sheet is."""
    if kept is not None and sheet_mapping(kept, sheet) is not None:
        return False
    word = re.split(r"[^a-z]", sheet.name.strip().casefold(), maxsplit=1)[0]
    return word not in SHEETS and word not in PASSED


# ---- what is kept


def accepted(drop: Drop) -> WorkbookMapping | None:
    """Return the mapping that a person accepted for a workbook, or None."""
    place = folder_of(drop) / KEPT
    return parse_mapping(KEPT, place.read_text(encoding="utf-8")) if place.is_file() else None


def drop_reading(drop: Drop) -> ReadingOptions:
    """Return how a workbook is read: by its mapping, or by the locale that was chosen with it."""
    mapping = accepted(drop)
    return ReadingOptions(mapping=mapping) if mapping is not None else options_of(drop.locale)


def mapped_at(drop: Drop) -> int:
    """Return when the mapping of a workbook was accepted, as a number; 0 if none was."""
    place = folder_of(drop) / KEPT
    return place.stat().st_mtime_ns if place.is_file() else 0


def keep_mapping(drop: Drop, mapping: WorkbookMapping) -> None:
    """Keep a mapping beside its workbook.

    Raises
    ------
    Fault
        If a question is open, or it is none.
    """
    questions = MappingProposal(mapping).open()
    if questions:
        what = _("{count} questions are still open").format(count=len(questions))
        raise Fault(what, remedy=_("answer them, or choose 'not read' for the column or sheet"))
    text = mapping_text(mapping, {}, "")
    parse_mapping(path_of(drop).name, text)
    place = folder_of(drop) / KEPT
    begun = place.with_name(KEPT + ".begun")
    begun.write_text(text, encoding="utf-8")
    begun.replace(place)


def unmap(drop: Drop) -> None:
    """Forget the mapping beside a workbook: the book has it now."""
    Path(folder_of(drop) / KEPT).unlink(missing_ok=True)


# ---- what is proposed


def proposal_of(
    drop: Drop,
    kept: WorkbookMapping | None,
    known: KnownPlant,
    kinds: Mapping[str, str],
    plant: str,
) -> tuple[MappingProposal, list[Sheet]]:
    """Return what is proposed for a workbook, with what the book's mapping says of it already.

    Parameters
    ----------
    drop : Drop
        The workbook.
    kept : WorkbookMapping or None
        The book's mapping.
    known : KnownPlant
        What the book knows of its plant.
    kinds : dict of str to str
        What a person says that sheets are.
    plant : str
        Which plant is read, if the workbook has several.
    """
    sheets = [sheet for sheet in read_workbook(path_of(drop)) if sheet.lines]
    found = propose(sheets, known, plant, kinds)
    base = accepted(drop) or kept
    if base is not None:
        found = _merged(found, base, sheets, kinds, is_accepted=accepted(drop) is not None)
    if drop.locale and found.mapping.locale in (OPEN, ""):
        found.evidence["locale",] = _("as chosen with the workbook")
        found.mapping = replace(found.mapping, locale=drop.locale)
    return found, sheets


def _merged(
    found: MappingProposal,
    base: WorkbookMapping,
    sheets: Sequence[Sheet],
    kinds: Mapping[str, str],
    *,
    is_accepted: bool,
) -> MappingProposal:
    """Return a proposal with what a mapping says already; its other sheets come last."""
    said = _("as you have set it") if is_accepted else _("the book's mapping says so")
    evidence = dict(found.evidence)
    made, taken = [], set()
    for at, (sheet, own) in enumerate(zip(sheets, found.mapping.sheets)):
        there = sheet_mapping(base, sheet)
        if there is not None and kinds.get(sheet.name, there.kind) == there.kind:
            taken.add(there.name)
            of_file = {
                path: evidence.pop(path) for path in [*evidence] if path[:2] == ("sheet", at)
            }
            evidence |= _why_kept(at, there, own, of_file, said)
            own = there
        made.append(own)
    others = [each for each in base.sheets if each.name not in taken]
    names, words = {**found.mapping.names, **base.names}, {**found.mapping.words, **base.words}
    if base.locale:
        evidence["locale",] = said
    mapping = replace(
        found.mapping,
        locale=base.locale or found.mapping.locale,
        missing=tuple(dict.fromkeys([*base.missing, *found.mapping.missing])),
        skip=base.skip,
        limits=base.limits,
        plant=base.plant or found.mapping.plant,
        names=names,
        words=words,
        settings={**found.mapping.settings, **base.settings},
        sheets=(*made, *others),
    )
    return MappingProposal(mapping, evidence, found.known)


def _why_kept(
    at: int, kept: SheetMapping, found: SheetMapping, of_file: Mapping[Path_, str], said: str
) -> dict[Path_, str]:
    """Return what speaks for a sheet as a mapping has it: of a unit, whether the file says it too."""
    why: dict[Path_, str] = {("sheet", at, "kind"): said}
    silent = _("{said}; nothing in the file does").format(said=said)
    for key in ("month", "year", "hours", "locale"):
        if getattr(kept, key):
            why["sheet", at, key] = said
    for table in ("columns", "given", "counters"):
        why |= {("sheet", at, table, head): said for head in getattr(kept, table)}
    for head, unit in kept.units.items():
        path: Path_ = ("sheet", at, "units", head)
        why[path] = of_file.get(path, silent) if found.units.get(head) == unit else silent
    if kept.unit:
        path = ("sheet", at, "unit")
        why[path] = of_file.get(path, silent) if found.unit == kept.unit else silent
    return why


# ---- as a person sees it


def forms_of(found: MappingProposal, sheets: Sequence[Sheet]) -> list[MappedSheet]:
    """Return the sheets of a workbook with what each is taken for."""
    made: list[MappedSheet] = []
    for at, (sheet, own) in enumerate(zip(sheets, found.mapping.sheets)):
        if any(each.own.name == own.name for each in made):
            continue  # another month's, which is read as the first of them
        of_sheet = {
            path[2:]: text for path, text in found.evidence.items() if path[:2] == ("sheet", at)
        }
        why = {str(path[0]): text for path, text in of_sheet.items() if len(path) == 1}
        columns = []
        if own.kind and own.kind != OPEN:
            profile = profile_of(sheet, found.known.names)
            columns = _columns(profile, own, of_sheet, _choices(own, profile, found.known))
        made.append(MappedSheet(at, sheet.name, own, why, columns, _others(own, at, of_sheet)))
    return made


def _choices(own: SheetMapping, profile: SheetProfile, known: KnownPlant) -> tuple[str, ...]:
    """Return what a column of a sheet may be."""
    kind = SHEETS[own.kind]
    heads = tuple(column.head for column in kind.columns) or ("day", "tag", "value", "unit")
    names: tuple[str, ...] = ()
    if kind.is_across or not kind.columns:
        names = known.tanks if kind.is_across else (*known.tags, *known.streams)
        if len(names) * len(profile.columns) > MOST_CHOICES:
            names = ()
    return tuple(dict.fromkeys([*heads, *BESIDE, *names]))


def _columns(
    profile: SheetProfile,
    own: SheetMapping,
    why: Mapping[Path_, str],
    choices: tuple[str, ...],
) -> list[MappedColumn]:
    """Return the columns of a sheet."""
    made = []
    for number, column in enumerate(profile.columns):
        if not column.there and not column.head:
            continue
        to = own.columns.get(column.key)
        chosen = AS_CALLED if to is None else to or NOT_READ
        more = () if chosen in (*choices, AS_CALLED, NOT_READ, OPEN) else (chosen,)
        made.append(
            MappedColumn(
                number,
                column.key,
                chosen,
                why.get(("columns", column.key), ""),
                own.units.get(column.key, ""),
                why.get(("units", column.key), ""),
                _samples(column),
                (*choices, *more),
            )
        )
    return made


def _samples(column: ColumnProfile) -> tuple[str, ...]:
    """Return the first of what stands below a head."""
    there = [f"{value}"[:40] for value in column.values if value is not None]
    return tuple(there[:SAMPLES])


# ---- what a person made of it


def kinds_said(posted: Mapping[str, str], sheets: Sequence[Sheet]) -> dict[str, str]:
    """Return what a form says that sheets are, by their names."""
    found = {}
    for at, sheet in enumerate(sheets):
        kind = posted.get(f"kind-{at}")
        if kind is not None and (kind in SHEETS or kind in ("", OPEN)):
            found[sheet.name] = kind
    return found


def changed_by(
    found: MappingProposal, posted: Mapping[str, str], forms: list[MappedSheet]
) -> MappingProposal:
    """Return a proposal as a form changes it."""
    mapping = found.mapping
    made = list(mapping.sheets)
    for form in forms:
        if posted.get(f"was-{form.number}") == form.own.kind:
            made[form.number] = _sheet_by(form, posted)
    missing = [line.strip()[:LONGEST] for line in posted.get("missing", "").splitlines()]
    mapping = replace(
        mapping,
        locale=_text(posted, "locale", mapping.locale),
        missing=tuple(filter(None, missing)) if "missing" in posted else mapping.missing,
        limits=posted.get("limits") == "on",
        plant=_text(posted, "plant", mapping.plant),
        names=_pairs_by("name", mapping.names, posted),
        words=_pairs_by("word", mapping.words, posted),
        sheets=tuple(made),
    )
    return MappingProposal(mapping, found.evidence, found.known)


def _text(posted: Mapping[str, str], name: str, kept: str) -> str:
    """Return a text of a form, or what is kept if the form doesn't have it."""
    return posted.get(name, kept).strip()[:LONGEST]


def _answer(posted: Mapping[str, str], name: str, asked: str) -> str:
    """Return a text of a form; a question whose mark is cleared stays one."""
    return _text(posted, name, asked) or (OPEN if asked == OPEN else "")


def _pairs_by(what: str, kept: Mapping[str, str], posted: Mapping[str, str]) -> dict[str, str]:
    """Return names or words as a form has them; one that is emptied is as the workbook has it."""
    found = {
        key: posted.get(f"{what}-{n}", to).strip()[:LONGEST]
        for n, (key, to) in enumerate(kept.items())
    }
    return {key: to for key, to in found.items() if to}


def _tabled(
    what: str, kept: Mapping[str, str], at: int, posted: Mapping[str, str]
) -> dict[str, str]:
    """Return a table of a sheet as a form has it."""
    return {key: _text(posted, f"{what}-{at}-{n}", to) for n, (key, to) in enumerate(kept.items())}


def _others(
    own: SheetMapping, at: int, why: Mapping[Path_, str]
) -> list[tuple[str, str, str, str]]:
    """Return what else there is to say of a sheet: its year, hours, what holds in each row, counters."""
    found = []
    if own.hours:
        found.append((f"hours-{at}", _("hours"), own.hours, why.get(("hours",), "")))
        found.append((f"twice-{at}", _("an hour that comes twice"), own.twice, ""))
    if own.year:
        found.append((f"year-{at}", _("year"), own.year, why.get(("year",), "")))
    for what, pairs in (("given", own.given), ("counters", own.counters)):
        for n, (key, to) in enumerate(pairs.items()):
            label = key if what == "given" else _("counter {name} starts again at").format(name=key)
            found.append((f"{what}-{at}-{n}", label, to, why.get((what, key), "")))
    return found


def _sheet_by(form: MappedSheet, posted: Mapping[str, str]) -> SheetMapping:
    """Return a sheet as a form has it."""
    own, at = form.own, form.number
    columns, units = dict(own.columns), dict(own.units)
    for each in form.columns:
        to = posted.get(f"col-{at}-{each.number}", each.to)
        unit = _answer(posted, f"unit-{at}-{each.number}", each.unit)
        columns.pop(each.head, None)
        if to != AS_CALLED:
            columns[each.head] = "" if to == NOT_READ else to[:LONGEST]
        units.pop(each.head, None)
        if unit:
            units[each.head] = unit
    order = [*own.columns, *columns]
    columns = {key: columns[key] for key in dict.fromkeys(order) if key in columns}
    units = {key: units[key] for key in dict.fromkeys([*own.units, *units]) if key in units}
    return replace(
        own,
        name=_text(posted, f"sheet-{at}", own.name) or own.name,
        locale=_text(posted, f"locale-{at}", own.locale),
        month=_text(posted, f"month-{at}", own.month),
        unit=_answer(posted, f"all-{at}", own.unit),
        year=_text(posted, f"year-{at}", own.year),
        hours=_text(posted, f"hours-{at}", own.hours),
        twice=_text(posted, f"twice-{at}", own.twice),
        given=_tabled("given", own.given, at, posted),
        counters=_tabled("counters", own.counters, at, posted),
        columns=columns,
        units=units,
    )
