"""Proposes the mapping of a workbook: from words in four languages, and from the shape of its data.

First each sheet is profiled: its row of heads, and what is below them. The sheet of streams, which
has two columns of ends, gives tags and names; those of tanks give tanks. Then the kinds of the
others are told. Each guess is kept with its evidence. If two readings are possible, the value is a
`?`, and the evidence says which.
"""

from __future__ import annotations

import re
from collections import Counter
from collections.abc import Iterable, Mapping, Sequence
from dataclasses import dataclass, field, replace
from decimal import Decimal

from plantbal.sentence import Joined, Phrase, Sentence, phrase
from plantbal.workbook.mapping.acrosshours import HourColumns
from plantbal.workbook.mapping.columns import Columns
from plantbal.workbook.mapping.dating import month_said
from plantbal.workbook.mapping.form import OPEN, SITE, Path_, SheetMapping, WorkbookMapping
from plantbal.workbook.mapping.kinds import BY_HEADS, KindsOfSheets, meant_by
from plantbal.workbook.mapping.known import KnownPlant
from plantbal.workbook.mapping.months import pattern_of
from plantbal.workbook.mapping.names import is_name, unused_name
from plantbal.workbook.mapping.profile import SheetProfile, days_across, profile_of
from plantbal.workbook.mapping.vocabulary import plain_word, sheet_meanings, value_meaning
from plantbal.workbook.mapping.why import several
from plantbal.workbook.mapping.words import LANGUAGES
from plantbal.workbook.mapping.written import Written
from plantbal.workbook.sheetkinds import SHEETS
from plantbal.workbook.sheets import Sheet

_NONE = ("", OPEN)


@dataclass
class MappingProposal:
    """A mapping that is proposed.

    Attributes
    ----------
    mapping : WorkbookMapping
        The mapping; a `?` stands where a question is open.
    evidence : dict
        What speaks for each of its values.
    known : KnownPlant
        What is known of the plant, by the book and by the workbook.
    """

    mapping: WorkbookMapping
    evidence: dict[Path_, str] = field(default_factory=dict)
    known: KnownPlant = KnownPlant()

    def open(self) -> list[str]:
        """Return the questions that are open, a sentence each."""
        found: list[str] = []
        for path, value in _values(self.mapping):
            if value == OPEN:
                what, why = _said(self.mapping, path), phrase(self.evidence.get(path, ""))
                found.append(Sentence("{what}: {why}", what=what, why=why))
        return found


def _values(mapping: WorkbookMapping) -> Iterable[tuple[Path_, str]]:
    """Give the texts of a mapping with their paths."""
    yield from ((("locale",), mapping.locale), (("plant",), mapping.plant))
    yield from ((("names", key), value) for key, value in mapping.names.items())
    yield from ((("words", key), value) for key, value in mapping.words.items())
    for at, sheet in enumerate(mapping.sheets):
        for key in ("kind", "locale", "month", "year", "unit", "plant", "hours"):
            yield ("sheet", at, key), getattr(sheet, key)
        for key in ("columns", "units", "given", "counters"):
            for head, value in getattr(sheet, key).items():
                yield ("sheet", at, key, head), value


def _said(mapping: WorkbookMapping, path: Path_) -> str:
    """Return which value of a mapping a path is."""
    if path[0] != "sheet":
        return " ".join(map(str, path))
    sheet = mapping.sheets[int(path[1])].name
    return f"{sheet}: {' '.join(map(str, path[2:]))}"


def propose(
    sheets: Sequence[Sheet],
    known: KnownPlant = KnownPlant(),
    plant: str = "",
    kinds: Mapping[str, str] | None = None,
) -> MappingProposal:
    """Return the mapping that is proposed for a workbook.

    Parameters
    ----------
    sheets : sequence of Sheet
        The workbook.
    known : KnownPlant
        What a book knows of its plant.
    plant : str
        Which plant is read, if the workbook has several.
    kinds : dict of str to str, optional
        What somebody says that sheets are, by their names.
    """
    return _Proposing(sheets, known, plant, kinds or {}).proposal()


class _Proposing:
    """Looks at a workbook, and collects what is proposed and why."""

    def __init__(
        self, sheets: Sequence[Sheet], known: KnownPlant, plant: str, said: Mapping[str, str]
    ) -> None:
        self.sheets = [sheet for sheet in sheets if sheet.lines]
        self.known = known
        self.plant = plant
        self.said = said
        self.evidence: dict[Path_, str] = {}
        self.languages: Counter[str] = Counter()
        self.of_sheets: dict[int, Counter[str]] = {}
        self.names: dict[str, str] = {}
        self.words: dict[str, str] = {}
        self.kinds: dict[int, tuple[str, str]] = {}

    def proposal(self) -> MappingProposal:
        """Return it."""
        self.profiles = [profile_of(sheet, self.known.names) for sheet in self.sheets]
        self._learn()
        self.profiles = [profile_of(sheet, self.known.names) for sheet in self.sheets]
        for at in range(len(self.sheets)):
            self.kinds[at] = KindsOfSheets(self.known, self.said).of(self.profiles[at])
        made = [self._sheet(at) for at in range(len(self.sheets))]
        locale = self._locale(made)
        made = self._sites(made)
        mapping = WorkbookMapping(
            locale=locale,
            missing=tuple(self._missing()),
            plant=self.plant,
            names=self.names,
            words=self.words,
            sheets=tuple(made),
        )
        return MappingProposal(mapping, self.evidence, self.known)

    # ---- the plant

    def _learn(self) -> None:
        """Learn tags, streams and tanks from the sheets that list them."""
        tags: list[str] = []
        streams: list[str] = []
        tanks: list[str] = []
        kinds = KindsOfSheets(self.known, self.said)
        for profile in self.profiles:
            by_heads = kinds.by_heads(profile, BY_HEADS)
            for word, into in (("streams", (tags, streams)), ("tanks", (tanks,))):
                if by_heads != word:
                    continue
                found = Columns(profile, SHEETS[word], KnownPlant()).assigned()
                heads = ("tag", "stream") if word == "streams" else ("tank",)
                for head, names in zip(heads, into):
                    column = next((profile.column(k) for k, v in found.items() if v == head), None)
                    names += _texts(column.values) if column else []
        for profile in self.profiles:
            if not tanks and kinds.by_heads(profile, ("straps", "dips")):
                column = next((c for c in profile.columns if "tank" in meant_by(c.name)), None)
                tanks += _texts(column.values) if column else []
        own = self.known
        self.known = KnownPlant(
            tuple(dict.fromkeys([*own.tags, *tags])),
            tuple(dict.fromkeys([*own.streams, *streams])),
            tuple(dict.fromkeys([*own.tanks, *tanks])),
            own.units,
        )

    # ---- sheets

    def _sheet(self, at: int) -> SheetMapping:
        """Return what is proposed for a sheet."""
        kind, said = self.kinds[at]
        name = pattern_of(self.sheets[at].name)
        others = [pattern_of(sheet.name) for sheet in self.sheets]
        if (
            others.count(name) > 1
            and len({self.kinds[n] for n, o in enumerate(others) if o == name}) > 1
        ):
            name = self.sheets[at].name
        path: Path_ = ("sheet", at)
        self.evidence[(*path, "kind")] = said
        if name != self.sheets[at].name:
            self.evidence[(*path, "name")] = Sentence(
                "{name!r} names a month", name=self.sheets[at].name
            )
        if kind in ("", OPEN):
            return SheetMapping(name, kind)
        if kind == "readings" and self.profiles[at].at is None:
            return self._across(at, name)
        columns: Columns | HourColumns
        if kind == "readings" and self.profiles[at].hours:
            columns = HourColumns(self.profiles[at], self.known, self._streams_have_units())
        else:
            has_units, gauged = self._streams_have_units(), self._gauged()
            columns = Columns(self.profiles[at], SHEETS[kind], self.known, has_units, gauged)
        found = columns.mapping(name)
        for key, text in columns.evidence.items():
            self.evidence[(*path, *key)] = text
        self.languages.update(columns.languages)
        self.of_sheets[at] = columns.languages
        self._take_names(self.profiles[at], found)
        return found

    def _across(self, at: int, name: str) -> SheetMapping:
        """Return what is proposed for a sheet with the days of a month across, by their numbers."""
        sheet = self.sheets[at]
        place = days_across(sheet)
        if place is None:
            return SheetMapping(name, "readings")
        titles = [v for _, values in sheet.lines[:place] for v in values if isinstance(v, str)]
        month, why = month_said(SheetProfile(sheet, titles=titles))
        self.evidence["sheet", at, "month"] = why
        return SheetMapping(name, "readings", heads=sheet.lines[place][0], month=month)

    def _streams_have_units(self) -> bool:
        """Say whether the sheet of streams has a column of units."""
        for at, (kind, _) in self.kinds.items():
            if kind == "streams":
                found = Columns(self.profiles[at], SHEETS["streams"], self.known).assigned()
                if "unit" in found.values():
                    return True
        return False

    def _gauged(self) -> frozenset[str]:
        """Return the columns that the sheets of gauges have."""
        found: set[str] = set()
        for at, (kind, _) in self.kinds.items():
            if kind == "gauges":
                found |= {*Columns(self.profiles[at], SHEETS[kind], self.known).assigned().values()}
        return frozenset(found)

    def _take_names(self, profile: SheetProfile, found: SheetMapping) -> None:
        """Propose names of streams, tanks and units that a session can have, and words for kinds."""
        for key, column in found.columns.items():
            own = profile.column(key)
            if own is None:
                continue
            if column in ("stream", "from", "to", "tank") or (
                column == "name" and found.kind in ("units", "boundaries", "accounts")
            ):
                for text in own.names():
                    self._take_name(text, is_end=column in ("from", "to"))
            if column in ("kind", "group"):
                for text in own.names():
                    meaning = value_meaning(text)
                    if meaning and meaning.of != text and _is_word(meaning.of, column):
                        self.words[text] = meaning.of
                        self.evidence[("words", text)] = meaning.said()
        for column_ in profile.columns:
            if column_.head in (*self.known.tanks, *self.known.streams) and column_.head:
                self._take_name(column_.head, is_end=False)

    def _take_name(self, text: str, is_end: bool) -> None:
        meaning = value_meaning(text) if is_end else None
        if meaning and meaning.of == "env":
            if text != "env":
                self.names[text] = "env"
                self.evidence[("names", text)] = meaning.said()
        elif not is_name(text) and text not in self.names:
            taken = {*self.names.values(), *filter(is_name, self.known.names)}
            self.names[text] = unused_name(text, taken)
            self.evidence[("names", text)] = "a name has letters, digits, _, - and . alone"

    # ---- forms

    def _locale(self, made: list[SheetMapping]) -> str:
        """Return whose numbers and days the workbook has; a sheet that differs has its own."""
        written = {
            at: self._written(at) for at, sheet in enumerate(made) if sheet.kind not in _NONE
        }
        said = Written()
        for at, own in written.items():  # those that decide first
            if (own.mark or own.order) and own.agrees(said, self._language(at)):
                said.add(own)
        for at, own in written.items():
            if own.mark or own.order:
                agrees = own.mark in ("", said.mark) and own.order in ("", said.order)
            else:
                agrees = own.agrees(said, self._language(at))
                if agrees:
                    said.add(own)
            if not agrees:
                self._own_locale(at, own, made, said)
        language = self.languages.most_common(1)[0][0] if self.languages else "en"
        locale, why = said.locale(language)
        heads = Sentence("its heads are {language}", language=Phrase(LANGUAGES[language]))
        self.evidence["locale",] = several(why, heads if self.languages else "")
        return locale

    def _own_locale(self, at: int, own: Written, made: list[SheetMapping], others: Written) -> None:
        """Propose a locale for a sheet that is written otherwise than the others."""
        language = self._language(at)
        locale, why = own.locale(language)
        made[at] = replace(made[at], locale=locale)
        marks = {",": "a decimal comma", ".": "a decimal point"}
        mark = Phrase(marks.get(others.mark, "another form"))
        self.evidence["sheet", at, "locale"] = Sentence(
            "{why}; its heads are {language}, and other sheets have {mark}",
            why=phrase(why),
            language=Phrase(LANGUAGES[language]),
            mark=mark,
        )

    def _language(self, at: int) -> str:
        """Return the language of a sheet: that of most of its heads."""
        found = self.of_sheets.get(at) or self.languages
        return found.most_common(1)[0][0] if found else "en"

    def _written(self, at: int) -> Written:
        """Return how the figures and days of a sheet are written."""
        written = Written()
        for column in self.profiles[at].columns:
            if column.has_days or column.has_figures:
                for text in column.written:
                    written.take(text)
            if column.has_days:
                written.take_run(column.written)
        return written

    def _missing(self) -> list[str]:
        """Return words that stand in the place of figures."""
        found: Counter[str] = Counter()
        for at, profile in enumerate(self.profiles):
            if self.kinds[at][0] not in ("readings", "dips"):
                continue
            for column in profile.columns:
                if column.has_figures:
                    found.update(
                        value
                        for value in column.values
                        if isinstance(value, str) and not re.search("[0-9#]", value)
                    )
        if found:
            form = "{word!r} {count} times"
            some = [Sentence(form, word=word, count=n) for word, n in found.most_common(5)]
            self.evidence["missing",] = Sentence(
                "in the place of figures: {said}", said=Joined(", ", some)
            )
        return list(found)

    # ---- several plants

    def _sites(self, made: list[SheetMapping]) -> list[SheetMapping]:
        """Return the sheets with the plants that they are of, if there are several."""
        sites: Counter[str] = Counter()
        for at, sheet in enumerate(made):
            for key, to in sheet.columns.items():
                column = self.profiles[at].column(key)
                if to == SITE and column is not None:
                    sites.update(str(value) for value in column.values)
        if sites:
            self._ask_site(sorted(sites), "a column says which")
            return made
        rests = self._rests(made)
        plants = sorted({rest for rest in rests.values() if rest})
        of_streams = [rests.get(n, "") for n, sheet in enumerate(made) if sheet.kind == "streams"]
        if len(of_streams) < 2 or len(set(of_streams)) < len(of_streams):
            return made
        self._ask_site(plants, "each has a sheet of streams")
        found = []
        for at, sheet in enumerate(made):
            rest = rests.get(at, "")
            self.evidence["sheet", at, "plant"] = (
                Sentence("its name has {rest!r}", rest=rest) if rest else ""
            )
            found.append(_of_plant(sheet, rest, self.plant))
        return found

    def _rests(self, made: Sequence[SheetMapping]) -> dict[int, str]:
        """Return what is left of the names of sheets without the words for their kinds."""
        found = {}
        for at, sheet in enumerate(made):
            words = re.findall(r"[^\W_]+", sheet.name)
            found[at] = " ".join(
                word for word in words if not any(True for _ in sheet_meanings(word))
            )
        return found

    def _ask_site(self, plants: Sequence[str], why: str) -> None:
        names = ", ".join(plants)
        matched = [name for name in plants if plain_word(name) == plain_word(self.plant)]
        self.evidence["plant",] = Sentence(
            "the workbook has several plants, {names}: {why}", names=names, why=Phrase(why)
        )
        self.plant = matched[0] if matched else OPEN


def _is_word(of: str, column: str) -> bool:
    """Say whether a meaning is one of a column of kinds, or of groups of products."""
    groups = ("crude", "products", "coefficient", "lubricants")
    return (of in groups) == (column == "group") and of != "env"


def _of_plant(sheet: SheetMapping, plant: str, wanted: str) -> SheetMapping:
    """Return a sheet with its plant; of one that isn't read nothing is asked."""
    if plant and wanted not in ("", OPEN, plant):
        return SheetMapping(sheet.name, "" if sheet.kind == OPEN else sheet.kind, plant=plant)
    return replace(sheet, plant=plant) if plant else sheet


def _texts(values: Iterable[object]) -> list[str]:
    return [f"{each}" for each in values if isinstance(each, (str, Decimal))]
