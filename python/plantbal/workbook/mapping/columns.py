"""What the columns of a sheet are: by the words of their heads, and by what is below them."""

from __future__ import annotations

from collections import Counter
from dataclasses import dataclass, field, replace

from plantbal.sentence import Sentence
from plantbal.workbook.mapping import why
from plantbal.workbook.mapping.counting import maybe_counters
from plantbal.workbook.mapping.dating import month_said, year_said
from plantbal.workbook.mapping.form import DAY_OF_MONTH, HOUR, OPEN, SITE, TIME, SheetMapping
from plantbal.workbook.mapping.known import KnownPlant, tag_in, without_name
from plantbal.workbook.mapping.months import month_of, month_of_head
from plantbal.workbook.mapping.profile import (
    ColumnProfile,
    SheetProfile,
    is_running,
    tank_pairs,
)
from plantbal.workbook.mapping.unitsof import UNITS_OF, unit_by_size, unit_in_titles
from plantbal.workbook.mapping.vocabulary import (
    Meaning,
    column_meanings,
    is_remark,
    is_total,
    is_weak,
    plain_word,
)
from plantbal.workbook.sheetforms import SheetKind
from plantbal.workbook.sheetkinds import SHEETS
from plantbal.workbook.units import (
    AMOUNTS,
    DENSITIES,
    LENGTHS,
    TEMPERATURES,
    VOLUMES,
    is_rate,
)
from plantbal.workbook.wide import OF_TANKS

_DAYS = frozenset("day first last since until".split())
_FIGURES = frozenset(
    "level volume amount value density error base dof grade moisture temperature water".split()
)
_LONG = ("day", "tag", "value", "unit")
# The kinds whose column of names has streams, tanks or products.
_OF_ANY = ("densities", "temperatures", "gauges")


@dataclass
class Columns:
    """Looks at the columns of a sheet of a kind.

    Attributes
    ----------
    profile : SheetProfile
        The sheet.
    kind : SheetKind
        Its kind.
    known : KnownPlant
        What is known of the plant.
    has_units : bool
        Whether the streams say the units of their figures.
    gauged : frozenset of str
        Which errors of temperatures and water a sheet of gauges says.
    evidence : dict
        What speaks for each value, by its path within the sheet.
    languages : Counter of str
        The languages of the words that were found.
    """

    profile: SheetProfile
    kind: SheetKind
    known: KnownPlant
    has_units: bool = False
    gauged: frozenset[str] = frozenset()
    evidence: dict[tuple[str, ...], str] = field(default_factory=dict)
    languages: Counter[str] = field(default_factory=Counter)

    @property
    def heads(self) -> tuple[str, ...]:
        """The heads of the kind."""
        return tuple(column.head for column in self.kind.columns) or _LONG

    @property
    def pairs(self) -> int:
        """How many tanks are over pairs of levels and volumes."""
        return tank_pairs(self.profile, self.known.tanks)

    @property
    def is_long(self) -> bool:
        """Whether each figure has a row."""
        found = {m.of for column in self.profile.columns for m in column_meanings(column.name)}
        if not self.kind.columns:
            tags = sum(bool(self._tag(column)) for column in self.profile.columns)
            return {"tag", "value"} <= found and tags < 2
        return True

    def _tag(self, column: ColumnProfile) -> str:
        return self.known.meter(column.head)

    def _tank(self, column: ColumnProfile) -> str:
        """Return the tank in a head, or in the cell over it; of densities any name."""
        if not self.kind.is_across or (self.kind.word == "straps" and self.pairs):
            return ""
        if self.kind.word == "densities":
            return tag_in(column.head, self.known.names)
        return tag_in(column.head, self.known.tanks) or tag_in(column.above, self.known.tanks)

    def _of_tank(self, column: ColumnProfile, tank: str) -> tuple[str, str]:
        """Return what a column of a tank has, `level` and the like, and why; `?` if it isn't told."""
        rest = without_name(column.name, tank) if tag_in(column.head, (tank,)) else column.name
        if column.unit in TEMPERATURES:
            return "temperature", why.figures_in(column.unit)
        found = {meaning.of for meaning in column_meanings(rest)} & {*OF_TANKS} if rest else set()
        if len(found) == 1:
            return found.pop(), Sentence("{rest!r} says so", rest=rest)
        others = [each for each in self.profile.columns if self._tank(each) == tank]
        if column.unit in DENSITIES:
            return "density", why.figures_in(column.unit)
        if len(others) == 1 and column.unit not in VOLUMES:
            return "level", "it is the only column of the tank"
        return OPEN, why.which_of_tank(tank, len(others), OF_TANKS)

    def assigned(self) -> dict[str, str]:
        """Return what the columns are; those that are nothing known aren't there."""
        found: dict[str, str] = {}
        taken: dict[str, str] = {}
        wide = not self.kind.columns and not self.is_long
        for sure, exact in ((True, True), (False, True), (False, False)):
            for column in self.profile.columns:
                if column.key in found or self._tank(column) or (wide and self._tag(column)):
                    continue
                own = plain_word(column.name or column.head)
                if sure and is_weak(own) and own not in self.heads:
                    continue
                for meaning in self._meanings(column, exact, wide):
                    if meaning.of not in taken:
                        found[column.key], taken[meaning.of] = meaning.of, column.key
                        self.evidence["columns", column.key] = meaning.said()
                        self.languages[meaning.language] += 1
                        break
        self._repeat(found)
        self._guess_names(found, taken)
        self._guess_days(found, taken)
        return found

    def _guess_names(self, found: dict[str, str], taken: dict[str, str]) -> None:
        """Take the only column with names of the plant for these, if no head says what has them."""
        for of, names in (
            ("stream", {*self.known.streams, *self.known.tags}),
            ("tank", {*self.known.tanks}),
        ):
            if of in taken or of not in self.kind.needed or self.kind.word == f"{of}s":
                continue
            free = [c for c in self.profile.columns if c.key not in found and not self._tank(c)]
            fit = [c for c in free if 2 * len(names.intersection(c.names())) > len(c.names())]
            if len(fit) == 1:
                found[fit[0].key], taken[of] = of, fit[0].key
                count = len(names.intersection(fit[0].names()))
                self.evidence["columns", fit[0].key] = why.texts_of_plant(count, of)

    def _repeat(self, found: dict[str, str]) -> None:
        """Take heads that are there again, all as often, for those of tables side by side."""
        if not self.kind.is_shaped or not self.kind.columns:
            return
        first = {c.head: c.key for c in self.profile.columns if c.key in found}
        again = [c for c in self.profile.columns if c.head in first and c.key not in found]
        counts = Counter(first[column.head] for column in again)
        needed = {key for key, of in found.items() if of in self.kind.needed}
        if not again or len({counts[key] for key in needed}) != 1:
            return
        for column in again:
            found[column.key] = found[first[column.head]]
            self.evidence["columns", column.key] = Sentence(
                "as {first}, whose head it has: tables are side by side", first=first[column.head]
            )

    def _meanings(self, column: ColumnProfile, exact: bool, wide: bool) -> list[Meaning]:
        """Return what a head may mean here, of what can stand below it."""
        heads = {"day"} if wide else set(self.heads)
        heads |= {SITE} | ({TIME} if not self.kind.columns else set())
        found = []
        for meaning in column_meanings(column.name or column.head):
            whole = plain_word(meaning.word) == plain_word(column.name or column.head)
            of_any = {"stream", "tank", "tag", "product"} - {*self.heads}
            if self.kind.word in _OF_ANY and meaning.of in of_any:
                meaning = replace(meaning, of="name")
            if self.kind.word == "periods" and meaning.of == "period":
                meaning = replace(meaning, of="name")  # of the periods themselves
            if meaning.of in heads and whole is exact and self._can_be(column, meaning.of):
                found.append(meaning)
        own = plain_word(column.name or column.head)
        if own in self.heads and own not in {each.of for each in found} and exact:
            found.append(Meaning(own, "en", own))
        return sorted(found, key=lambda each: each.of != own)

    def _can_be(self, column: ColumnProfile, of: str) -> bool:
        """Say whether what stands in a column can be that."""
        if not column.there:
            return of not in self.kind.needed
        if of in _DAYS:
            return column.has_days or self._are_numbers_of_days(column, of)
        if of in _FIGURES:
            return not column.has_days and (column.has_figures or of in ("error", "base"))
        if of == TIME:
            return column.times > 0 or column.has_figures or column.has_days
        if of == "period":
            return not column.has_figures
        if of == "month":
            texts = [value for value in column.values if isinstance(value, str)]
            return column.has_days or bool(texts) and all(map(month_of, texts))
        if of in ("stream", "tank") and is_weak(column.name or column.head):
            return self._names_known(column, of)
        return not column.has_days and not column.times

    def _names_known(self, column: ColumnProfile, of: str) -> bool:
        """Say whether a column of whatever names has streams or tanks, as far as these are known."""
        if column.has_days or column.times:
            return False
        if self.kind.word == f"{of}s":
            return True
        there = {str(value) for value in column.values}
        known = {*self.known.streams, *self.known.tags} if of == "stream" else {*self.known.tanks}
        return not known or 2 * len(there & known) > len(there)

    def _are_numbers_of_days(self, column: ColumnProfile, of: str) -> bool:
        """Say whether a column has the days of a month by their numbers."""
        numbers = column.decimals
        if of != "day" or not numbers or len(numbers) < column.there:
            return False
        return [int(n) for n in numbers] == list(range(1, len(numbers) + 1)) and len(numbers) <= 31

    def _guess_days(self, found: dict[str, str], taken: dict[str, str]) -> None:
        """Take the only column of days for the days, if no head says so."""
        wanted = "first" if "first" in self.kind.needed else "day"
        if wanted in taken or wanted not in (*self.heads, *(() if self.kind.columns else ("day",))):
            return
        if self.kind.word == "moistures":
            return
        days = [c for c in self.profile.columns if c.has_days and c.key not in found]
        if len(days) == 1:
            found[days[0].key] = wanted
            self.evidence["columns", days[0].key] = "it is the only column of days"

    # ---- the whole sheet

    def mapping(self, name: str) -> SheetMapping:
        """Return what is proposed for the sheet."""
        columns = self.assigned()
        units: dict[str, str] = {}
        month = ""
        for column in self.profile.columns:
            to = columns.get(column.key)
            if to == "day" and not column.has_days and column.there:
                columns[column.key] = DAY_OF_MONTH
                month, self.evidence["month",] = month_said(self.profile)
            elif to == TIME and column.has_figures and not column.times:
                columns[column.key] = HOUR
            elif to is None:
                self._take_other(column, columns)
            self._take_unit(column, columns.get(column.key), units, set(columns.values()))
        unit = self._unit(columns, units)
        self._ask_density_error(columns, units, unit)
        year, said = year_said(self.profile) if self.kind.word == "densities" else ("", "")
        if year:
            self.evidence["year",] = said
        given = self._given(columns)
        counters = {} if self.kind.columns else self._counters(columns)
        totals = tuple(self.profile.totals)
        if totals:
            self.evidence["totals",] = "rows that begin so are sums, and aren't read"
        by_head = bool(columns) and not any(key.startswith("column ") for key in columns)
        return SheetMapping(
            name,
            self.kind.word,
            heads=0 if by_head or self.profile.at is None else self.profile.heads_line,
            month=month,
            columns=columns,
            unit=unit,
            units=units,
            totals=totals,
            down=self._down(columns),
            year=year,
            given=given,
            counters=counters,
        )

    def _given(self, columns: dict[str, str]) -> dict[str, str]:
        """Return what holds for all rows of columns that the sheet doesn't have: errors are asked."""
        there = {*columns.values()}
        asked = []
        if self.kind.word in ("densities", "temperatures") and "error" not in there:
            asked.append(("error", "0.5"))
        for of, such in (("temperature", "0.5"), ("water", "2 mm")):
            is_there = of in there or any(to.endswith(f" {of}") for to in there)
            if self.kind.word in ("dips", "tickets") and is_there:
                if f"{of} error" in {*self.kind.heads} - there - self.gauged:
                    asked.append((f"{of} error", such))
        for head, such in asked:
            units = (
                "degrees" if "temperature" in (head.split()[0], self.kind.word[:-1]) else "kg/m3"
            )
            units = "mm" if head.startswith("water") else units
            self.evidence["given", head] = why.no_error(units, such)
        return {head: OPEN for head, _ in asked}

    def _counters(self, columns: dict[str, str]) -> dict[str, str]:
        """Ask whether figures that only rise are those of a counter, which are subtracted."""
        found = maybe_counters(self.profile, self.known, columns)
        self.evidence |= {("counters", key): said for key, said in found.items()}
        return dict.fromkeys(found, OPEN)

    def _take_other(self, column: ColumnProfile, columns: dict[str, str]) -> None:
        """Take a column that is none of the kind's: of a tag, a tank, remarks or sums."""
        wide = not self.kind.columns and not self.is_long
        name = self._tank(column) or (self._tag(column) if wide else "")
        if name and self.kind.word == "dips":
            self._take_tank(column, name, columns)
            return
        if name:
            if name != column.head:
                columns[column.key] = name
                self.evidence["columns", column.key] = Sentence("it has {name}", name=name)
            return
        if self.kind.word == "densities" and month_of_head(column.head):
            return
        if not column.there or (wide and self._take_beside(column, columns)):
            return
        path = "columns", column.key
        if is_total(column.title):
            columns[column.key], self.evidence[path] = "", "a column of sums"
        elif is_remark(column.title) or (column.has_texts and column.title):
            columns[column.key], self.evidence[path] = "", "remarks: it isn't read"
        elif column.title and not wide and is_running(column):
            columns[column.key], self.evidence[path] = "", "running numbers: it isn't read"
        elif column.title and (column.has_figures or column.has_days):
            open_ = bool(self.known.names) or bool(self.kind.columns)
            if open_:
                columns[column.key] = OPEN
                self.evidence[path] = why.which_column(() if wide else self.heads)

    def _take_beside(self, column: ColumnProfile, columns: dict[str, str]) -> bool:
        """Take a column of a sheet of readings that has what a tank holds, or the days of these."""
        tank = tag_in(column.head, self.known.tanks) or tag_in(column.above, self.known.tanks)
        own, path = Columns(self.profile, SHEETS["dips"], self.known), ("columns", column.key)
        if tank and column.has_figures:
            of, said = own._of_tank(column, tank)
            is_level = of == "level" and column.unit in LENGTHS
            if not is_level and (of in ("level", OPEN) or column.unit in LENGTHS):
                return False
            columns[column.key] = f"{tank} {of}"
            self.evidence[path] = why.has_tank(tank, said)
            return True
        after = self.profile.columns[self.profile.columns.index(column) + 1 :][:1]
        if not column.has_days or not any(map(own._tank, after)):
            return False
        columns[column.key], self.evidence[path] = "day", "the days of the tanks after it"
        return True

    def _take_tank(self, column: ColumnProfile, tank: str, columns: dict[str, str]) -> None:
        """Take a column of a tank for its level, or for what else it has of it."""
        of, said = self._of_tank(column, tank)
        to = OPEN if of == OPEN else tank if of == "level" else f"{tank} {of}"
        if to != column.head:
            columns[column.key] = to
            self.evidence["columns", column.key] = why.has_tank(tank, said)

    # ---- units

    def _take_unit(
        self, column: ColumnProfile, to: str | None, units: dict[str, str], all_: set[str]
    ) -> None:
        """Take the unit of a column; without one, what its figures leave open is a question."""
        path = "units", column.key
        of = (to or "").rpartition(" ")[2]
        is_wide = self._is_wide(column)
        if to in ("", OPEN) or to is None and not is_wide:
            return
        if not self.kind.columns and of in OF_TANKS and column.unit in UNITS_OF[of]:
            units[column.key], self.evidence[path] = column.unit, column.unit_said
            return
        allowed = UNITS_OF.get(to or "")
        if to == "error" and self.kind.word in ("densities", "temperatures"):
            allowed = DENSITIES if self.kind.word == "densities" else ()
            if column.unit not in allowed:
                return  # in kg/m3 and in degrees
        if is_wide:
            allowed = AMOUNTS if not self.kind.columns else {*VOLUMES, *LENGTHS}
            allowed = UNITS_OF.get(of, DENSITIES if self.kind.word == "densities" else allowed)
        if allowed is None or not (column.there or is_wide):
            return
        if column.unit and (column.unit in allowed or is_rate(column.unit)):
            units[column.key], self.evidence[path] = column.unit, column.unit_said
            return
        if is_wide or "unit" in all_ and to in ("level", "volume", "amount", "value", "grade"):
            return
        if to == "moisture" and "unit" in all_:
            return
        if not column.numbers or (to == "value" and self.kind.columns):
            return  # each figure has its own unit, or none is needed
        guess, said = self._guess_unit(column, to or "")
        if guess is None and said:
            self.evidence[path] = said
        elif guess is not None and to != "temperature":
            units[column.key], self.evidence[path] = guess, said

    def _ask_density_error(self, columns: dict[str, str], units: dict[str, str], unit: str) -> None:
        """Ask for the unit of errors beside densities that aren't in kg/m3."""
        own = {unit, *(units.get(key, "") for key, to in columns.items() if to == "density")} - {""}
        for key, to in columns.items() if self.kind.word == "densities" else ():
            if to == "error" and key not in units and own - {"kg/m3"}:
                units[key] = OPEN
                self.evidence["units", key] = why.unit_of_density(sorted(own))

    def _is_wide(self, column: ColumnProfile) -> bool:
        """Say whether a column has the figures of a tag, a tank, a name or a month."""
        if self.kind.word == "densities" and month_of_head(column.head):
            return True
        return bool(self._tank(column)) or (not self.kind.columns and bool(self._tag(column)))

    def _guess_unit(self, column: ColumnProfile, to: str) -> tuple[str | None, str]:
        """Return the unit of figures without one; `?` if nothing decides, None if none is needed."""
        title = unit_in_titles(self.profile.titles, to)
        if title:
            return title, "a title above says so"
        if to == "value" and not self.kind.columns or to == "amount" and "stream" in self.heads:
            texts = {text for each in self.profile.columns for text in each.names()}
            booked = self.known.units_of(texts.intersection(self.known.meters))
            if booked or (self.has_units and to == "amount"):
                return None, why.unit_of_book(booked) if booked and not self.has_units else ""
        return unit_by_size(column, to)

    def _unit(self, columns: dict[str, str], units: dict[str, str]) -> str:
        """Return the unit of all figures below tags or tanks, if their columns don't say it."""
        others = tuple(f" {of}" for of in OF_TANKS)
        wide = [
            column
            for column in self.profile.columns
            if self._is_wide(column) and not columns.get(column.key, "").endswith((*others, OPEN))
        ]
        lacks = [column for column in wide if column.key not in units and column.numbers]
        if not lacks or (not self.kind.columns and (self.has_units or self.is_long)):
            return ""
        if not self.kind.columns:
            booked = {each.key: self.known.units_of([self._tag(each)]) for each in lacks}
            if all(booked.values()):
                every = self.known.units_of([self._tag(each) for each in lacks])
                self.evidence["unit",] = why.unit_of_book(every)
                return ""
            for key, found in booked.items():
                if found:  # of the others alone it is asked
                    units[key], self.evidence["units", key] = found[0], why.unit_of_book(found)
            lacks = [each for each in lacks if each.key not in units]
        to = {"straps": "volume", "dips": "level", "densities": "density"}.get(
            self.kind.word, "amount"
        )
        merged = ColumnProfile(0, "", values=[v for each in lacks for v in each.values], numbers=1)
        guess, said = self._guess_unit(merged, to)
        if guess:
            self.evidence["unit",] = why.of_columns(said, len(lacks))
        return guess or ""

    def _down(self, columns: dict[str, str]) -> tuple[str, ...]:
        """Return the heads of names or days that stand once for several rows."""
        found = []
        for column in self.profile.columns:
            to = columns.get(column.key)
            if to not in ("tank", "stream", "day", "tag", "first") or not column.head:
                continue
            if (
                column.there
                and column.blanks > 2 * column.there
                and column.has_days | column.has_texts
            ):
                found.append(column.head)
                count = column.blanks + column.there
                self.evidence["down",] = why.often_empty(column.blanks, count)
        return tuple(found)
