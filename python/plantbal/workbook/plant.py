"""The plant of a workbook: units, tanks and their tables, streams and meters, critical values."""

from __future__ import annotations

import difflib
import re
from collections.abc import Iterable
from dataclasses import dataclass, field
from fractions import Fraction

from plantbal.schema import schema
from plantbal.sentence import Sentence
from plantbal.session import ENV, dates_of_service, most_streams
from plantbal.study.critical import values_of
from plantbal.workbook.base import MOST_VARIANCE, error_said
from plantbal.workbook.causes import SheetCause
from plantbal.workbook.cells import Error
from plantbal.workbook.kinds import KindEvidence, evidence_of
from plantbal.workbook.settings import read_settings, Settings
from plantbal.workbook.sheets import Cell
from plantbal.workbook.tables import SheetRow, Tables
from plantbal.workbook.units import AMOUNTS, VOLUMES

_MOST_ID = schema().limits["most_name"] - len("_2024-04-01")


@dataclass
class StreamRow:
    """A stream as its sheet has it.

    Attributes
    ----------
    name, tag, kind, unit : str
        Its name, its tag, its kind, and the unit of its figures.
    density : Fraction or None
        Its density in g/m3.
    error : Error or None
        The error of its meter.
    cell : Cell
        Where its name stands.
    base : Error or None
        Its systematic error, if that is wider than a row bears.
    """

    name: str
    tag: str
    kind: str
    unit: str
    density: Fraction | None
    error: Error | None
    cell: Cell
    base: Error | None = None

    @property
    def excess(self) -> int:
        """The variance of its systematic error that its row doesn't bear."""
        return max(0, self.base.variance(0) - MOST_VARIANCE) if self.base else 0

    @property
    def label(self) -> str:
        """What its facts are called by: the tag, if it is a name that is short, or the stream."""
        if re.fullmatch(rf"[A-Za-z0-9_.-]{{1,{_MOST_ID}}}", self.tag):
            return self.tag
        return self.name

    @property
    def said(self) -> str:
        """What it is called in what is said."""
        return f"{self.tag} ({self.name})" if self.tag else self.name


@dataclass
class TankRow:
    """A tank as its sheet has it, and its table."""

    name: str
    error: Error | None
    density: Fraction | None
    points: list[tuple[int, int]] = field(default_factory=list)

    def slope(self, mm: int, density: Fraction) -> Fraction:
        """Return the grams of a millimetre at a level: of the steeper part, if it is at a point."""
        steep = [
            Fraction(above[1] - below[1], above[0] - below[0])
            for below, above in zip(self.points, self.points[1:])
            if below[0] <= mm <= above[0]
        ]
        return max(steep, default=Fraction(0)) * density / 10**6


class PlantReader:
    """Reads the sheets of the plant.

    Parameters
    ----------
    tables : Tables
        The tables of the workbook.

    Attributes
    ----------
    streams, tags : dict of str to StreamRow
        The streams by their names, and by their tags.
    tanks : dict of str to TankRow
        The tanks.
    bases : dict of str to Cell
        The streams with a systematic error that is wider than a row bears, and where it stands.
    bad : set of str
        The names and tags whose own rows are at fault.
    """

    def __init__(self, tables: Tables) -> None:
        self.tables = tables
        self.reader = tables.reader
        self.session = tables.session
        self.streams: dict[str, StreamRow] = {}
        self.tags: dict[str, StreamRow] = {}
        self.tanks: dict[str, TankRow] = {}
        self.bases: dict[str, Cell] = {}
        self.bad: set[str] = set()
        self.kinds: dict[str, str] = {}  # of the book
        self.evidence = KindEvidence()
        self.settings = Settings()
        self.setting_rows: list[SheetRow] = []
        self._tank_rows: list[tuple[tuple[str, ...], dict[str, Cell]]] = []
        tables.names_across = self.names_across

    def names_across(self, kind: str) -> set[str]:
        """Return the names that may be heads in a sheet of a kind, those at fault too."""
        found = {*self.tanks, *self.bad}
        return found | {*self.streams, *self.tags} if kind == "densities" else found

    def begin(self, known: Iterable[tuple[str, ...]] = ()) -> None:
        """Begin the session: it is of version 2 if the workbook needs it, or what is known already.

        Parameters
        ----------
        known : iterable of tuple of str
            The rows of a plant that is known. Its boundaries are taken if the workbook has none.
        """
        rows = list(known)
        self.kinds = {row[1]: row[4] for row in rows if row[0] == "stream"}
        if ("version", "2") in rows or self._needs_version_2():
            self.session.row("version", "2")
        if not self.tables.sheets["boundaries"]:
            for row in rows:
                if row[0] == "boundary":
                    self.session.row(*row)

    def _needs_version_2(self) -> bool:
        """Say whether there are boundaries, columns of dates of service, or very many streams."""
        sheets = [*self.tables.sheets["streams"], *self.tables.sheets["tanks"]]
        heads = {
            value.strip().casefold()
            for sheet in sheets
            for _, values in sheet.lines[:40]
            for value in values
            if isinstance(value, str)
        }
        many = sum(len(sheet.lines) for sheet in sheets) > most_streams(1)
        said = any(
            cells[0].text == "version" for s in self.tables.sheets["rows"] for cells in s.rows()
        )
        return (
            bool(self.tables.sheets["boundaries"])
            or bool({"since", "until"} & heads)
            or many
            or said
        )

    def read(self) -> None:
        """Read boundaries, units, tanks, tables, streams and critical values."""
        if not len(self.session):
            self.begin()
        for row in self.tables.rows("boundaries"):
            if not self.tables.put(["boundary", row.text("name")], {"name": row["name"]}):
                self.bad.add(row.text("name"))
        self._read_tanks()
        self.evidence = evidence_of(self.tables.sheets["tickets"], self.tables.sheets["readings"])
        ends = [(row, self._stream_of(row)) for row in self.tables.rows("streams")]
        self.tables.notes += self.evidence.notes()
        self._declare_units([row for row, _ in ends])
        for fields, cells in self._tank_rows:
            if not self.tables.put(["tank", *fields], cells):
                self.bad.add(fields[0])
        self._read_straps()
        for row, stream in ends:
            if stream is not None:
                self._declare_stream(row, stream)
            else:
                self.bad |= {row.text("stream"), row.text("tag")}
        self._check_ends([row for row, _ in ends])
        self.read_critical()

    def take_tanks(self, rows: Iterable[tuple[str, ...]], tanks: Iterable[TankRow]) -> None:
        """Take tanks and tables that are known already, as rows of a session."""
        self.tanks |= {tank.name: tank for tank in tanks}
        for row in rows:
            self.session.row(*row)

    def take_straps(self, rows: Iterable[tuple[str, ...]]) -> None:
        """Take the tables of its tanks that are known already, as rows of a session."""
        for _, tank, mm, ml in rows:
            if tank in self.tanks and self.session.row("strap", tank, mm, ml):
                self.tanks[tank].points.append((int(mm), int(ml)))

    def take_plant(
        self,
        rows: Iterable[tuple[str, ...]],
        streams: Iterable[StreamRow],
        tanks: Iterable[TankRow],
    ) -> None:
        """Take a plant that is known already, as rows of a session, in place of its sheets.

        Parameters
        ----------
        rows : iterable of tuple of str
            The rows.
        streams, tanks : iterable of StreamRow and of TankRow
            Their streams and tanks.
        """
        self.take_tanks(rows, tanks)
        for stream in streams:
            self.streams[stream.name] = stream
            if stream.tag:
                self.tags[stream.tag] = stream

    def _base(self, cell: Cell, density: Fraction | None) -> Error | None:
        """Return a base, a systematic error; None without one.

        Raises
        ------
        InputFault
            If it is a percentage, of which nobody knows of what.
        """
        if self.reader.is_missing(cell):
            return None
        found = self.reader.error(cell, density, head="base")
        if found.share:
            remedy = "write it in tonnes a period: 0.5 % of 930,000 t are 4650 t"
            raise self.reader.fault(cell, SheetCause.BASE_IN_PERCENT(), remedy, "base")
        return found

    def _base_variance(self, cell: Cell, base: Error | None, kind: str) -> int:
        """Return the variance of a base as a row bears it.

        Only a metered stream may have a wider one: its readings bear the rest.
        """
        variance = max(1, base.variance(0)) if base else 1
        if variance > MOST_VARIANCE and kind != "metered":
            has = SheetCause.BASE_TOO_WIDE(kind=kind, most=error_said(MOST_VARIANCE))
            remedy = "write the rest into the column error of its dips"
            if kind == "batch stream":
                remedy = "write the rest into the column error of its tickets"
            raise self.reader.fault(cell, has, remedy, "base")
        return min(variance, MOST_VARIANCE)

    def _service(self, row: SheetRow) -> tuple[str, ...]:
        """Return the dates of service of a row as fields; none if it has no date."""
        since, until = (
            None if self.reader.is_missing(row[head]) else self.reader.day(row[head], head)
            for head in ("since", "until")
        )
        return dates_of_service(since, until)

    def _read_tanks(self) -> None:
        for row in self.tables.rows("tanks"):
            name = row.text("tank")
            self.bad.add(name)
            with self.tables.kept():
                density = self.reader.density(row["density"])
                base = self._base_variance(row["base"], self._base(row["base"], density), "tank")
                error = None
                if not self.reader.is_missing(row["error"]):
                    error = self.reader.error(row["error"], density, level=True)
                if error is not None and error.share:
                    what = SheetCause.TANK_ERROR_IN_PERCENT()
                    raise self.reader.fault(row["error"], what, "write `3 mm` or `8 t`", "error")
                service = self._service(row)
                self.tanks.setdefault(name, TankRow(name, error, density))
                cells = {"name": row["tank"], "base": row["base"], "since": row["since"]}
                self._tank_rows.append(((name, str(base), *service), cells))
                self.bad.discard(name)

    def _read_straps(self) -> None:
        for row in self.tables.rows("straps"):
            with self.tables.kept():
                mm = self.reader.level(row["level"])
                unit = self.reader.unit(row["unit"], VOLUMES, "m3")
                number, own = self.reader.split(row["volume"], VOLUMES, "volume")
                exact = Fraction(number) * VOLUMES[own or unit] * 10**6
                ml = self.reader.whole(row["volume"], exact)
                name = row.text("tank")
                if name in self.bad:
                    continue
                cells = {"tank": row["tank"], "mm": row["level"], "ml": row["volume"]}
                if self.tables.put(["strap", name, str(mm), str(ml)], cells):
                    self.tanks[name].points.append((mm, ml))

    def _kind_of(self, row: SheetRow, tag: str) -> str:
        """Return the kind of a stream of which no kind is written: by the book, or what it has."""
        name = row.text("stream")
        if name in self.kinds:
            return self.kinds[name]
        found = self.evidence.kind(name, tag)
        if found is None:
            what = SheetCause.METERED_OR_BATCH(name=name)
            self.tables.fault(
                row["stream"], what, "write batch or metered into a column kind", "stream"
            )
        return found or "plain"

    def _stream_of(self, row: SheetRow) -> StreamRow | None:
        """Return a stream, or None if something of it is wrong."""
        count = len(self.tables.faults)
        tag = "" if self.reader.is_missing(row["tag"]) else row.text("tag")
        kind = row.text("kind").casefold() or self._kind_of(row, tag)
        if kind not in ("metered", "batch", "plain"):
            remedy = "write metered, batch or plain"
            what = SheetCause.NO_KIND_OF_STREAM(text=row.text("kind"))
            self.tables.fault(row["kind"], what, remedy, "kind")
        unit, density, error = "", None, None
        with self.tables.kept():
            unit = self.reader.unit(row["unit"], AMOUNTS, "")
        with self.tables.kept():
            density = self.reader.density(row["density"])
        with self.tables.kept():
            if not self.reader.is_missing(row["error"]):
                error = self.reader.error(row["error"], density)
        if kind == "metered" and tag and error is None and len(self.tables.faults) == count:
            what = SheetCause.METER_WITHOUT_ERROR(name=tag)
            self.tables.fault(
                row["error"], what, "write `1.5 %`, `0.2 t`, or both with `or`", "error"
            )
        if len(self.tables.faults) > count:
            return None
        name = row.text("stream")
        return StreamRow(name, tag, kind, unit, density, error, row["stream"])

    def _declare_units(self, rows: list[SheetRow]) -> None:
        listed = [row["name"] for row in self.tables.rows("units")]
        seen = {*self.tanks, *self.bad, *self.session.boundaries, ENV}
        if not self.tables.sheets["units"]:
            ends = [row[head] for row in rows for head in ("from", "to")]
            listed = list({cell.text: cell for cell in reversed(ends) if cell.text}.values())
            order = {cell.text: at for at, cell in reversed(list(enumerate(ends)))}
            listed = [cell for cell in listed if cell.text not in seen]
            listed.sort(key=lambda cell: order[cell.text])
        for cell in listed:
            if not self.tables.put(["unit", cell.text], {"name": cell}):
                self.bad.add(cell.text)

    def _declare_stream(self, row: SheetRow, stream: StreamRow) -> None:
        """Give a stream to the session."""
        ends = row["from"], row["to"]
        tag = self.tags.get(stream.tag) if stream.tag else None
        if tag is not None:
            other = str(tag.cell.place()).rstrip(":")
            what = SheetCause.TAG_TWICE(tag=stream.tag, name=tag.name, other=other)
            self.tables.fault(row["tag"], what)
        if tag is not None or any(cell.text in self.bad for cell in ends):
            self.bad |= {stream.name, stream.tag} - {""} if tag is None else {stream.name}
            return
        base = 0
        with self.tables.kept():
            wide = self._base(row["base"], stream.density)
            kind = (
                "metered"
                if stream.kind == "metered"
                else Sentence("{kind} stream", kind=stream.kind)
            )
            base = self._base_variance(row["base"], wide, kind) if stream.kind != "plain" else 0
            if wide and wide.variance(0) > MOST_VARIANCE:
                stream.base = wide
                self.bases[stream.name] = row["base"]
            if stream.kind == "plain":
                if not self.reader.is_missing(row["base"]):
                    what = SheetCause.PLAIN_BASE()
                    raise self.reader.fault(row["base"], what, "empty the cell", "base")
            cells = {"name": row["stream"], "from": ends[0], "to": ends[1], "base": row["base"]}
            cells["since"] = row["since"]
            fields = [stream.name, ends[0].text, ends[1].text, stream.kind, str(base)]
            if self.tables.put(["stream", *fields, *self._service(row)], cells):
                self.streams[stream.name] = stream
                if stream.tag:
                    self.tags[stream.tag] = stream
                return
        self.bad |= {stream.name, stream.tag} - {""}

    def _check_ends(self, rows: list[SheetRow]) -> None:
        """Say which units have nothing coming in, or nothing going out: their flows would be 0."""
        ins: dict[str, Cell] = {row.text("to"): row["to"] for row in rows}
        outs: dict[str, Cell] = {row.text("from"): row["from"] for row in rows}
        units = [name for name, kind in self.session.nodes.items() if kind == "unit"]
        for name in units:
            if (name in ins) == (name in outs) and name in ins:
                continue
            cell = ins.get(name) or outs.get(name)
            lacks = "going out" if name in ins else "coming in"
            others = [*(other for other in self.session.nodes if other != name), ENV]
            others += self.session.boundaries
            near = difflib.get_close_matches(name, others, n=1, cutoff=0.75)
            remedy = "write `env`, the world outside, or name it in a sheet boundaries"
            if near:
                remedy = Sentence("did you mean {near}?", near=near[0])
            if cell is None:
                self.tables.notes.append(Sentence("the unit {name} is in no stream", name=name))
            else:
                self.tables.fault(cell, SheetCause.DEAD_END(name=name, lacks=lacks), remedy)

    def read_settings(self) -> None:
        """Read what holds for all figures."""
        self.setting_rows = list(self.tables.rows("settings"))
        rows = [(row["setting"], row["value"], row["for"]) for row in self.setting_rows]
        self.settings, faults = read_settings(rows, self.reader)
        self.tables.faults += faults

    def _make_critical(self) -> None:
        """Make the critical values of the level that the settings have, but for those there are."""
        level, cell = self.settings.level, self.settings.level_at
        if level is None or cell is None or not self.session.nodes:
            return
        there = {row[:-1] for row in self.session if row[0] == "critical"}
        streams = [row for row in self.session if row[0] == "stream"]
        made = [
            row
            for row in values_of(level, list(self.session.nodes.values()), streams)
            if row[:-1] not in there and self.tables.put(row, {"value": cell})
        ]
        if made:
            note = Sentence(
                "{place} {count:,} critical values are made for the level {level:g}; for tests of "
                "many nodes and streams by Šidák's correction",
                place=cell.place(),
                count=len(made),
                level=level,
            )
            self.tables.notes.append(note)

    def read_critical(self) -> None:
        """Read critical values; one that the session has already is none more."""
        self.read_settings()
        self._read_critical()
        self._make_critical()

    def _read_critical(self) -> None:
        there = set(self.session)
        for row in self.tables.rows("critical"):
            with self.tables.kept():
                test = row.text("test").casefold()
                if test not in ("global", "nodal", "measure"):
                    what = SheetCause.NO_TEST(text=row.text("test"))
                    remedy = "write global, nodal or measure"
                    raise self.reader.fault(row["test"], what, remedy, "test")
                number = Fraction(self.reader.number(row["value"], "value"))
                freedom = []
                if test == "global":
                    freedom = [f"{self.reader.number(row['dof'], 'dof'):f}"]
                if number > 100 + 10 * Fraction(freedom[0] if freedom else 1):
                    what = SheetCause.NOT_A_CRITICAL_VALUE(text=row.text("value"))
                    remedy = Sentence(
                        "is it in thousandths? Then write {number:g}", number=float(number / 1000)
                    )
                    raise self.reader.fault(row["value"], what, remedy, "value")
                value = str(self.reader.whole(row["value"], number * 1000))
                cells = {"value": row["value"], "dof": row["dof"]}
                fields = "critical", test, *freedom, value
                if fields not in there:
                    self.tables.put(fields, cells)

    def named(self, cell: Cell, head: str) -> StreamRow | None:
        """Return the stream of a tag or a name, or None if its own row is at fault."""
        found = self.tags.get(cell.text) or self.streams.get(cell.text)
        if found is None and cell.text not in self.bad:
            names = [*self.tags, *self.streams]
            near = [name for name in names if name.casefold() == cell.text.casefold()]
            near += difflib.get_close_matches(cell.text, names, n=1)
            remedy = (
                Sentence("did you mean {near}?", near=near[0])
                if near
                else "write it into the sheet streams"
            )
            what = SheetCause.TAG_UNKNOWN(text=cell.text) if cell.text else SheetCause.NO_TAG()
            self.tables.fault(cell, what, remedy, head)
        return found
