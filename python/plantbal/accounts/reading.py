"""Reads the sheet `accounts`, says at its cells what is wrong, and writes the file of a book."""

from __future__ import annotations

import csv
import io
import re
from collections.abc import Collection, Iterable, Mapping, Sequence
from fractions import Fraction

from plantbal.accounts.sheet import (
    NOBODY,
    NO_ACCOUNT,
    OUTGOING,
    Account,
    AccountKind,
    Accounts,
    Ownership,
    SalesUnit,
    SplitRule,
)
from plantbal.book.meters import exact_decimal
from plantbal.causes import Case, CausedFault
from plantbal.workbook.causes import SheetCause
from plantbal.workbook.cells import Reader
from plantbal.workbook.plant import PlantReader
from plantbal.faults import InputFault, Place
from plantbal.inert import is_computed
from plantbal.model.plant import ENV, DeclaredPlant, Stream
from plantbal.sentence import Sentence, counted
from plantbal.workbook.sheets import Cell, Sheet, Value
from plantbal.workbook.tables import Tables
from plantbal.workbook.units import DENSITIES, GRAMS, VOLUMES

HEADS = ("name", "kind", "product", "group", "owner", "unit", "density")
SHEET = "accounts"
_KINDS = {kind.value: kind for kind in AccountKind}
_RULES = {rule.value: rule for rule in (SplitRule.BY_RECEIPTS, SplitRule.BY_STOCK)}
_PART = re.compile(r"\s*(.+?)\s+(?:([0-9][0-9.,]*)\s*%|([0-9]+)/([0-9]+))\s*(?:[;,+]\s*|$)")
_LONGEST = 60  # letters of a product, a group or an owner
_MOST_OWNERS = 50


def _with_and(words: Sequence[str]) -> Sentence:
    """Return words with `and` between them."""
    said = Sentence("{names} and {last}", names=words[0], last=words[1])
    for word in words[2:]:
        said = Sentence("{names} and {last}", names=said, last=word)
    return said


class SheetReader:
    """Reads the rows of the sheet, one by one.

    Parameters
    ----------
    reader : Reader
        How its cells are written.
    plant : DeclaredPlant or None
        The streams and tanks; None if names and ends were tested when the row was written.
    """

    def __init__(self, reader: Reader, plant: DeclaredPlant | None = None) -> None:
        self.reader = reader
        self.plant = plant
        self.rows: dict[str, Account] = {}
        self._cells: dict[str, Cell] = {}
        self._spelt: dict[tuple[str, str], tuple[str, Cell]] = {}
        self._groups: dict[str, tuple[str, Cell]] = {}

    def take(self, row: Mapping[str, Cell]) -> None:
        """Take a row.

        Raises
        ------
        InputFault
            If something of it is wrong; its place is the cell.
        """
        name = row["name"].text
        kind = "tank" if self.plant is None else self.plant.kind_of(name)
        if kind not in ("tank", "metered", "batch", "plain"):
            what = (
                SheetCause.NO_STREAM_OR_TANK(name=name) if name else SheetCause.NO_NAME_OF_ACCOUNT()
            )
            raise self._fault(row["name"], what, "write a name of the sheet streams or tanks")
        if name in self._cells:
            other = str(self._cells[name].place()).rstrip(":")
            what = SheetCause.ACCOUNT_TWICE(name=name, other=other)
            raise self._fault(row["name"], what, "keep one of the two: each is in one account")
        self._cells[name] = row["name"]
        product = self._word(row["product"], "product")
        group = self._word(row["group"], "group") or product
        if product:
            self._check_group(product, group, row["group"])
        self.rows[name] = Account(
            name,
            self._kind(row["kind"], name),
            product or group or NO_ACCOUNT,
            group or NO_ACCOUNT,
            self._owner(row["owner"], name),
            self._unit(row["unit"], row["density"]),
        )

    def _fault(self, cell: Cell, what: Case, remedy: str, head: str = "") -> CausedFault:
        return self.reader.fault(cell, what, remedy, head)

    # ---- what a stream is

    def _kind(self, cell: Cell, name: str) -> AccountKind | None:
        """Return the kind of a stream; None of a tank."""
        stream = self.plant.stream(name) if self.plant is not None else None
        word = " ".join(cell.text.casefold().split())
        if stream is None:
            if self.plant is None:
                return _KINDS.get(word)
            if not self.reader.is_missing(cell):
                what = SheetCause.KIND_OF_TANK(name=name, text=cell.text)
                raise self._fault(cell, what, "empty the cell: a tank has no kind", "kind")
            return None
        if self.reader.is_missing(cell):
            return None
        kind = _KINDS.get(word)
        if kind is None:
            named = [each for each in _KINDS if re.search(rf"\b{each}s?\b", word)]
            what = SheetCause.NO_KIND_OF_ACCOUNT(text=cell.text)
            if len(named) > 1:
                what = SheetCause.TWO_KINDS_OF_ACCOUNT(name=name, kinds=_with_and(named))
            remedy: str = Sentence("write one of {words}", words=", ".join(_KINDS))
            if len(named) > 1:
                remedy = "write one of them: what does both is two streams"
            raise self._fault(cell, what, remedy, "kind")
        self._check_ends(cell, kind, stream)
        return kind

    def _check_ends(self, cell: Cell, kind: AccountKind, stream: Stream) -> None:
        """Refuse a kind that the ends of a stream can't have."""
        assert self.plant is not None
        name, start, end = stream.arc.name, stream.arc.from_, stream.arc.to
        comes, goes = start == ENV, end == ENV
        why: Sentence | None = None
        if kind is AccountKind.RECEIPT and not comes:
            why = Sentence("it comes from {start}, within the plant", start=start)
        elif kind in OUTGOING and not goes:
            why = Sentence("it goes to {end}, within the plant", end=end)
        elif kind in (AccountKind.PRODUCTION, AccountKind.INTERNAL) and (comes or goes):
            why = Sentence("it comes from outside" if comes else "it leaves the plant")
        elif kind is AccountKind.PRODUCTION and self.plant.kind_of(end) != "tank":
            why = Sentence("it goes to {end}, which isn't a tank", end=end)
        elif kind is AccountKind.PRODUCTION and self.plant.kind_of(start) != "unit":
            why = Sentence("it comes from {start}, which isn't a unit", start=start)
        if why is not None:
            remedy = (
                "receipts come from env, shipments, own use, flare and loss go there; "
                "production goes from a unit to a tank; write internal for all others"
            )
            what = SheetCause.NOT_OF_KIND(name=name, kind=kind.value, why=why)
            raise self._fault(cell, what, remedy, "kind")

    # ---- words

    def _word(self, cell: Cell, head: str) -> str:
        """Return a product, a group or an owner; one that is spelt in two ways is a fault."""
        return "" if self.reader.is_missing(cell) else self._spelling(cell, cell.text, head)

    def _spelling(self, cell: Cell, text: str, head: str) -> str:
        word = " ".join(text.split())
        if len(word) > _LONGEST or not word.isprintable():
            what = SheetCause.NOT_SPELT(head=head, count=len(word))
            remedy = Sentence("write at most {count} letters", count=_LONGEST)
            raise self._fault(cell, what, remedy, head)
        if is_computed(word):
            what = SheetCause.COMPUTED(word=word)
            raise self._fault(cell, what, "let it begin with a letter or a digit", head)
        if word.casefold() in (NO_ACCOUNT, NOBODY):
            what = SheetCause.NAME_TAKEN(head=head, word=word)
            raise self._fault(cell, what, "empty the cell", head)
        was, where = self._spelt.setdefault((head, word.casefold()), (word, cell))
        if was != word:
            at = str(where.place()).rstrip(":")
            what = SheetCause.SPELT_IN_TWO_WAYS(word=word, was=was, where=at)
            raise self._fault(cell, what, "spell it in one way", head)
        return word

    def _check_group(self, product: str, group: str, cell: Cell) -> None:
        was, where = self._groups.setdefault(product, (group, cell))
        if was != group:
            at = str(where.place()).rstrip(":")
            what = SheetCause.GROUP_DIFFERS(product=product, was=was, where=at)
            raise self._fault(cell, what, "a product is in one group", "group")

    # ---- owners

    def _owner(self, cell: Cell, name: str) -> Ownership:
        """Return whose a stream or tank is."""
        if self.reader.is_missing(cell):
            return Ownership()
        rule = _RULES.get(" ".join(cell.text.casefold().split()))
        if rule is not None:
            stream = self.plant.stream(name) if self.plant is not None else None
            if rule is SplitRule.BY_RECEIPTS and stream is not None and stream.arc.from_ == ENV:
                what = SheetCause.SHARED_BY_ITSELF(name=name)
                raise self._fault(cell, what, "write its owners", "owner")
            return Ownership(rule)
        if "%" not in cell.text and not re.search(r"\s[0-9]+/[0-9]+", cell.text):
            return Ownership(
                SplitRule.FIXED, {self._spelling(cell, cell.text, "owner"): Fraction(1)}
            )
        return Ownership(SplitRule.FIXED, self._parts(cell))

    def _parts(self, cell: Cell) -> dict[str, Fraction]:
        """Return the fixed parts of owners, by name."""
        parts: dict[str, Fraction] = {}
        at, text = 0, cell.text
        while at < len(text):
            found = _PART.match(text, at)
            if found is None or len(parts) >= _MOST_OWNERS:
                what = SheetCause.NOT_SHARES(text=cell.text)
                remedy = (
                    "write `Alpha 60 %; Beta 40 %`, `Alpha 1/3; Beta 2/3`, one owner, "
                    "`by receipts` or `by stock`"
                )
                raise self._fault(cell, what, remedy, "owner")
            part = self._part(cell, found)
            name = self._spelling(cell, found[1], "owner")
            if name in parts:
                what = SheetCause.SHARE_TWICE(name=name)
                raise self._fault(cell, what, "add both shares up", "owner")
            parts[name] = part
            at = found.end()
        total = sum(parts.values(), Fraction(0))
        if total != 1:
            what = SheetCause.SHARES_NOT_WHOLE(percent=float(100 * total))
            raise self._fault(cell, what, "they have to add up to 100 %", "owner")
        return dict(sorted(parts.items()))

    def _part(self, cell: Cell, found: re.Match[str]) -> Fraction:
        if found[2] is not None:
            part = Fraction(self.reader.number_of(cell, found[2], "owner")) / 100
        else:
            part = Fraction(int(found[3]), int(found[4]) or 1) if int(found[4]) else Fraction(0)
        if part <= 0:
            raise self._fault(cell, SheetCause.SHARE_OF_0(text=cell.text), "take it out", "owner")
        return part

    # ---- units

    def _unit(self, cell: Cell, beside: Cell) -> SalesUnit:
        """Return the sales unit of a row."""
        unit = self.reader.unit(cell, GRAMS | VOLUMES, "t")
        density = self.reader.density(beside)
        if unit in GRAMS:
            is_dry = cell.text.casefold() == "dmt"
            return SalesUnit("dmt" if is_dry else unit)
        if density is None:
            what = SheetCause.UNIT_WITHOUT_DENSITY(unit=unit)
            raise self._fault(cell, what, "write one beside it, such as 862 (kg/m3)", "unit")
        return SalesUnit(unit, density)


def read_accounts(tables: Tables, plant: PlantReader, known: Iterable[str] = ()) -> Accounts:
    """Return the accounts of a workbook; what is wrong with a row is kept as a fault.

    Parameters
    ----------
    tables : Tables
        The tables of the workbook.
    plant : PlantReader
        Its plant, which has been read.
    known : iterable of str
        Streams and tanks that have an account elsewhere.
    """
    sheet = SheetReader(tables.reader, tables.session.state.plant)
    for row in tables.rows(SHEET):
        if row.text("name") not in plant.bad:
            with tables.kept():
                sheet.take(row.cells)
    if tables.sheets[SHEET]:
        tables.notes += _lacking(tables, plant, {*sheet.rows, *known})
    return Accounts(sheet.rows.values())


def _lacking(tables: Tables, plant: PlantReader, known: Collection[str]) -> list[str]:
    """Return what is to be said of streams and tanks that are in no account."""
    names = [name for name in tables.session.state.plant.streams if name not in known]
    if not names:
        return []
    shown: str = ", ".join(names[:12])
    if len(names) > 12:
        shown = Sentence("{names} and {count:,} more", names=shown, count=len(names) - 12)
    stream = plant.streams.get(names[0])
    place = stream.cell.place() if stream is not None else tables.sheets[SHEET][0].place()
    one = "{place} {names} is in no account: write it into the sheet {sheet}"
    many = "{place} {names} are in no account: write them into the sheet {sheet}"
    return [counted(len(names), one, many, place=place, names=shown, sheet=SHEET)]


# ---- the file of a book


def accounts_text(accounts: Accounts) -> str:
    """Return the file of accounts, with numbers as in English."""
    out = io.StringIO()
    writer = csv.writer(out, lineterminator="\n")
    writer.writerow(HEADS)
    for row in accounts.values():
        product = "" if row.product == NO_ACCOUNT else row.product
        group = "" if row.group == NO_ACCOUNT else row.group
        density = ""
        if row.unit.density is not None:
            density = exact_decimal(row.unit.density / DENSITIES["kg/m3"]) + " kg/m3"
        kind = row.kind.value if row.kind is not None else ""
        writer.writerow((row.name, kind, product, group, row.owner, row.unit.label, density))
    return out.getvalue()


def parse_accounts(name: str, text: str) -> Accounts:
    """Return the accounts of a file that `accounts_text` has written.

    Parameters
    ----------
    name : str
        The file, for what is said of it.
    text : str
        Its text.

    Raises
    ------
    InputFault
        If a cell can't be read, or two rows contradict each other.
    """
    try:
        rows = list(csv.reader(io.StringIO(text, newline=""), strict=True))
    except csv.Error as error:
        remedy = "take the file as plantbal wrote it, or from a backup"
        raise InputFault(
            Sentence("this isn't CSV: {error}", error=str(error)),
            place=Place(file=name),
            remedy=remedy,
        ) from error
    values: list[list[Value]] = [[each or None for each in row] for row in rows]
    table = Sheet(name, SHEET, list(enumerate(values, 1)), is_csv=True)
    sheet = SheetReader(Reader("en"))
    lines = [cells for cells in table.rows() if cells]
    heads = tuple(cell.text for cell in lines[0]) if lines else ()
    if lines and heads != HEADS:
        remedy = Sentence("its heads are {heads}", heads=", ".join(HEADS))
        raise InputFault("this isn't a file of accounts", place=table.place(1), remedy=remedy)
    for cells in lines[1:]:
        row = {head: Cell(table, cells[0].line, 0, None) for head in HEADS}
        sheet.take(row | dict(zip(HEADS, cells)))
    return Accounts(sheet.rows.values())
