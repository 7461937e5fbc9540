"""Reads rows of a session as they are in a workbook, and asks for the reports."""

from __future__ import annotations

from decimal import Decimal

from plantbal.schema import Column, schema
from plantbal.workbook.fates import Fate
from plantbal.workbook.sheets import Cell
from plantbal.workbook.tables import Tables


class RowsSheet:
    """Reads the sheets `rows` and `windows`.

    Parameters
    ----------
    tables : Tables
        The tables of the workbook.
    """

    def __init__(self, tables: Tables) -> None:
        self.tables = tables
        self.reader = tables.reader
        self.session = tables.session

    def read(self) -> None:
        """Read rows of a session as they are, with numbers and days as a spreadsheet left them."""
        critical = [list(row) for row in self.session if row[0] == "critical"]
        for sheet in self.tables.sheets["rows"]:
            for cells in sheet.rows():
                self.tables.fates.put(Fate.READ, cells)
                if [cell.text for cell in cells] == ["version", "2"] and len(self.session):
                    continue  # it has begun so
                if [cell.text for cell in cells] in critical:
                    continue  # it is of the book already
                with self.tables.kept():
                    columns = self._columns_of(cells)
                    texts = [cells[0].text]
                    for at, cell in enumerate(cells[1:], 1):
                        column = columns[at - 1] if at <= len(columns) else None
                        texts.append(self._field(cell, column))
                    names = [column.name for column in columns]
                    self.tables.put(texts, {"kind": cells[0]} | dict(zip(names, cells[1:])))

    def _columns_of(self, cells: list[Cell]) -> tuple[Column, ...]:
        """Return the columns of a row of a session, as far as its kind and words say them."""
        texts = [cell.text for cell in cells]
        for row in schema().session:
            if row.kind == texts[0] and row.takes(len(texts) - 1):
                columns = row.columns_for(len(texts) - 1)
                if all(c.type != "word" or t in c.words for c, t in zip(columns, texts[1:])):
                    return columns
        return ()

    def ask(self) -> None:
        """Ask for what the rows don't ask for: each report, each balance, and the windows."""
        asked = set(self.session)
        for name in [period.name for period in self.session.periods]:
            components = self.session.components_in(name)
            balances = [("component", component, name) for component in components]
            for fields in [("report", name), *balances]:
                if fields not in asked:
                    self.session.row(*fields)
        for row in self.tables.rows("windows"):
            cells = {head: row[head] for head in ("first", "last")}
            self.tables.put(["window", row.text("first"), row.text("last")], cells)

    def _field(self, cell: Cell, column: Column | None) -> str:
        """Return a field of a session's row."""
        if column is not None and cell.value is not None:
            if column.type == "number":
                number = self.reader.number(cell, column.label)
                return f"{number:f}" if number != int(number) else str(int(number))
            if column.type == "date":
                return str(self.reader.day(cell, column.label))
        return f"{cell.value:f}" if isinstance(cell.value, Decimal) else cell.text
