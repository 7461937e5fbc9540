"""What the program wrote, as tables: period and round in every row, whole numbers kept exact."""

from __future__ import annotations

from collections.abc import Sequence
from functools import cached_property
from operator import eq
from pathlib import Path
from typing import TYPE_CHECKING, Any

from plantbal.amounts import tonnes_of
from plantbal.faults import Fault, read_text
from plantbal.files import write_text
from plantbal.report.blocks import Block, Values, blocks_of, last_blocks
from plantbal.report.frames import (
    frame_in_blocks,
    frame_of,
    frame_of_blocks,
    frame_of_components,
    frame_of_edits,
    frame_of_tests,
    frame_of_windows,
    frame_under,
    is_missing,
    need_pandas,
    verdict_frame,
)
from plantbal.report.judged import judge_rows
from plantbal.report.kept import kept_table
from plantbal.report.parsing import csv_of, parse_rows, read_rows
from plantbal.report.reasons import impossible_of, why_not_ok
from plantbal.report.shown import html_of, json_of, output_dict, summary_of
from plantbal.report.written import write_sqlite, write_xlsx
from plantbal.schema import schema

if TYPE_CHECKING:
    import pandas

_GRAMS = ("value", "flow", "lo", "hi", "least_lo", "least_hi")


class NotOk(Fault):
    """An output that a person has to look at before it is booked.

    Attributes
    ----------
    output : Output
        The output.
    """

    def __init__(self, output: Output) -> None:
        super().__init__(
            "; ".join(output.why), remedy="look at it, and use anyway=True if that is meant"
        )
        self.output = output


class Output:
    """What the program wrote.

    Parameters
    ----------
    rows : list of dict
        Its rows in order, as `plantbal.report.parsing.parse_rows` gives them.
    source : str
        What it is called in what is said.
    status : int or None
        The status that the program ended with, if it was run.
    left_out : int
        How many rows were left out of the session before it was run.

    Attributes
    ----------
    blocks_in_order : list of Block
        The rounds of its reports, and those of windows and of the balances of components.

    Notes
    -----
    Each table is made when it is first asked for, and who asks gets a copy: a table that is changed
    in place changes no other one, no amount not a file. `block` is the number of the round in the
    output, counted from 0; two reports of one period differ by it. `period` says what the round is
    of: a period, ``cu in may`` for the balance of a component, ``may to june`` for a window.

    Two outputs are equal if their rows are.
    """

    def __init__(
        self,
        rows: Sequence[Values],
        *,
        source: str = "output",
        status: int | None = None,
        left_out: int = 0,
    ) -> None:
        self.rows = rows
        self.source = source
        self.status = status
        self.left_out = left_out
        self.blocks_in_order: list[Block] = blocks_of(rows)

    def __repr__(self) -> str:
        state = "ok" if self.ok else "; ".join(self.why)
        return f"<Output of {self.source}: {len(self.blocks_in_order)} blocks, {state}>"

    def __eq__(self, other: object) -> bool:
        if not isinstance(other, Output):
            return NotImplemented
        return len(self.rows) == len(other.rows) and all(map(eq, self.rows, other.rows))

    __hash__ = None  # type: ignore[assignment]  # equal outputs may have other sources

    def _repr_html_(self) -> str:
        return html_of(self)

    def _of_kind(self, kind: str) -> list[Values]:
        return [row for row in self.rows if row["row"] == kind]

    # ---- whether it may be booked

    @property
    def why(self) -> list[str]:
        """Why it isn't ok, a sentence each; nothing if it is. The list is the caller's own."""
        return list(self._why)

    @cached_property
    def _why(self) -> tuple[str, ...]:
        """The same, kept."""
        return tuple(why_not_ok(self.rows, self.blocks_in_order, self.status, self.left_out))

    @property
    def ok(self) -> bool:
        """Whether it may be booked without a look.

        It is false if a row was refused, no report came, a total is beyond the limits, a report is
        cut off or isn't converged, or a global test rejects.
        """
        return not self._why

    @property
    def impossible(self) -> list[str]:
        """Which flows can't be, a sentence each.

        A stream carries more of a component than its whole mass, or is booked below 0 by more than
        two standard deviations. The output may be ok all the same: the balances close.
        """
        return list(self._impossible)

    @cached_property
    def _impossible(self) -> tuple[str, ...]:
        """The same, kept."""
        return tuple(impossible_of(self.blocks_in_order))

    def require(self) -> Output:
        """Return the output itself if it is ok.

        Raises
        ------
        NotOk
            If it isn't; the exception has the output.
        """
        if not self.ok:
            raise NotOk(self)
        return self

    # ---- tables

    @property
    def reports(self) -> list[Block]:
        """The rounds of reports of periods: no windows, and no balances of components."""
        return [block for block in self.blocks_in_order if block.is_report]

    @kept_table
    def streams(self) -> pandas.DataFrame:
        """The streams of each block: measured values, flows and bounds in grams, certificates."""
        blocks = self.blocks_in_order
        return frame_in_blocks("stream", blocks, [block.streams for block in blocks])

    @kept_table
    def nodes(self) -> pandas.DataFrame:
        """The nodes of each block with their prices."""
        blocks = self.blocks_in_order
        return frame_in_blocks("node", blocks, [block.nodes for block in blocks])

    @kept_table
    def solved(self) -> pandas.DataFrame:
        """How the flows of each block were found, and how well they fit."""
        blocks = self.blocks_in_order
        solved = [[block.solved] if block.solved else [] for block in blocks]
        return frame_in_blocks("solved", blocks, solved)

    @kept_table
    def blocks(self) -> pandas.DataFrame:
        """A row a block: its head, its `solved` row, its global test, and what was taken before it.

        The column `component` has the component whose balance it is, `window` the last period of a
        window, and both are empty of a period's report. `last` says whether it is the last block
        of the last report of its period, component or window.
        """
        return frame_of_blocks(self.blocks_in_order)

    @kept_table
    def tests(self) -> pandas.DataFrame:
        """All tests of each block.

        `test` is ``global``, ``nodal`` or ``measure``, `name` the node or the stream. `low` and
        `high` are the ends of the statistic in thousandths; a nodal test has `net` and `variance`
        instead.
        """
        return frame_of_tests(self.blocks_in_order)

    @kept_table
    def refused(self) -> pandas.DataFrame:
        """The refused rows of the session, with what each code means and what to do."""
        rows = self._of_kind("refused")
        frame = frame_of("refused", rows, {})
        codes = [schema().refusals.get(int(row["code"])) for row in rows]
        frame["about"] = [code.about if code else "" for code in codes]
        frame["remedy"] = [code.remedy if code else "" for code in codes]
        return frame

    @kept_table
    def history(self) -> pandas.DataFrame:
        """The edits that touch periods, with the period and its state in each row."""
        return frame_of_edits(self.rows)

    @kept_table
    def histories(self) -> pandas.DataFrame:
        """The periods whose history was asked for: open or closed, and how many edits."""
        return frame_of("history", self._of_kind("history"), {})

    @kept_table
    def over(self) -> pandas.DataFrame:
        """The periods without a report, since a total is beyond the limits."""
        return frame_of("over", self._of_kind("over"), {})

    @kept_table
    def taken(self) -> pandas.DataFrame:
        """The streams that were taken between two rounds."""
        return frame_of("taken", self._of_kind("taken"), {})

    @kept_table
    def stops(self) -> pandas.DataFrame:
        """Why each elimination ended."""
        return frame_of("stop", self._of_kind("stop"), {})

    @kept_table
    def uncertainty(self) -> pandas.DataFrame:
        """The standard deviation of each measured or observable stream, in grams, of each block.

        `plantbal.study.uncertainty.uncertainty_of` has its columns.
        """
        from plantbal.study.uncertainty import uncertainty_of

        return uncertainty_of(self)

    @kept_table
    def classes(self) -> pandas.DataFrame:
        """The streams of designs; `design` is the number of the design, counted from 0."""
        return frame_under(self.rows, "design", "class")

    @kept_table
    def advice(self) -> pandas.DataFrame:
        """The streams to meter of each `advise` row, with what each costs and its cycle.

        `advice` is the number of the row, counted from 0; `parts` is the stream and the way back
        over streams that stay without a meter, none of which costs less.
        """
        return frame_under(self.rows, "advise", "meter", "advice")

    @kept_table
    def components(self) -> pandas.DataFrame:
        """The streams of the last balance of each component in each period.

        `component` and `period` say whose balance it is; the other columns are those of `streams`.
        """
        return frame_of_components(self.blocks_in_order)

    @kept_table
    def windows(self) -> pandas.DataFrame:
        """The streams of the last report of each window, by their declared names and periods.

        `window` is the last period of the window, `period` and `declared` the period and the name
        that the code `name` stands for, and `what` is ``flow``, ``before`` (what a tank holds
        before the first period) or ``after`` (what it holds after its period). The other columns
        are those of `streams`.
        """
        return frame_of_windows(self.blocks_in_order)

    @kept_table
    def verdicts(self) -> pandas.DataFrame:
        """What a check found, of the output of a check."""
        return verdict_frame(self.rows)

    def tonnes(self, *, exact: bool = True, anyway: bool = False) -> pandas.DataFrame:
        """Return the streams of each period's last round with their amounts in tonnes.

        Windows and components have rows of their own, by what stands in the column `period`.

        Parameters
        ----------
        exact : bool
            Whether amounts are Decimals. Otherwise they are floats, to draw or to fit.
        anyway : bool
            Whether an output that isn't ok is taken as well.

        Raises
        ------
        NotOk
            If the output isn't ok, and that isn't said to be meant.
        """
        need_pandas()
        import pandas

        if not anyway:
            self.require()
        last = [block.number for block in last_blocks(self.blocks_in_order).values()]
        frame = self.streams[self.streams["block"].isin(last)].copy()
        for name in _GRAMS:
            amounts = [
                None if is_missing(grams) else tonnes_of(int(grams)) for grams in frame[name]
            ]
            if exact:
                frame[name] = pandas.Series(amounts, index=frame.index, dtype=object)
            else:
                frame[name] = [float("nan") if t is None else float(t) for t in amounts]
        return frame.reset_index(drop=True)

    def _booked(self) -> pandas.DataFrame:
        """Return the flows to book and what belongs to them in tonnes, with standard deviations."""
        keys = ["block", "name"]
        found = self.tonnes(anyway=True).drop(columns=["side", "parts", "shape"])
        deviations = self.uncertainty.set_index(keys)["sd"] / 1e6
        sd = deviations.reindex(found.set_index(keys).index).to_numpy()
        found.insert(list(found.columns).index("flow") + 1, "sd", sd)
        return found

    # ---- other forms

    def summary(self) -> str:
        """Return a few lines: whether it may be booked, why not, and the state of each block."""
        return summary_of(self)

    def to_dict(self) -> dict[str, Any]:
        """Return its values as dicts and lists: numbers are whole grams and such, as ints.

        The keys are `source`, `ok`, `why`, `status`, `refused` and `blocks`. A block has its
        `period`, `component`, `window`, `round`, `taken`, `suspects`, whether it is `complete` and
        the `last` of its period, its `streams`, `nodes`, `nodal` and `measure` tests as lists, and
        `solved` and `global` as dicts, with the columns that these rows have.
        """
        return output_dict(self)

    def as_data(self) -> dict[str, Any]:
        """Return what a command's JSON has of it: whether it may be booked, why not, its summary."""
        return {"ok": self.ok, "why": self.why, "summary": self.summary().splitlines()}

    def to_json(self, path: str | Path | None = None, *, indent: int | None = None) -> str:
        """Return `to_dict` as JSON, and write it if a file is named.

        A whole number above 2^53 - 1 is a text of its digits, since many readers would round it.
        """
        text = json_of(self, indent)
        if path is not None:
            write_text(path, text + "\n")
        return text

    # ---- files

    def to_csv(self, path: str | Path | None = None) -> str:
        """Return the rows as the program writes them in CSV, and write them if a file is named.

        So a report that came as JSON lines can be checked.
        """
        text = csv_of(self.rows)
        if path is not None:
            write_text(path, text)
        return text

    write_csv = to_csv

    def tables(self) -> dict[str, pandas.DataFrame]:
        """Return the tables that have rows, by their names."""
        names = "blocks streams uncertainty nodes tests refused over taken stops histories history"
        more = ["classes", "advice", "components", "windows"]
        found = {name: getattr(self, name) for name in [*names.split(), *more]}
        found["verdicts"] = self.verdicts
        return {name: table for name, table in found.items() if len(table)}

    def to_sqlite(self, path: str | Path) -> None:
        """Write a database of SQLite with one table a kind.

        A column with a number beyond 64 bits is one of texts.

        Parameters
        ----------
        path : str or Path
            The database, which is written whole or not at all.
        """
        write_sqlite(self.tables(), path)

    def to_xlsx(self, path: str | Path) -> None:
        """Write a workbook with one table per sheet.

        The first sheet, `tonnes`, has the flows to book, each with its standard deviation `sd`
        beside it.

        A column with a number of more than fifteen digits is one of texts, since a spreadsheet
        would round it.

        Parameters
        ----------
        path : str or Path
            The workbook, which is written whole or not at all.
        """
        write_xlsx(self._sheets, path)

    def _sheets(self) -> dict[str, pandas.DataFrame]:
        """Return the tables of a workbook: in front the flows to book, if there are any."""
        tables = self.tables()
        return {"tonnes": self._booked(), **tables} if self.blocks_in_order else tables


def read_report(path: str | Path) -> Output:
    """Return what the program wrote, from a file: CSV or JSON lines.

    Parameters
    ----------
    path : str or Path
        The file; ``-`` is standard input.

    Raises
    ------
    InputFault
        If it can't be read, or a row is none of the program's; the fault has file and line.
    """
    source, text = read_text(path)
    rows = parse_rows(source, text)
    judge_rows(rows, source, checks=True)
    return Output(rows, source=source)


def read_whole(path: str | Path, *wanted: str) -> Output:
    """Return an output that is whole, and no check's.

    Parameters
    ----------
    path : str or Path
        The file; ``-`` is standard input.
    *wanted : str
        Kinds of rows of which one at least has to be there.

    Raises
    ------
    InputFault
        If it can't be read, is empty or cut off, is what a check said, or has no such row.
    """
    return read_all([path], *wanted)


def read_all(paths: Sequence[str | Path], *wanted: str) -> Output:
    """Return several outputs, each of them whole, as one: one after another.

    Parameters
    ----------
    paths : sequence of str or Path
        The files; ``-`` is standard input.
    *wanted : str
        Kinds of rows of which each has to have one at least.

    Raises
    ------
    InputFault
        If one can't be read, is empty or cut off, is what a check said, or has no such row.
    """
    names = ["standard input" if str(path) == "-" else str(path) for path in paths]
    rows = [row for path in paths for row in read_rows(path, *wanted)]
    return Output(rows, source=", ".join(names))


def parse_report(text: str, source: str = "output", status: int | None = None) -> Output:
    """Return what the program wrote, from its text."""
    return Output(parse_rows(source, text), source=source, status=status)
