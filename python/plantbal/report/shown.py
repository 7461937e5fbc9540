"""An output as values for other programs, as JSON, as a page's fragment and in a few lines."""

from __future__ import annotations

import html
import json
from collections.abc import Iterator
from typing import TYPE_CHECKING, Any

from plantbal.amounts import tonnes_text
from plantbal.faults import Fault
from plantbal.report.blocks import Block, Values, last_blocks
from plantbal.schema import Row, schema

if TYPE_CHECKING:
    from plantbal.report.output import Output

# The greatest whole number that every reader of JSON keeps (RFC 7493, section 2.2).
_MOST_OF_JSON = 2**53 - 1
# How many streams a notebook shows of a block.
_MOST_SHOWN = 60
# What a block has beside its streams and nodes, each at most once.
_SINGLE = {"solved": "solved", "global": "whole"}


def _values(row: Values, kind: Row) -> dict[str, Any]:
    """Return the values of a row by their columns: whole numbers as ints, empty ones as None."""
    found: dict[str, Any] = {}
    for column in kind.columns:
        text = row.get(column.name, "")
        if not text:
            found[column.name] = None
        else:
            found[column.name] = int(text) if column.type == "number" else text
    return found


def _all(rows: list[Values], kind: str) -> list[dict[str, Any]]:
    return [_values(row, schema().output[kind]) for row in rows]


def block_dict(block: Block) -> dict[str, Any]:
    """Return a block as values that JSON has: its head, streams, nodes, tests and state."""
    found: dict[str, Any] = {
        "period": block.period,
        "component": block.component or None,
        "window": block.window.last if block.window else None,
        "round": block.round,
        "taken": list(block.taken),
        "suspects": list(block.suspects()),
        "complete": block.ended and block.solved is not None,
        "nodes": _all(block.nodes, "node"),
        "streams": _all(block.streams, "stream"),
        "nodal": _all(block.nodal, "nodal"),
        "measure": _all(block.measure, "measure"),
    }
    for name, attribute in _SINGLE.items():
        row: Values | None = getattr(block, attribute)
        found[name] = _values(row, schema().output[name]) if row else None
    return found


def output_dict(output: Output) -> dict[str, Any]:
    """Return an output as values that JSON has: whether it is ok and why not, and its blocks."""
    last = {block.number for block in last_blocks(output.blocks_in_order).values()}
    return {
        "source": output.source,
        "ok": output.ok,
        "why": list(output.why),
        "status": output.status,
        "refused": _all([row for row in output.rows if row["row"] == "refused"], "refused"),
        "blocks": [
            {**block_dict(block), "last": block.number in last} for block in output.blocks_in_order
        ],
    }


def _exact(value: Any) -> Any:
    """Return a value with each whole number that a reader might round as a text of its digits."""
    if isinstance(value, dict):
        return {key: _exact(item) for key, item in value.items()}
    if isinstance(value, list):
        return [_exact(item) for item in value]
    if isinstance(value, int) and abs(value) > _MOST_OF_JSON:
        return str(value)
    return value


def json_of(output: Output, indent: int | None = None) -> str:
    """Return an output as JSON. A whole number above 2^53 - 1 is a text of its digits."""
    return json.dumps(_exact(output_dict(output)), indent=indent)


def _figures(block: Block) -> str:
    """Return the statistic of a block beside its critical value, if it was tested."""
    if block.whole is None or block.solved is None:
        return ""
    low = int(block.solved["low"]) / 1000
    critical = block.whole.get("critical")
    beside = f", critical value {int(critical) / 1000:,.3f}" if critical else ""
    return f" (statistic {low:,.3f}{beside})"


def summary_of(output: Output) -> str:
    """Return an output in a few lines: whether it may be booked, why not, and each block's state."""
    said = ["ok" if output.ok else "not ok: " + "; ".join(output.why)]
    for block in output.blocks_in_order:
        count = len(block.streams)
        streams = "1 stream" if count == 1 else f"{count:,} streams"
        said.append(f"{block.title}: {block.verdict}{_figures(block)}; {streams}")
    return "\n".join(said)


def _cells(row: Values, deviation: float | None) -> tuple[str, ...]:
    is_free = row["class"] == "unobservable"
    flow = "" if is_free else tonnes_text(row["flow"])
    about = "" if deviation is None or is_free else f"{deviation / 1e6:,.3f}"
    measured = tonnes_text(row["value"]) if row["value"] else ""
    return row["name"], row["class"], measured, flow, about


def _table(block: Block, deviations: dict[tuple[int, str], float]) -> Iterator[str]:
    """Give the table of a block's streams in tonnes, line by line."""
    heads = ("stream", "class", "measured t", "flow t", "± t")
    yield "<table><thead><tr>" + "".join(f"<th>{head}</th>" for head in heads) + "</tr></thead>"
    for row in block.streams[:_MOST_SHOWN]:
        cells = _cells(row, deviations.get((block.number, row["name"])))
        sides = ["left", "left", "right", "right", "right"]
        texts = (
            f'<td style="text-align:{side}">{html.escape(cell, quote=False)}</td>'
            for side, cell in zip(sides, cells)
        )
        yield f"<tr>{''.join(texts)}</tr>"
    yield "</table>"
    if len(block.streams) > _MOST_SHOWN:
        yield f"<p>and {len(block.streams) - _MOST_SHOWN:,} more streams</p>"


def _deviations(output: Output) -> tuple[dict[tuple[int, str], float], str]:
    """Return the standard deviation of each stream of each block, or why it isn't known."""
    try:
        table = output.uncertainty
    except Fault as fault:
        return {}, f"± isn't known: {fault}"
    columns = zip(table["block"], table["name"], table["sd"])
    return {(int(b), str(n)): float(sd) for b, n, sd in columns if sd is not None and sd == sd}, ""


def html_of(output: Output) -> str:
    """Return what a notebook shows: the verdict, and the flows of each last block with their ±."""
    deviations, unknown = _deviations(output)
    verdict = "ok" if output.ok else "; ".join(output.why)
    said = [
        f"<p><b>{html.escape(output.source, quote=False)}</b>: {html.escape(verdict, quote=False)}</p>"
    ]
    if unknown:
        said.append(f"<p>{html.escape(unknown, quote=False)}</p>")
    for block in last_blocks(output.blocks_in_order).values():
        state = f"{block.title}: {block.verdict}{_figures(block)}"
        said.append(f"<p>{html.escape(state, quote=False)}</p>")
        said += _table(block, deviations)
    return "\n".join(said)
