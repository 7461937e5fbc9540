"""The summary in a bundle: what was archived, what to look at, and the flows in tonnes with their ±."""

from __future__ import annotations

from collections.abc import Iterator, Mapping, Sequence

from plantbal.amounts import GRAMS_A_TONNE, tonnes_text
from plantbal.audit.bundle import OUTPUT, SESSION, Manifest
from plantbal.model.ledger import Ledger
from plantbal.report.blocks import Block, Values, last_blocks
from plantbal.report.output import Output
from plantbal.study.deviations import deviations_of

_HEADS = ("stream", "from", "to", "measured t", "booked t", "adjusted t", "± t", "class")
_DEVIATION = _HEADS.index("± t")
_ABOUT = (
    "±: one standard deviation of the booked flow, by the variances of all meters.",
    "Without ±: the plant is too entangled to say it here; plantbal-desk uncertainty does.",
)


def blocks_named(output: Output) -> list[tuple[Block, str, bool]]:
    """Return the blocks of an output, how each is called, and whether it is its period's last."""
    blocks = output.blocks_in_order
    last = {block.number for block in last_blocks(blocks).values()}
    count: dict[str, int] = {}
    found = []
    for block in blocks:
        count[block.subject] = number = count.get(block.subject, 0) + 1
        many = sum(each.subject == block.subject for each in blocks)
        what = "period " if block.is_report else ""
        name = f"{what}{block.subject}, block {number} of {many}"
        if block.round:
            name += f" (round {block.round})"
        found.append((block, name, block.number in last))
    return found


def block_said(block: Block) -> str:
    """Return what a block says of its flows as a whole."""
    said = block.solved["state"] if block.solved else "cut off"
    if block.taken:
        said += f" without {', '.join(block.taken)}"
    if block.whole is None:
        return f"{said}, without tests"
    verdicts = {
        "accept": "the global test accepts",
        "reject": "the global test rejects",
        "undecided": "the global test is undecided",
        "nocritical": "no critical value for the global test",
        "notest": "nothing to test",
    }
    return f"{said}; {verdicts.get(block.whole['verdict'], block.whole['verdict'])}"


def safe_line(text: str) -> str:
    """Return a text in one line, so that none of a stranger's looks like a line of the summary."""
    return "".join(each if each.isprintable() else ascii(each)[1:-1] for each in text)


def _flows(block: Block, has_deviations: bool) -> Iterator[str]:
    """Give the lines of the flows of a block, with the ± of each if the form has it."""
    found = deviations_of(block) if has_deviations else None
    rows = [_HEADS, *(_columns(row, found or {}) for row in block.streams)]
    if not found:
        rows = [row[:_DEVIATION] + row[_DEVIATION + 1 :] for row in rows]
    yield from aligned_lines(rows)
    if has_deviations:
        yield ""
        yield _ABOUT[not found]


def _columns(row: Values, deviations: Mapping[str, float]) -> tuple[str, ...]:
    """Return what is said of a stream."""
    value, flow = row["value"], row["flow"]
    booked = "" if row["class"] == "unobservable" else tonnes_text(flow)
    adjusted = tonnes_text(int(flow) - int(value)) if value else ""
    measured = tonnes_text(value) if value else ""
    found = deviations.get(row["name"])
    deviation = "" if found is None else f"{found / GRAMS_A_TONNE:,.3f}"
    ends = row["name"], row["from"], row["to"]
    return (*ends, measured, booked, adjusted, deviation, row["class"])


def aligned_lines(rows: Sequence[tuple[str, ...]]) -> Iterator[str]:
    """Give rows as lines with columns of equal width; numbers stand to the right."""
    widths = [max(map(len, column)) for column in zip(*rows)]
    for row in rows:
        fields = [
            text.rjust(width) if 3 <= place < len(row) - 1 else text.ljust(width)
            for place, (text, width) in enumerate(zip(row, widths))
        ]
        yield "  ".join(fields).rstrip()


def _refused(ledger: Ledger) -> Iterator[str]:
    count = len(ledger.refused)
    yield f"{count} row{'' if count == 1 else 's'} refused."
    for refusal in ledger.refused:
        yield f"  {SESSION}, line {refusal.place.line}: {refusal.what}"


def summary_text(manifest: Manifest, ledger: Ledger, output: Output) -> str:
    """Return the summary of a bundle.

    Parameters
    ----------
    manifest : Manifest
        The manifest; the digest of the summary itself needn't be there yet.
    ledger : Ledger
        The session.
    output : Output
        Its output.
    """
    program = manifest.program
    lines = [
        f"{manifest.plant}, period {manifest.period}: {manifest.first} to {manifest.last}",
        f"archived {manifest.made} by plantbal-desk {manifest.desk}",
        "",
        f"session  SHA-256 {manifest.files.get(SESSION, '')}",
        f"output   SHA-256 {manifest.files.get(OUTPUT, '')}",
        f"program  SHA-256 {program.get('sha256', '')}",
        f"         version {program.get('version', '')}, {program.get('commit', '')}",
        *([f"         from {program['from']}"] if "from" in program else []),
        f"words    plantbal {manifest.words}",
        "",
    ]
    state = "closed" if manifest.period in ledger.closed else "open"
    lines.append(f"The period {manifest.period} is {state}.")
    lines += _refused(ledger)
    named = blocks_named(output)
    for block, name, last in named:
        of = "the period" if block.is_report else "it"
        book = f"the last report of {of}" if last else f"a later report of {of} follows"
        lines.append(f"{name}: {block_said(block)}; {book}.")
    for block, name, last in named:
        if last and not block.window and block.period == manifest.period:
            lines += ["", f"The flows of {name}:", ""]
            lines += _flows(block, manifest.has_deviations)
    return "".join(f"{safe_line(line)}\n" for line in lines)
