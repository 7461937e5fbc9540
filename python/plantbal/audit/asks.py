"""What each test of a check asks of a block, in a sentence with the block's numbers and names."""

from __future__ import annotations

from dataclasses import dataclass, field

from plantbal.checker import verdict as verdict_by_numbers
from plantbal.records import Record
from plantbal.report.blocks import Values
from plantbal.schema import schema

_MEASURED = ("redundant", "nonredundant")
_CUT = ("redundant", "observable")
_FOLLOWS = "{found} follows from the report's other numbers, and {stated} is written"


def places_of(record: Record) -> dict[str, int]:
    """Return the number of each column of a row of a report."""
    row = schema().output.get(record.fields[0])
    if row is None:
        return {}
    names = row.names
    if row.without and len(record.fields) == len(row.older) + 1:
        names = row.older
    return {name: number for number, name in enumerate(names, 1)}


def values_by_column(record: Record | None) -> Values:
    """Return the fields of a row by their columns; an older row has no least bounds."""
    if record is None:
        return {}
    empty: Values = dict.fromkeys(schema().output[record.fields[0]].names, "")
    found = {
        name: record.fields[place]
        for name, place in places_of(record).items()
        if place < len(record.fields)
    }
    return {**empty, **found}


@dataclass
class ReportBlock:
    """The rows of a block, each with its record."""

    rows: list[tuple[Record, dict[str, int]]] = field(default_factory=list)

    def find(self, kind: str, name: str = "", column: str = "name") -> Record | None:
        """Return the first row of a kind, or that of a name."""
        for record, places in self.rows:
            if record.fields[0] == kind:
                at = places.get(column, 0)
                if not name or (0 < at < len(record.fields) and record.fields[at] == name):
                    return record
        return None

    def all_of(self, kind: str) -> list[Values]:
        """Return the rows of a kind by their columns."""
        return [values_by_column(record) for record, _ in self.rows if record.fields[0] == kind]

    @property
    def nodes(self) -> list[str]:
        """The names of the nodes, in order."""
        return [row["name"] for row in self.all_of("node")]


def some(names: list[str], most: int = 6) -> str:
    """Return names with commas and an `and`; of many only the first ones."""
    if len(names) > most:
        return f"{', '.join(names[:most])} and {len(names) - most} more"
    return " and ".join(filter(None, [", ".join(names[:-1]), *names[-1:]]))


def asked(block: ReportBlock, verdict: Values) -> str:
    """Return what a test asks, and what stands there in its place.

    Parameters
    ----------
    block : ReportBlock
        The block that fails.
    verdict : dict
        The `no` row of the check.
    """
    code, name = int(verdict["code"]), verdict["name"]
    stream = values_by_column(block.find("stream", name)) if name else {}
    if code == 1 and stream:
        return _class(stream)
    if code == 2 and stream:
        return _witness(block, stream)
    if code == 3:
        return _balance(block, verdict)
    if code == 8:
        return _state(block, verdict)
    if code == 11:
        return _nodal(block, verdict)
    if code == 12:
        return _verdict(block, name)
    said = _ASKS.get(code, _FOLLOWS).format(**verdict)
    return said.replace("-1 ", "none ") if code == 10 else said


_ASKS = {
    4: "nodes that unmeasured streams join have one price, which is 0 if env is among them or no "
    "measured stream leads away from them: {found} is expected, and {stated} is written",
    5: "by its variance the prices at both ends may be {found} apart, and are {stated} apart",
    6: "{found} is the number of independent balances that test the measurements, and {stated} is "
    "written",
    7: "{found} follows from the flows and the prices, and {stated} is written; all bounds rest on "
    "it",
}


def _class(row: Values) -> str:
    """Return why the class of a stream can't be that, or what is missing beside it."""
    name, kind = row["name"], row["class"]
    if bool(row["value"]) != (kind in _MEASURED):
        has, classes = ("a", _MEASURED) if row["value"] else ("no", ("observable", "unobservable"))
        return f"{name} has {has} value, so its class is {' or '.join(classes)}"
    if kind == "unobservable":
        return "an unobservable stream has no bounds, so the columns of bounds are empty"
    if not row["lo"]:
        return f"{name} isn't unobservable, so it has bounds, and LO and HI are empty"
    return "other streams of the block have least bounds, so this one has them too"


def _witness(block: ReportBlock, row: Values) -> str:
    """Return why a cut or a cycle doesn't show a stream's class."""
    name, kind, shape = row["name"], row["class"], row["shape"]
    wanted = "cut" if kind in _CUT else "cycle"
    if shape != wanted:
        return f"a {wanted} shows that a stream is {kind}, and this is a {shape}"
    measured = {each["name"]: bool(each["value"]) for each in block.all_of("stream")}
    members = [part[1:] for part in row["parts"].split(" ") if part]
    if shape == "cycle":
        others = [each for each in members if each != name and measured.get(each)]
        if name not in members:
            return f"the cycle doesn't go through {name}"
        if others:
            return f"the cycle goes through {some(others)} too, which {_has(others)} a value"
        return (
            "the steps have to lead round from node to node, `+` along an arrow and `-` against "
            "it, back to where they begin, and come to no node and no stream twice"
        )
    side = set(row["side"].split(" "))
    cut = [
        f"{'+' if each['to'] in side else '-'}{each['name']}"
        for each in block.all_of("stream")
        if (each["from"] in side) != (each["to"] in side)
    ]
    if " ".join(cut) != row["parts"]:
        return (
            f"the streams with one end in the side are {' '.join(cut) or 'none'}, `+` for one that "
            "enters it and `-` for one that leaves, and these are others, or in another order"
        )
    others = [each for each in members if each != name and not measured.get(each)]
    if name not in members:
        return f"{name} has no end or both ends in the side, so it isn't in this cut"
    return f"the cut has {some(others)} too, which {_has(others)} no value"


def _has(names: list[str]) -> str:
    return "has" if len(names) == 1 else "have"


def _balance(block: ReportBlock, verdict: Values) -> str:
    """Return what a node's streams leave over."""
    node = verdict["name"]
    ends = [row["name"] for row in block.all_of("stream") if node in (row["from"], row["to"])]
    which = f"one of the flows of {some(ends)} is wrong" if len(ends) > 1 else "its flow is wrong"
    return (
        "what comes in less what goes out has to be 0 at each node, and it is "
        f"{verdict['found']} g here; {which}"
    )


def _state(block: ReportBlock, verdict: Values) -> str:
    """Return which state the gap and the sweeps ask for."""
    solved, head = values_by_column(block.find("solved")), values_by_column(block.find("report"))
    try:
        size = int(solved["g"]) << int(solved["h"])
        met = size * 1000 <= int(head["gap"]) << 20
    except (KeyError, ValueError):
        met = False
    done, allowed = verdict["stated"], verdict["found"]
    if met and solved.get("state") == "converged":
        return f"{done} sweeps are written as K, and at most {allowed} are allowed"
    if met:
        return "G and H meet the gap that the report row asks for, so the state is converged"
    if solved.get("state") == "converged":
        asked_for = "the gap that the report row asks for"
        return f"G and H don't meet {asked_for}, so the state is unconverged"
    return f"an unconverged report has made all {allowed} sweeps, and {done} are written as K"


def _nodal(block: ReportBlock, verdict: Values) -> str:
    """Return which nodal row is expected, or what of it."""
    stated, found, name = verdict["stated"], verdict["found"], verdict["name"]
    if not name:
        rows = "1 nodal row is" if found == "1" else f"{found} nodal rows are"
        there = "1 is" if stated == "1" else f"{stated} are"
        return (
            f"{rows} expected, one for each balance that is measured all round, and {there} there"
        )
    row, nodes = values_by_column(block.find("nodal", name, "node")), block.nodes
    if stated not in (row.get("net"), row.get("variance")) and found.isdecimal():
        wanted = nodes[int(found)] if int(found) < len(nodes) else "another node"
        return f"the row of {wanted} belongs here, in the order of the nodes, and {name} is written"
    return f"{found} follows from the values of the streams, and {stated} is written"


def _verdict(block: ReportBlock, name: str) -> str:
    """Return which verdict follows from the numbers of a row."""
    try:
        if not name:
            solved, whole = values_by_column(block.find("solved")), values_by_column(
                block.find("global")
            )
            if solved["dof"] == "0":
                return "there are no degrees of freedom, so the verdict is notest"
            return _by_numbers(solved["low"], solved["high"], whole["critical"])
        nodal = values_by_column(block.find("nodal", name, "node"))
        if nodal:
            squared = str(1000 * int(nodal["net"]) ** 2)
            critical = nodal["critical"]
            scaled = str(int(critical) * int(nodal["variance"])) if critical else ""
            wanted = _wanted(squared, squared, scaled)
            if wanted != nodal["verdict"]:
                said = "the square of NET over VARIANCE, in thousandths,"
                return f"{said} against CRITICAL has the verdict {wanted}"
        row = values_by_column(block.find("measure", name, "stream"))
        return _by_numbers(row["low"], row["high"], row["critical"])
    except (KeyError, ValueError):
        return "the verdict has to follow from the numbers in its row and the critical value"


def _wanted(low: str, high: str, critical: str) -> str:
    return verdict_by_numbers(
        int(low), int(high) if high else None, int(critical) if critical else None
    )


def _by_numbers(low: str, high: str, critical: str) -> str:
    """Return which verdict follows from a statistic between two ends."""
    wanted = _wanted(low, high, critical)
    if not critical:
        return f"without a critical value the verdict is {wanted}"
    ends = f"from {low} to {high}" if high else f"from {low}, without an upper end"
    return f"a statistic {ends} against the critical value {critical} has the verdict {wanted}"
