#!/usr/bin/python3
"""Checks reports of plantbal by their own numbers, without plantbal.

    python3 checker.py < report.csv

It makes the tests that `plantbal check` makes, and writes the same rows: yes, no or unreadable. It
is written from docs/AUDIT.md and docs/FORMAT.md, is a file by itself, and needs Python alone. The
tests have the numbers of the table at the end of docs/CORE.md, where they are formulas. Every number is a whole number or a fraction of two. The status is 0 if each block gets a yes, and 1 if
one doesn't, if a row can't be read, or if there is no block; 2 if words are given.
"""

from __future__ import annotations

import csv
import io
import re
import sys
from collections import Counter
from collections.abc import Collection, Iterable, Iterator
from dataclasses import dataclass
from fractions import Fraction
from math import isqrt
from types import SimpleNamespace as Row  # a row of a report: its columns are its attributes
from typing import Any, NoReturn

MOST_BYTES, MOST_NODES, MOST_STREAMS = 67_108_864, 1001, 4000
# The words of the tests and of what makes a row unreadable; their codes count from 1.
TESTS = "class witness balance price box dof gap state bounds statistic nodal verdict least".split()
UNREADABLE = "kind fields name number unknown duplicate word shape count env ended".split()
GRAM = 2**56  # what a price and a dual flow are parts of
PART = 2**20  # what a deviation, a gap and a root are parts of

Part = tuple[str, int]  # the name of a stream on a cut or a cycle, and its sign there
Found = tuple[str, int, int]  # the name of a node or a stream, what is stated, what the rule gives


# ---- the tests


def up(number: int, parts: int) -> int:
    """Return a quotient, rounded up; `//` rounds down."""
    return -(-number // parts)


def joined(nodes: Iterable[str], streams: Iterable[Row]) -> dict[str, int]:
    """Return the group of each node, by the place of its first node: streams join their ends."""
    group = {node: place for place, node in enumerate(nodes)}
    for s in streams:
        low, high = sorted((group[s.start], group[s.end]))
        if low < high:
            group = {node: low if each == high else each for node, each in group.items()}
    return group


def is_cycle(steps: list[tuple[Row, int]]) -> bool:
    """Return whether steps lead round, and come to no node and no stream twice."""
    begins = [s.start if sign > 0 else s.end for s, sign in steps]
    ends = [s.end if sign > 0 else s.start for s, sign in steps]
    once = len(set(begins)) == len(steps) == len({s.name for s, _ in steps})
    return bool(steps) and once and ends == begins[1:] + begins[:1]


def verdict(low: Fraction | int, high: Fraction | int | None, critical: int | None) -> str:
    """Return the verdict on a statistic between two ends."""
    if critical is None:
        return "nocritical"
    if low > critical:
        return "reject"
    return "accept" if high is not None and high <= critical else "undecided"


def differ(name: str, *pairs: tuple[int | None, int | None]) -> Iterator[Found]:
    """Give the numbers that are stated and that a rule gives, if they differ; none counts as -1."""
    for stated, found in pairs:
        if stated != found:
            yield name, -1 if stated is None else stated, -1 if found is None else found


@dataclass
class CheckedBlock:
    """The rows of a block. Each test gives the places where it fails, the first one first."""

    head: Row
    nodes: dict[str, Row]  # by their names, in order, as the streams
    named: dict[str, Row]
    solved: Row
    tests: list[Row]

    def __post_init__(self) -> None:
        self.streams = [*self.named.values()]
        self.measured = [s for s in self.streams if s.value is not None]
        for s in self.measured:
            s.root = isqrt(s.variance * PART**2)
            s.rise = self.nodes[s.end].price - self.nodes[s.start].price
            s.dual = s.value * GRAM + s.variance * s.rise  # the flow that the prices give it
        self.gap = self.solved.g * 2**self.solved.h
        # Streams without a value join nodes to groups. That of env is 0; the other ones are free if
        # a stream has exactly one end in them.
        self.group = joined(self.nodes, (s for s in self.streams if s.value is None))
        ends = [{self.group[s.start], self.group[s.end]} for s in self.streams]
        self.free = sorted({group for pair in ends if len(pair) == 2 for group in pair} - {0})
        self.cuts: dict[str, list[Part]] = {}

    def cut(self, side: str) -> list[Part]:
        """Return the streams with exactly one end in a side, in order."""
        if side not in self.cuts:
            inside = set(side.split(" "))
            signs = ((s.name, (s.end in inside) - (s.start in inside)) for s in self.streams)
            self.cuts[side] = [(name, sign) for name, sign in signs if sign]
        return self.cuts[side]

    def bounded(self) -> Iterator[tuple[Row, int, int, int]]:
        """Give each stream with bounds, and flow, dual flow and half width of its list.

        The list is the stream itself if it is measured, and else what adds up to it in its cut.
        """
        for s in self.streams:
            if s.lo is not None:
                listed = [(s, 1)]
                if s.value is None:
                    own = dict(s.parts)[s.name]
                    listed = [(self.named[n], -own * sign) for n, sign in s.parts if n != s.name]
                flow = sum(sign * other.flow for other, sign in listed)
                dual = sum(sign * other.dual for other, sign in listed)
                root = isqrt(sum(other.variance for other, _ in listed) * PART**2) + 1
                yield s, flow, dual, up(root * self.gap, PART**2) if listed else 0

    def test_class(self) -> Iterator[Found]:
        """1. The class is that of a measured stream iff there is a value; bounds are there or not."""
        has_least = any(s.least_lo is not None for s in self.streams)
        for s in self.streams:
            there = [each is not None for each in (s.value, s.lo, s.least_lo)]
            measured, bounds = s.kind in ("redundant", "nonredundant"), s.kind != "unobservable"
            if there != [measured, bounds, bounds and has_least]:
                yield s.name, 0, 0

    def test_witness(self) -> Iterator[Found]:
        """2. The cut or cycle has the stream once, and shows its class."""
        have = {s.name for s in self.measured}  # a value
        for s in self.streams:
            others = [name for name, _ in s.parts if name != s.name]
            if s.kind in ("observable", "redundant"):
                shown = s.shape == "cut" and have.issuperset(others) and s.parts == self.cut(s.side)
            else:
                steps = [(self.named[name], sign) for name, sign in s.parts]
                shown = s.shape == "cycle" and have.isdisjoint(others) and is_cycle(steps)
            if not shown or len(others) != len(s.parts) - 1:
                yield s.name, 0, 0

    def test_balance(self) -> Iterator[Found]:
        """3. What comes in is what goes out, at each node."""
        net = dict.fromkeys(self.nodes, 0)
        for s in self.streams:
            net[s.end] += s.flow
            net[s.start] -= s.flow
        for node in self.nodes:
            yield from differ(node, (0, net[node]))

    def test_price(self) -> Iterator[Found]:
        """4. Nodes of a group share a price, which is 0 if the group isn't free."""
        prices, free = [node.price for node in self.nodes.values()], set(self.free)
        for (name, group), price in zip(self.group.items(), prices):
            yield from differ(name, (price, prices[group]), (price, price if group in free else 0))

    def test_box(self) -> Iterator[Found]:
        """5. Variance times rise of the price is at most 2^112 along a measured stream."""
        for s in self.measured:
            if s.variance * abs(s.rise) > 2**112:
                yield s.name, abs(s.rise), 2**112 // s.variance

    def test_dof(self) -> Iterator[Found]:
        """6. There are as many degrees of freedom as groups, less one for each part of the plant."""
        parts = joined(self.nodes, self.streams)
        dof = len(set(self.group.values())) - len(set(parts.values()))
        yield from differ("", (self.solved.dof, dof))

    def test_gap(self) -> Iterator[Found]:
        """7. The gap is that of the flows and of those that the prices give."""
        deviations = [up(abs(s.flow * GRAM - s.dual), s.root * 2**16) for s in self.measured]
        h = 0
        while any(each > 2 ** (57 + h) for each in deviations):
            h += 1
        squares = sum(up(each, 2**h) ** 2 for each in deviations)
        g = isqrt(squares - 1) + 1 if squares else 0
        yield from differ("", (self.solved.h, h), (self.solved.g, g))

    def test_state(self) -> Iterator[Found]:
        """8. It has converged iff the gap is met, in as many sweeps as are allowed."""
        k, most = self.solved.k, self.head.sweeps
        if 1000 * self.gap <= self.head.gap * PART:
            holds = self.solved.state == "converged" and k <= most
        else:
            holds = self.solved.state == "unconverged" and k == most
        if not holds:
            yield "", k, most

    def test_bounds(self) -> Iterator[Found]:
        """9. The bounds are those that the prices, the gap and the certificates give."""
        for s, _, dual, width in self.bounded():
            yield from differ(s.name, (s.lo, dual // GRAM - width), (s.hi, up(dual, GRAM) + width))

    def test_statistic(self) -> Iterator[Found]:
        """10. The ends of the statistic are those of the flows, the values and the gap."""
        most = 2**32 * PART
        sizes = [(abs(s.flow - s.value) * PART**2, s.root) for s in self.measured]
        below = sum(min(off // (root + 1), most) ** 2 for off, root in sizes)
        above = [up(off, root) for off, root in sizes]
        low = 0 if self.gap > 2**57 else max(0, 1000 * (below - self.gap**2) // PART**2)
        has_high = all(each <= most for each in above)
        high = up(1000 * sum(each**2 for each in above), PART**2) if has_high else None
        yield from differ("", (self.solved.low, low), (self.solved.high, high))

    def test_nodal(self) -> Iterator[Found]:
        """11. There is a nodal test of each free group, with its net flow and its variance."""
        nodal = [test for test in self.tests if test.row == "nodal"]
        free = self.free if self.tests else []
        yield from differ("", (len(nodal), len(free)))
        net, variance = Counter[int](), Counter[int]()
        for s in self.measured:
            start, end = self.group[s.start], self.group[s.end]
            for group, sign in ((start, -1), (end, 1)) if start != end else ():
                net[group] += sign * s.value
                variance[group] += s.variance
        place = {node: place for place, node in enumerate(self.nodes)}
        for test, group in zip(nodal, free):
            stated = place[test.name], test.net, test.variance
            yield from differ(test.name, *zip(stated, (group, net[group], variance[group])))

    def test_verdict(self) -> Iterator[Found]:
        """12. Each verdict follows from the numbers in its row."""
        for test in self.tests:
            if test.row == "nodal":
                test.low = test.high = Fraction(1000 * test.net**2, test.variance)
            wanted = verdict(test.low, test.high, test.critical)
            if test.row == "global" and not self.solved.dof:
                wanted = "notest"
            if test.verdict != wanted:
                yield test.name, 0, 0

    def test_least(self) -> Iterator[Found]:
        """13. The least bounds reach half as far about the middle of the flow and the dual flow."""
        for s, flow, dual, width in self.bounded():
            if s.least_lo is not None:
                low = (flow + dual // GRAM) // 2 - up(width, 2)
                high = up(flow + up(dual, GRAM), 2) + up(width, 2)
                yield from differ(s.name, (s.least_lo, low), (s.least_hi, high))

    def judge(self) -> tuple[str, ...]:
        """Return the row of what is found first."""
        head = self.head.period, str(self.head.round)
        for code, word in enumerate(TESTS, 1):
            for name, stated, rule in getattr(self, f"test_{word}")():
                return ("no", *head, str(code), word, name, str(stated), str(rule))
        return ("yes", *head)


# ---- how a report is read: of several faults of a row the one whose word comes first counts

NAME = re.compile(r"[A-Za-z0-9_.-]{1,32}")
WHOLE = re.compile(r"0|-?[1-9][0-9]{0,39}")
CLASSES = "observable", "unobservable", "redundant", "nonredundant"
VERDICTS = "reject", "accept", "undecided", "nocritical", "notest"
# The columns of each kind of row and their forms: a name, a text, or a whole number between two,
# which may be missing if None follows. Names come before numbers; texts are asked after both.
ROUND, SWEEPS, DOF, GAP, CRITICAL = (
    (0, 20),
    (0, 100_000),
    (0, 2000),
    (1, 10**6),
    (0, 10**12, None),
)
ANY, MAYBE, PRICE = (-(2**126), 2**126), (-(2**126), 2**126, None), (-(2**120), 2**120)
VALUE, VARIANCE, FLOW = (
    (-(10**15), 10**15, None),
    (1, 10**22, None),
    (1 - 2**68, 2**68 - 1),
)
COLUMNS: dict[str, tuple[Any, ...]] = {
    "report": ("period round nodes streams gap sweeps", NAME, ROUND, ANY, ANY, GAP, SWEEPS),
    "node": ("name price", NAME, PRICE),
    "stream": (
        "name start end value variance kind flow lo hi least_lo least_hi shape side parts",
        *(NAME, NAME, NAME, VALUE, VARIANCE, str, FLOW, MAYBE, MAYBE, MAYBE, MAYBE, str, str, str),
    ),
    "solved": ("k state g h dof low high", SWEEPS, str, (0, 2**63), (0, 32), DOF, ANY, MAYBE),
    "global": ("critical verdict", CRITICAL, str),
    "nodal": ("name net variance critical verdict", NAME, ANY, ANY, CRITICAL, str),
    "measure": ("name low high critical verdict", NAME, ANY, MAYBE, CRITICAL, str),
    "end": ("period round", NAME, ROUND),
}
# The tests that may come after a row; and the rows that may stand between blocks.
AFTER = {"solved": ["global"], "global": ["nodal", "measure"]}
AFTER |= {"nodal": ["nodal", "measure"], "measure": ["measure"]}
PASSED_OVER = set(
    "refused over design class history edit taken stop advise meter window place component".split()
)


class Bad(Exception):
    """A row that can't be read: a word for why, and its number unless it is the row read last."""


def ask(holds: object, word: str, number: int = 0) -> None:
    """Refuse a row unless something holds."""
    if not holds:
        raise Bad(word, number)


def value_of(form: Any, text: str) -> str | int | None:
    """Return what a field of a form holds."""
    if form is str:
        return text
    if form is NAME:
        ask(NAME.fullmatch(text), "name")
        return sys.intern(text)
    if form[2:] and not text:
        return None
    ask(WHOLE.fullmatch(text) and form[0] <= int(text) <= form[1], "number")
    return int(text)


def checked_row(fields: list[str]) -> Row:
    """Return a row by its columns."""
    names, *forms = COLUMNS[fields[0]]
    ask(len(fields) == len(forms) + 1, "fields")
    return Row(row=fields[0], **dict(zip(names.split(), map(value_of, forms, fields[1:]))))


def parts_of(text: str) -> list[Part]:
    """Return the streams of a cut or a cycle with their signs."""
    steps = text.split(" ") if text else []
    ask(all(step[:1] in ("+", "-") and NAME.fullmatch(step[1:]) for step in steps), "shape")
    return [(sys.intern(step[1:]), 1 if step[0] == "+" else -1) for step in steps]


class ReadRows:
    """The rows of a report, one after the other, and the number of the one read last."""

    def __init__(self, data: bytes) -> None:
        csv.field_size_limit(sys.maxsize)
        text = data.removeprefix(b"\xef\xbb\xbf").decode("latin-1")
        self.records = filter(None, csv.reader(io.StringIO(text, newline="")))
        self.number = 0

    def next(self, *kinds: str) -> list[str]:
        """Return the fields of the next row: within a block there is one, of one of some kinds."""
        self.number += 1
        fields: list[str] = next(self.records, [])
        ask(fields or not kinds, "ended")
        ask(not kinds or fields[0] in kinds, "kind")
        return fields

    def block(self, fields: list[str]) -> CheckedBlock:
        """Return the block that a `report` row begins."""
        head = checked_row(fields)
        ask(1 <= head.nodes <= MOST_NODES and 0 <= head.streams <= MOST_STREAMS, "count")
        nodes: dict[str, Row] = {}
        for _ in range(head.nodes):
            node = checked_row(self.next("node"))
            ask(node.name not in nodes, "duplicate")
            ask(nodes or node.name == "env", "env")
            nodes[node.name] = node
        streams = self.streams(head.streams, nodes)
        solved = checked_row(self.next("solved"))
        ask(solved.state in ("converged", "unconverged"), "word")
        tests: list[Row] = []
        fields = self.next("end", *AFTER["solved"])
        while fields[0] != "end":
            test = checked_row(fields)
            if test.row == "global":
                test.name, test.low, test.high = "", solved.low, solved.high
            else:
                ask(test.name in (nodes if test.row == "nodal" else streams), "unknown")
            ask(test.verdict in VERDICTS, "word")
            tests.append(test)
            fields = self.next("end", *AFTER[test.row])
        end = checked_row(fields)
        ask((end.period, end.round) == (head.period, head.round), "unknown")
        return CheckedBlock(head, nodes, streams, solved, tests)

    def streams(self, count: int, nodes: Collection[str]) -> dict[str, Row]:
        """Return the streams of a block; their rows have as many fields as the first."""
        streams: dict[str, Row] = {}
        # Half of the streams of a plant may have one cut, of thousands of parts: it is read once.
        known: dict[str, tuple[int, list[Part]]] = {}
        width = 0
        for _ in range(count):
            fields = self.next("stream")
            width = width or len(fields)
            ask(len(fields) == width, "fields")
            s = checked_row([*fields[:10], "", "", *fields[10:]] if width == 13 else fields)
            for one, other in (s.value, s.variance), (s.lo, s.hi), (s.least_lo, s.least_hi):
                ask((one is None) == (other is None), "number")
            side = s.side.split(" ") if s.side else []
            inside = set(side)
            ask(s.start in nodes and s.end in nodes, "unknown")
            ask(all(each in nodes or not NAME.fullmatch(each) for each in side), "unknown")
            ask(s.name not in streams, "duplicate")
            ask(s.kind in CLASSES and s.shape in ("cut", "cycle"), "word")
            if s.parts not in known:
                known[s.parts] = self.number, parts_of(s.parts)
            ask(side == [node for node in nodes if node in inside], "shape")
            ask(not side or s.shape == "cut", "shape")
            ask(s.start != s.end, "count")
            s.parts = known[s.parts][1]
            streams[s.name] = s
        for number, parts in known.values():  # they may name streams that come later
            ask(all(name in streams for name, _ in parts), "unknown", number)
        return streams


def findings(data: bytes) -> Iterator[tuple[str, ...]]:
    """Give the row of each block of a report, and that of the first row that can't be read."""
    rows = ReadRows(data)
    try:
        while fields := rows.next():
            if fields[0] not in PASSED_OVER:
                ask(fields[0] == "report", "kind")
                yield rows.block(fields).judge()
    except Bad as bad:
        word, number = bad.args
        yield "unreadable", str(number or rows.number), str(UNREADABLE.index(word) + 1), word


def main() -> NoReturn:
    """Check standard input, and end with the status."""
    if sys.argv[1:]:
        print("checker: it reads standard input: python3 checker.py < report.csv", file=sys.stderr)
        sys.exit(2)
    data, verdicts = sys.stdin.buffer.read(MOST_BYTES + 1), set[str]()
    if len(data) > MOST_BYTES:
        sys.exit(f"checker: the report has more than {MOST_BYTES:,} bytes: split it")
    for row in findings(data):
        print(",".join(row))
        verdicts.add(row[0])
    if not verdicts:
        what = "a report has blocks from `report` to `end`" if data else "the file is empty"
        sys.exit(f"checker: there is no block to check: {what}")
    sys.exit(0 if verdicts == {"yes"} else 1)


if __name__ == "__main__":
    main()
