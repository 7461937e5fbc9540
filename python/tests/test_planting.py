"""What the record of a planted edit rests on: each thing that may change its answer, and nothing else."""

from __future__ import annotations

import re
from collections.abc import Mapping
from pathlib import Path

import pytest
from gate.planting.rests import Replaced, Sums
from gate.planting.tokens import tokens_of, without_comments
from gate.planting.trying import Function, Sources

LOGIC = "logic 1"
# Three crates, each on the one before: a limit with its definition, a store, and what reads it.
FILES = {
    "crates.txt": "low:\nmid: low csv\ntop: mid low\n",
    "crates/low/src/lib.rt": """#![tactic(auto)]
ghost use Rattle.low.specs.Limits.{most};

/// The greatest number.
pub const MOST: u32 = 100;

pub const fn doubled(a: u32) -> u32 {
    a * 2
}

pub fn spare(a: u32) -> u32
    ensures value { result ≡ most }
{
    a
}
""",
    "crates/low/specs/Limits.antt": """-- Statement
-- The greatest number.
most : ℕ
most = 100

-- A number that no one asks for.
other : ℕ
other = 1
""",
    "crates/low/specs/Order.antt": """-- Statement
use Rattle.low.specs.Limits.{most}

-- Within the limit.
is_within : ℕ → Bool
is_within a = le a most
""",
    "crates/mid/src/lib.rt": """#![tactic(auto)]
ghost use Rattle.low.specs.Order.{is_within};

use low::{doubled, MOST};

/// A store.
pub struct Store {
    items: Vec<u32>,
}

pub struct Unread {
    left: u32,
}

impl Store {
    ghost use Rattle.low.specs.Order.{is_within};

    pub fn first(&self) -> u32
        ensures within { IsTrue (is_within result) }
    {
        self.items[0]
    }

    pub fn last(&self) -> u32
        ensures within { IsTrue (is_within result) }
    {
        self.items[self.items.len() - 1]
    }
}

macro_rules! least {
    ($a: expr) => {
        $a.min(MOST)
    };
}
""",
    "crates/mid/specs/Lib.antt": "-- Inside\n",
    "crates/top/src/lib.rt": """#![tactic(auto)]
ghost use Rattle.low.specs.Order.{is_within};

use low::MOST;
use mid::Store;

pub fn read(store: &Store) -> u32
    ensures within { IsTrue (is_within result) }
{
    let found = store.first();
    if found < MOST { found } else { MOST }
}

pub fn beside(store: &Store) -> u32
    ensures same { result ≡ store.now }
{
    store.last()
}
""",
    "crates/top/proofs/read/Answers.antt": """use Rattle.top.proofs.Lemmas.{keeps}

answer = keeps
""",
    "crates/top/proofs/Lemmas.antt": """use Rattle.low.specs.Limits.{most}

keeps : Leq most most
keeps = same most

drops : Leq most most
drops = same most
""",
}
EDIT = Replaced("src/lib.rt", "store.first()", "store.first() + 1")
BODY = [("src/lib.rt", "read")]
LOW, MID, TOP = (f"crates/{name}/src/lib.rt" for name in ("low", "mid", "top"))
LIMITS, ORDER = "crates/low/specs/Limits.antt", "crates/low/specs/Order.antt"
LEMMAS, ANSWERS = "crates/top/proofs/Lemmas.antt", "crates/top/proofs/read/Answers.antt"

# What is changed, in which file, from what to what.
STALE = {
    "the function's own clause": (TOP, "within { IsTrue (is_within result) }", "within { ⊤ }"),
    "the function's body": (TOP, "if found < MOST", "if found <= MOST"),
    "a clause of what it calls": (
        MID,
        "first(&self) -> u32\n        ensures within",
        "first(&self) -> u32\n        ensures kept",
    ),
    "a type that it reaches": (MID, "items: Vec<u32>", "items: Vec<u64>"),
    "a constant": (LOW, "u32 = 100", "u32 = 101"),
    "a definition": (ORDER, "le a most", "lt a most"),
    "a definition two crates below, by another": (LIMITS, "most = 100", "most = 99"),
    "its proof": (ANSWERS, "answer = keeps", "answer = keeps _"),
    "a lemma that its proof cites": (LEMMAS, "keeps = same most", "keeps = same 1"),
    "the tactics of the crate": (TOP, "#![tactic(auto)]", "#![tactic(search)]"),
}
KEPT = {
    "a comment": (MID, "/// A store.", "/// What is stored."),
    "a body of what it calls": (MID, "self.items[0]", "self.items[1]"),
    "a clause of what it doesn't call": (
        MID,
        "last(&self) -> u32\n        ensures within",
        "last(&self) -> u32\n        ensures kept",
    ),
    "another function beside it": (
        TOP,
        "ensures same { result ≡ store.now }",
        "ensures same { ⊤ }",
    ),
    "a type that it doesn't reach": (MID, "left: u32", "left: u64"),
    "a definition that nothing names": (LIMITS, "other = 1", "other = 2"),
    "a lemma that its proof doesn't cite": (LEMMAS, "drops = same most", "drops = same 1"),
    "a comment at the end of a line of code": (
        TOP,
        "store.first();",
        "store.first(); // it's read",
    ),
    "a comment in a definition": (ORDER, "le a most", "-- which\n    le a most -- it's least"),
    "a line break in a definition": (ORDER, "is_within a = le a", "is_within a =\n    le a\n     "),
    "a line break in the head of a definition": (
        ORDER,
        "is_within a = ",
        "is_within\n    a =\n    ",
    ),
    "a line break in a proof": (LEMMAS, "keeps = same most", "keeps =\n    same\n    most"),
    "a line break in its own clause": (
        TOP,
        "fn read(store: &Store)",
        "fn read(\n    store: &Store,\n)",
    ),
    "a line break in a clause of what it calls": (
        MID,
        "first(&self) -> u32\n        ensures within {",
        "first(\n        &self,\n    ) -> u32\n        ensures within\n            {",
    ),
    "the name of an argument": (ORDER, "is_within a = le a most", "is_within one = le one most"),
    "a function of a crate below that isn't called": (
        LOW,
        "value { result ≡ most }",
        "value { ⊤ }",
    ),
}


def laid(folder: Path, files: Mapping[str, str] = FILES) -> Path:
    """Write a checkout, and return its folder."""
    for name, text in files.items():
        path = folder / name
        path.parent.mkdir(parents=True, exist_ok=True)
        path.write_text(text, encoding="utf-8")
    return folder


def sum_of(top: Path, *, logic: str = LOGIC, edit: Replaced = EDIT, alone: bool = False) -> str:
    """Return the sum of the edit of `read`."""
    return Sums(top, logic).sum_of("top", [edit], [] if alone else BODY)


def changed(name: str, old: str, new: str) -> dict[str, str]:
    """Return the checkout's files with one text changed, which stands there once."""
    assert FILES[name].count(old) == 1, f"{old} stands {FILES[name].count(old)} times in {name}"
    return FILES | {name: FILES[name].replace(old, new)}


@pytest.mark.parametrize("what", STALE)
def test_what_the_answer_rests_on_makes_the_record_stale(what: str, tmp_path: Path) -> None:
    before = sum_of(laid(tmp_path / "before"))
    after = sum_of(laid(tmp_path / "after", changed(*STALE[what])))
    assert before != after, f"{what} changed, and the record stays"


@pytest.mark.parametrize("what", KEPT)
def test_what_it_does_not_rest_on_leaves_the_record(what: str, tmp_path: Path) -> None:
    before = sum_of(laid(tmp_path / "before"))
    after = sum_of(laid(tmp_path / "after", changed(*KEPT[what])))
    assert before == after, f"{what} changed, and the record is stale"


def test_the_logic_and_the_edit_count(tmp_path: Path) -> None:
    top = laid(tmp_path)
    other = Replaced(EDIT.file, EDIT.old, "store.first() + 2")
    assert sum_of(top) != sum_of(top, logic="logic 2"), "another kit, and the record stays"
    assert sum_of(top) != sum_of(top, edit=other), "another edit, and the record stays"


def test_a_moved_definition_leaves_the_record(tmp_path: Path) -> None:
    moved = dict(FILES)
    moved["crates/low/specs/Bounds.antt"] = moved.pop(LIMITS)
    moved = {name: text.replace("specs.Limits", "specs.Bounds") for name, text in moved.items()}
    before = sum_of(laid(tmp_path / "before"))
    assert before == sum_of(laid(tmp_path / "after", moved)), "a definition moved to another file"


# Texts that differ by white space and comments alone, as code (True) or as definitions.
SAME = [
    (True, "f(a, b)", "f(\n    a, // the first\n    b,\n)"),
    (True, "Row { a: 1 }", "Row {\n    a: 1,\n}"),
    (True, "rows.iter().count()", "rows\n    .iter()\n    .count()"),
    (True, "let a = '\"'; // \"", "let a = '\"';"),
    (True, 'f("a", "b // c")', 'f(\n    "a",\n    "b // c",\n)'),
    (True, "/* a \" */ f::<'a>(x)", "f::<'a>(x)"),
    (False, "f a = g (h a)", "f a = -- the sum\n    g\n        (h a)"),
    (False, "record R where\n  a : N\n  b : N", "record R where\n    a :\n      N\n\n    b : N"),
]
# Texts that differ by more, though little seems to.
OTHER = [
    (True, 'f("a  b")', 'f("a b")'),
    (True, 'f("a // b")', 'f("a // c")'),
    (True, 'f("a\n  b")', 'f("a\n b")'),
    (True, "f(b' ')", "f(b'\t')"),
    (True, 'f(r#"a" // b"#)', 'f(r#"a" // c"#)'),
    (True, "a < = b", "a <= b"),
    (True, "(a,)", "(a)"),
    (True, "(\n    a,\n)", "(a)"),
    (True, "m!(,)", "m!()"),
    (True, "ensures { a-b }", "ensures { a - b }"),
    (False, "f a-b", "f a - b"),
    (False, 'f "a -- b"', 'f "a -- c"'),
    (False, "f a b\n", "f a\nb\n"),
    (False, "a where\n  b c", "a where\n  b\n  c"),
    (False, "a where\n  b where\n    c\n    d", "a where\n  b where\n    c\n  d"),
    (False, "a where b\n        c", "a where b\n         c"),
]


def counted(text: str, is_code: bool) -> str:
    """Return what counts of a text."""
    return tokens_of(without_comments(text, is_code), is_code, re.compile("(?!)"))


@pytest.mark.parametrize(("is_code", "one", "other"), SAME)
def test_white_space_and_comments_do_not_count(is_code: bool, one: str, other: str) -> None:
    assert counted(one, is_code) == counted(other, is_code), f"{one} isn't {other}"


@pytest.mark.parametrize(("is_code", "one", "other"), OTHER)
def test_strings_and_what_the_layout_says_count(is_code: bool, one: str, other: str) -> None:
    assert counted(one, is_code) != counted(other, is_code), f"{one} is {other}"


@pytest.mark.parametrize("called", ["doubled(found)", "least!(found)"])
def test_what_is_computed_from_counts_with_its_body(called: str, tmp_path: Path) -> None:
    uses = changed(TOP, "if found < MOST", f"if {called} < MOST")
    uses[TOP] = uses[TOP].replace("use low::MOST;", "use low::{doubled, MOST};\nuse mid::least;")
    other = dict(uses)
    other[LOW] = other[LOW].replace("a * 2", "a * 3")
    other[MID] = other[MID].replace("$a.min(MOST)", "$a.max(MOST)")
    before = sum_of(laid(tmp_path / "before", uses))
    assert before != sum_of(laid(tmp_path / "after", other)), f"the body of {called} changed"


@pytest.mark.parametrize(
    "what", ["another function beside it", "a lemma that its proof doesn't cite"]
)
def test_an_edit_of_a_contract_rests_on_its_whole_crate(what: str, tmp_path: Path) -> None:
    before = sum_of(laid(tmp_path / "before"), alone=True)
    after = sum_of(laid(tmp_path / "after", changed(*KEPT[what])), alone=True)
    assert before != after, f"{what} changed, and the record of an edit of a contract stays"


# Two functions that C calls, after one that it doesn't.
EXPORTS = """fn found(place: u32) -> u8
    ensures { result ≡ 0 }
{
    DONE
}

/// Writes what is at a place.
#[unsafe(no_mangle)]
pub extern "C" fn read(place: u32, shown: &mut u32) -> u8
    ensures shows { shown.new ≡ place }
{
    *shown = place;
    found(place)
}

#[unsafe(no_mangle)]
pub unsafe extern "C" fn freed(place: u32) -> u8
{
    found(place + 1)
}
"""


@pytest.mark.parametrize(
    "old, name",
    [("    DONE", "found"), ("*shown = place;", "read"), ("found(place + 1)", "freed")],
)
def test_an_edit_of_what_c_calls_is_of_that_function(old: str, name: str, tmp_path: Path) -> None:
    folder = laid(
        tmp_path, {"src/looks.rt": EXPORTS, "it.edit": f"file: src/looks.rt\nold: {old}\nnew: 1"}
    )
    edit = Sources(str(folder)).edit(str(folder / "it.edit"))
    assert edit.functions == {Function("src/looks.rt", name)}, f"{old} is in the body of {name}"
    assert not edit.alone, f"{old} is in a body"


def test_what_c_calls_is_read_without_its_body(tmp_path: Path) -> None:
    before = {**FILES, TOP: FILES[TOP].replace("pub fn read", 'pub extern "C" fn read')}
    body = {**before, TOP: before[TOP].replace("if found < MOST", "if found <= MOST")}
    clause = {**before, TOP: before[TOP].replace("IsTrue (is_within result)", "⊤")}
    sums = [
        sum_of(laid(tmp_path / name, it))
        for name, it in (("a", before), ("b", body), ("c", clause))
    ]
    assert len(set(sums)) == 3, "an export's body or clause changed, and the record stays"
