"""What `.ci/documents` makes and checks: what documents say and the sources don't is refused."""

from __future__ import annotations

from collections.abc import Callable

import pytest

from gate.documentation import (
    answers,
    chapters,
    checks,
    citations,
    forms,
    links,
    plain,
    rust,
    sizes,
    statement,
)
from gate.documentation.command import main
from gate.documentation.sources import Sources, imports

LIMITS = "crates/pb_limits/src/lib.rt"
ARCHITECTURE = "docs/ARCHITECTURE.md"
Check = Callable[[Sources], list[str]]
SAME = Sources()


def with_all(more: list[tuple[str, str]]) -> Sources:
    """Sources in which files have more at their ends."""
    texts: dict[str, str] = {}
    for path, one in more:
        texts[path] = f"{texts.get(path, SAME.text(path))}\n{one}\n"
    return Sources(texts)


def test_documents_say_what_the_sources_say() -> None:
    assert checks.complaints(SAME) == []


def test_words_of_the_command(capsys: pytest.CaptureFixture[str]) -> None:
    assert (main([]), main(["list"]), main(["list", "nothing"])) == (2, 2, 2)
    assert ".ci/documents write" in capsys.readouterr().err
    assert main(["list", "unreachable_places"]) == 0
    assert capsys.readouterr().out.count("unreachable!(") == len(forms.unreachable(SAME))


# Something more in a document, and what is said of it.
CITED = [
    (ARCHITECTURE, "In `crates/pb_limits/src/nowhere.rt`.", "crates/pb_limits/src/nowhere.rt"),
    (ARCHITECTURE, "In `specs/Nowhere.antt`.", "specs/Nowhere.antt"),
    ("docs/GUIDE.md", "See `examples/nowhere.csv`.", "examples/nowhere.csv"),
    ("docs/DECISIONS.md", "So does `no_such_call`.", "no_such_call"),
    ("docs/DECISIONS.md", "So does `pb_limits::NoSuchType`.", "NoSuchType"),
    ("docs/DEFINITIONS.md", "It is `nosuch`.", "nosuch"),
    ("docs/FORMAT.md", "| `no_such_file` | nothing |", "conformance/no_such_file.in"),
    # words of formats and commands, and files of users, are no names of the sources
    (ARCHITECTURE, "`--gap`, `./plantbal run`, `unit,U`, `crates/NAME/src`, `out/`, `Other`", ""),
    (ARCHITECTURE, "`std::process::Nothing`, `csv.specs.Nothing`", ""),
    ("docs/GUIDE.md", "`may.csv`, `no_such_name`", ""),
]


def test_what_is_cited_is_there() -> None:
    found = citations.missing(with_all([(path, more) for path, more, _ in CITED]))
    wanted = [(path, said) for path, _, said in CITED if said]
    assert len(found) == len(wanted), found
    for path, said in wanted:
        assert any(one.startswith(path) and said in one for one in found), (said, found)


# Something more in a document, the check that looks at it, and what is said of it.
CHECKED: list[tuple[str, str, Check, str]] = [
    ("docs/ASSURANCE.md", "| `pb_gap`, `no_edit` | nothing |", citations.edits, "no_edit"),
    ("docs/GUIDE.md", "    reading,no,A,2024-05-01,1,1", citations.rows_of_examples, "reading,no"),
    ("docs/GUIDE.md", "[to](NOWHERE.md)", links.complaints, "NOWHERE.md leads to no file"),
    ("docs/GUIDE.md", "[to](AUDIT.md#no)", links.complaints, "AUDIT.md#no leads to no heading"),
    ("README.md", "![it](docs/no.png)", links.complaints, "docs/no.png leads to no file"),
    ("docs/STATEMENT.md", "", checks.stale, "docs/STATEMENT.md is stale"),
]


@pytest.mark.parametrize("path, more, check, said", CHECKED, ids=[case[3] for case in CHECKED])
def test_what_is_otherwise_is_told(path: str, more: str, check: Check, said: str) -> None:
    found = check(with_all([(path, more)]))
    assert len(found) == 1 and found[0].startswith(path) and said in found[0], found


# A function of each form.
FORMED = {
    "laws_called_in_bodies": "fn cites(a: u32) -> u32 {\n    some_law();\n    twice(a)\n}",
    "calls_for_their_clause": "fn makes(a: u32) -> u32 {\n    let _b = twice(a);\n    twice(a)\n}",
    "unused_parameters": "fn takes(a: u32, _b: u32) -> u32 {\n    twice(a)\n}",
    "unreachable_places": "fn reaches(a: u32) -> u32 {\n    unreachable!()\n}",
    "functions_of_one_operator": "fn product(a: u32, b: u32) -> u32 {\n    a * b\n}",
    "out_of_memory_where_no_failure_was_caught": "fn gives_up(a: u32) -> Result<u32, AllocError> {\n"
    "    if a > 50 {\n        return Err(AllocError);\n    }\n    twice(a)\n}",
    "out_of_memory_after_a_caught_failure": "fn hands_on(a: u32) -> Result<u32, AllocError> {\n"
    "    match half(a) {\n        Ok(b) => Ok(b),\n        Err(Half::NoMemory) => Err(AllocError),\n    }\n}",
}
# A law that cites laws, a trait's parameter, a value thrown away, and an operator over a field.
UNFORMED = (
    "pub fn one_law() {\n    other_law();\n    Type::third_law();\n}",
    "impl From<A> for B {\n    fn from(_a: A) -> B {\n        B::new()\n    }\n}",
    "fn two(a: u32) {\n    let _ = twice(a);\n}",
    "fn three(a: &A) -> u32 {\n    a.b + 1\n}",
)


def test_forms_are_counted() -> None:
    functions = "\n\n".join([*FORMED.values(), *UNFORMED])
    before, after = SAME, with_all([(LIMITS, functions)])
    for form in FORMED:
        assert len(forms.FORMS[form](after)) == len(forms.FORMS[form](before)) + 1, form


def test_words_that_style_rules_out() -> None:
    """Each word is found where users read, and not where it is quoted or typed."""
    said = [
        ("docs/GUIDE.md", "It is no figure, and stands in line 5, as is told. `It lacks one.`"),
        ("README.md", "    a reason is wanted, and none came"),
        ("packaging/plantbal.control", " It is behind it, for want of a name."),
    ]
    before, after = plain.ruled_out(SAME), plain.ruled_out(with_all(said))
    new = [one.partition(":")[0] for one in after if one not in before]
    assert new == ["docs/GUIDE.md"] * 3 + ["packaging/plantbal.control"] * 2, after


def test_numbers_of_forms_only_fall() -> None:
    text, name = SAME.text(forms.AT_MOST), "unreachable_places"
    most = forms.at_most(SAME)[name]
    there = len(forms.unreachable(SAME))
    few, many = (text.replace(f"{name} {most}", f"{name} {it}") for it in (there - 1, there + 1))
    fewer, more = Sources({forms.AT_MOST: few}), Sources({forms.AT_MOST: many})
    assert any(one.startswith(f"{name}: {there}, ") for one in forms.complaints(fewer))
    assert forms.document(fewer) == few
    assert forms.complaints(more) == []
    assert f"\n{name} {there}\n" in forms.document(more)


def all_pages(sources: Sources) -> str:
    """The pages of what must be believed, one after another."""
    return "\n".join(statement.documents(sources).values())


def test_modules_by_another_name_are_followed() -> None:
    """A definition that is cited through a module's name is on the page."""
    path = "crates/pb_cli/specs/Run.antt"
    text = SAME.text(path)
    line = next(one for one in text.splitlines() if "pb_limits.specs.Limits" in one)
    other = text.replace(line, "use Rattle.pb_limits.specs.Limits as limits")
    page = all_pages(Sources({path: other.replace("most_bytes", "limits.most_bytes")}))
    assert "\nmost_bytes = " in page
    assert "`limits.` comes before `pb_limits/specs/Limits.antt`" in page


def test_imports() -> None:
    text = "use Rattle.a.specs.B.{one, two as three}\n    ghost use Rattle.a.specs.C as c;\n"
    found = imports(text)
    assert found.home("three") == ("Rattle.a.specs.B", "two")
    assert found.home("c.four") == ("Rattle.a.specs.C", "four")
    assert found.home("one.field") == ("Rattle.a.specs.B", "one")
    assert found.home("four") is None


def test_page_has_the_ends_and_the_laws() -> None:
    page = all_pages(SAME)
    for shown in ("trait Source {", "trait Sink {", "Model for StdSource", "Model for Words {"):
        assert shown in page
    for law in ("OwnReportsLaw", "EditedFileLaw", "DecidedLaw"):
        assert f"ensures {{ {law} }}" in page and f"\n{law} =" in page
    assert "self.reader" not in page


def test_names_of_two_files() -> None:
    path = "crates/pb_limits/specs/Limits.antt"
    twice = with_all([(path, "-- a second one\nabbrev pub is_name : ℕ\nis_name = 1\n")])
    new = [one for one in forms.repeated_names(twice) if one.startswith("is_name:")]
    assert len(new) == 1 and "pb_limits/specs/Limits.antt" in new[0]


def test_answers_that_nothing_reaches() -> None:
    """A public call that may be out of memory and that no test makes is in the list."""
    path = "crates/pb_limits/src/more.rt"
    call = "pub fn more(a: u32) -> Result<Option<u32>, AllocError> {\n    twice(a)\n}\n"
    found = Sources({path: call, LIMITS: f"{SAME.text(LIMITS)}\npub use more::more;\n"})
    found.paths.append(path)
    new = set(answers.unreached(found)) - set(answers.unreached(SAME))
    assert new == {"pb_limits::more: Ok(Some)", "pb_limits::more: Ok(None)"}


def test_each_call_has_the_size_up_to_which_it_was_seen() -> None:
    """Each public call that may be out of memory has a line, of places that are there."""
    lines = SAME.text(sizes.SIZES)
    places = "costs no_kind no_cases:3 block_cases:many"
    wrong = lines.replace("pb_advise::advise costs", f"pb_advise::no_call {places}")
    found = sizes.complaints(Sources({sizes.SIZES: wrong}))
    assert found == [
        f"{sizes.SIZES}: pb_advise::advise has no line",
        f"{sizes.SIZES}: pb_advise::no_call is no public call that may be out of memory",
        f"{sizes.SIZES}: pb_advise::no_call: no size is known of: no_kind no_cases:3 block_cases:many",
    ], "a call without a line, a line without a call, and places that aren't there"
    shown = sizes.column(SAME)
    assert (
        shown["pb_elim::study"] == "`study` 4,000"
    ), "the studies that the library makes of arrays"
    assert shown["pb_rows::Rows::push"] == "`book_cases` 1,610", "a program of cases"


CODE = """
impl<T: Copy> List<T> {
    /// Adds.
    pub fn add(&mut self, one: (u8, T), _two: &[T]) -> Result<(), Full>
        ensures { IfOk result (λ a. record {
          x = a;
        }) }
    {
        self.put("a, b", one) // put {
    }
}

pub fn one_law()
    ensures { OneLaw }
{}
"""


def test_functions_of_code() -> None:
    add, law = rust.functions_in("crates/pb_x/src/list.rt", CODE)
    assert (add.called, add.line, add.public, add.crate) == ("List::add", 4, True, "pb_x")
    assert (add.gives, add.takes_self) == ("Result<(), Full>", True)
    assert add.parameters == [("one", "(u8, T)"), ("_two", "&[T]")]
    assert add.body is not None and add.body.strip() == 'self.put("", one)'
    assert (law.called, law.contract.strip(), law.body) == ("one_law", "ensures { OneLaw }", "")


def chapters_with(old: str, new: str) -> Sources:
    """Sources in which the list of chapters has another text in one place."""
    text = SAME.text(chapters.CHAPTERS)
    assert text.count(old) == 1
    return Sources({chapters.CHAPTERS: text.replace(old, new)})


def test_pages_have_each_definition_once_and_the_core_first() -> None:
    pages = statement.documents(SAME)
    found = statement.page_of(SAME).chapters
    core = pages[statement.STATEMENT]
    assert [one.path for one in found[:2]] == [statement.STATEMENT] * 2
    places = [
        core.index(f"\n## {head}")
        for head in ("1. ", "2. ", "You may stop here", statement.HEART_TITLE)
    ]
    assert places == sorted(places) and len(found) == 10
    assert set(pages) == {one.path for one in found}
    whole = "\n".join(pages.values())
    for chapter in found:
        opening = SAME.text(f"{chapters.OPENINGS}/{chapter.opening}.md").strip()
        assert opening in pages[chapter.path] and "**By hand.**" in opening
        for _, one in chapter.definitions:
            assert whole.count(f"\n{one.lines[0]}\n") >= 1 and one.text in whole
    named = [(spec.path, one.name) for chapter in found for spec, one in chapter.definitions]
    assert len(named) == len(set(named))


@pytest.mark.parametrize(
    "old, new, said",
    [
        (
            " IsCheapest",
            " IsCheap",
            "begins a chapter with what isn't there: IsCheap of pb_advise/Advice",
        ),
        (
            "pb_check/Laws IsSound",
            "pb_check/Nowhere IsSound",
            "what isn't there: IsSound of pb_check/Nowhere",
        ),
        (
            "    pb_elim/Laws DecidedLaw\n",
            "    pb_elim/Laws DecidedLaw\n    pb_arrays/ShownStream class_number\n",
            "don't reach the same: .* of crates/pb_arrays/specs/",
        ),
        ("    pb_advise/Advice IsAdvice IsCheapest\n", "", "each chapter has roots"),
    ],
)
def test_a_wrong_list_of_chapters_is_told(old: str, new: str, said: str) -> None:
    with pytest.raises(SystemExit, match=said):
        statement.page_of(chapters_with(old, new))
