"""What the desk says where the package names an option of a command: what the desk itself offers.

A remedy is looked up by its member of an enum. Who has a browser chooses how numbers and dates are
written when a workbook is dropped, and takes a column out of the workbook.
"""

from __future__ import annotations

from collections.abc import Mapping

from plantbal.book.remedies import BookRemedy
from plantbal.causes import Causes
from plantbal.gates.remedies import GateRemedy
from plantbal.lint.remedies import LintRemedy
from plantbal.workbook.remedies import CellRemedy, OptionRemedy

_BY_LEVEL = (
    "write the level of the tests, such as 0.05, into the sheet settings of the plant's workbook"
)
AT_DESK: Mapping[Causes, str] = {
    CellRemedy.USE_LOCALE: "choose {locale} when you drop it, or write it in another way",
    CellRemedy.USE_MISSING: "correct it, or clear the cell if it means that there is none",
    CellRemedy.MONTH_FIRST: "in {locale} the month comes first: choose en_GB when you drop it",
    CellRemedy.DAY_FIRST: "in {locale} the day comes first: write it as 2024-06-30",
    OptionRemedy.OWN_LOCALE: ", and the workbook is read as {locale}",
    OptionRemedy.NAME_LOCALE: "choose how numbers and dates are written when you drop it",
    OptionRemedy.FOUR_DIGITS: (
        "write the year with four digits, or choose how dates are written when you drop it"
    ),
    OptionRemedy.DAY_OR_MONTH: (
        "when you drop it, choose en_GB if the day comes first, en_US if the month does"
    ),
    OptionRemedy.READ_AS: "read as {other} they do: choose {other} when you drop it",
    OptionRemedy.LEAVE_OUT: "take the column out of the workbook",
    OptionRemedy.OR_LEAVE_OUT: "{remedy}, or take the column out of the workbook",
    BookRemedy.OLDER_THAN_FACTS: "changed since its report: make a new one",
    BookRemedy.REPORT_AND_DIFFERENCE: (
        "{period} is closed, and this changes it: make its report, then look at the difference"
    ),
    BookRemedy.MAKE_REPORT: "make its report",
    BookRemedy.MAKE_IT_AGAIN: "make it again",
    BookRemedy.LOOK_AT_REPORT: "look at its report",
    BookRemedy.MAKE_A_REPORT: "make one first",
    BookRemedy.ASK_FOR_WINDOW: "a window is asked for on a page of its own",
    BookRemedy.CLOSE_ANYWAY: "correct it, or say why it is closed anyway",
    BookRemedy.POST_ANYWAY: "correct it, or say why it is handed over anyway",
    BookRemedy.CLOSE_OR_POST_ANYWAY: "close it first",
    BookRemedy.ANSWER_AT_CLOSE: "say why at each close",
    BookRemedy.LIST_QUIETED: "look at the list of quieted rules",
    BookRemedy.SAY_WHY: "say why in a few words; nothing is booked",
    BookRemedy.STRIKE_SINGLE: (
        "is it a part of the workbook? Single facts are struck on their own pages"
    ),
    BookRemedy.ASSAYS_BEFORE_CLOSE: "assays are entered before the close: take it out",
    BookRemedy.DO_BY_COMMAND: (
        "take it out: a fact is amended or struck on its page, and a month closed on its own"
    ),
    BookRemedy.ADD_WORKBOOK: "open that book, and drop the workbook there",
    BookRemedy.BEGIN_PART: "begin another part of the year",
    BookRemedy.BEGIN_YEAR: "cut it where the year ends, or begin the next year",
    BookRemedy.CORRECT_OR_NEXT: "correct the day, or begin the next year",
    BookRemedy.SERVICE_COMES_NEXT: (
        "dates of service and boundaries come with the next year, begun with the plant's new workbook"
    ),
    BookRemedy.PLANT_COMES_NEXT: (
        "what is new of the plant comes before the first close, or with the next year, begun with "
        "the plant's new workbook"
    ),
    BookRemedy.DECLARED_STAYS: (
        "what is declared stays to the end of a year: begin the next one with the plant's new workbook"
    ),
    BookRemedy.DECLARED_STAYS_HERE: (
        "what is declared stays to the end of a year; another value comes with the next one, begun "
        "with the plant's new workbook"
    ),
    BookRemedy.FILL_OR_FIRST: (
        "add what lies between to {year} first, or give {first} as the first day"
    ),
    BookRemedy.NAME_A_PLACE: "name a tank or a stream of the plant",
    BookRemedy.GO_OR_MAKE: "check the folder, or begin a book in it",
    BookRemedy.PUT_BACK_OR_MOVE: (
        "if it is of a book whose journal is lost, put back journal.csv from a backup; otherwise "
        "move it away, or choose another folder"
    ),
    BookRemedy.ACCEPT_FILE: (
        "{remedy}; whoever keeps the book's folder can accept it as it is, which the journal shows "
        "for good"
    ),
    BookRemedy.HEAD_HAS: "it has 64 hexadecimal digits, as the page that tests the book shows them",
    BookRemedy.NAME_A_HEAD: "{path}: it names no head of a book",
    BookRemedy.REJECT_AND_SUBMIT: "reject it, and submit it anew",
    GateRemedy.MORE_SWEEPS: "whoever keeps the book's folder can make its report with more sweeps",
    GateRemedy.SMALLER_GAP: "whoever keeps the book's folder can make its report with a smaller gap",
    GateRemedy.ONE_CRITICAL: _BY_LEVEL,
    GateRemedy.WITH_TESTS: "make its report again",
    LintRemedy.BY_ASSAYS: (
        "assays may determine it; or book what is missing, or measure a stream of its cycle"
    ),
    LintRemedy.WRITE_CRITICAL: _BY_LEVEL,
    LintRemedy.WRITE_ONE_CRITICAL: _BY_LEVEL,
    LintRemedy.WRITE_LACKING: _BY_LEVEL,
    LintRemedy.WRITE_TESTS: _BY_LEVEL,
    LintRemedy.BY_WINDOW: (
        "book the dip; a tank that stood still has the same dip on both days; if nobody dipped it, "
        "a window over {one} and {after} has what it held"
    ),
}
_FORMS = {str(cause.value): text for cause, text in AT_DESK.items()}


def desk_form(english: str) -> str:
    """Return the form that the desk has of a sentence: its own, or the package's."""
    return _FORMS.get(english, english)
