"""What to do in a book, by the commands for it; who keeps it in a browser has other ways to the same."""

from __future__ import annotations

from enum import unique

from plantbal.causes import Causes


@unique
class BookRemedy(Causes):
    """What to do where that is a command, or a word of one."""

    # ---- reports, windows, closes
    OLDER_THAN_FACTS = "changed since its report: plantbal-desk book report {period}"
    REPORT_AND_DIFFERENCE = (
        "{period} is closed, and this changes it: plantbal-desk book report {period}, and then "
        "plantbal-desk book difference {period}"
    )
    MAKE_REPORT = "plantbal-desk book report {period}"
    MAKE_IT_AGAIN = "make it again: plantbal-desk book report {period}"
    LOOK_AT_REPORT = "look at it: plantbal-desk book report {period}"
    MAKE_A_REPORT = "plantbal-desk book report makes it"
    ASK_FOR_WINDOW = "plantbal-desk book window asks for a window"
    CLOSE_ANYWAY = "put that right first, or say why it is closed all the same: {words}"
    POST_ANYWAY = (
        "put that right first, or say why it is posted all the same: plantbal-desk book posted "
        "{period} {words}"
    )
    CLOSE_OR_POST_ANYWAY = "plantbal-desk book close {period}, or use --anyway"
    ANSWER_AT_CLOSE = "give it at each close: --anyway '{gate}=REASON'"
    LIST_QUIETED = "plantbal-desk book quiet lists what is quieted"
    # ---- workbooks and facts
    SAY_WHY = 'say why: --why "typed a digit short"; nothing is booked'
    STRIKE_SINGLE = (
        "is it a part of the workbook? Single facts are struck by plantbal-desk book strike; "
        "--anyway strikes all of them"
    )
    ASSAYS_BEFORE_CLOSE = "enter assays before plantbal-desk book close: take it out"
    DO_BY_COMMAND = "take it out, and type plantbal-desk book {act}"
    ADD_WORKBOOK = "plantbal-desk book add WORKBOOK adds to it"
    # ---- years
    BEGIN_PART = "begin another part of the year: plantbal-desk book next"
    BEGIN_YEAR = "cut it where the year ends, or begin the next: plantbal-desk book next"
    CORRECT_OR_NEXT = "correct the day, or begin the next year: plantbal-desk book next {year}"
    SERVICE_COMES_NEXT = (
        "dates of service and boundaries come with the next year: plantbal-desk book next YEAR "
        "--plant WORKBOOK"
    )
    PLANT_COMES_NEXT = (
        "what is new of the plant comes before the first close, or with the next year: "
        "plantbal-desk book next YEAR --plant WORKBOOK"
    )
    DECLARED_STAYS = (
        "what is declared stays to the end of a year: begin the next one by plantbal-desk book "
        "next YEAR --plant WORKBOOK"
    )
    DECLARED_STAYS_HERE = (
        "what is declared stays to the end of a year; another value comes with plantbal-desk book "
        "next YEAR --plant WORKBOOK"
    )
    FILL_OR_FIRST = "add what lies between to {year} first, or use --first {first}"
    NAME_A_PLACE = "name one as plantbal-desk book status or plant.csv has it"
    # ---- the folder
    ACCEPT_FILE = (
        "{remedy}; if it is to stay as it is: plantbal-desk book accept {file} --why TEXT, which the "
        "journal shows for good"
    )
    SHARE_OR_TRUST = (
        "let its owner do it, or share it with a group that may write to it; if you trust whoever "
        "filled it, set {trusted}={folder} before the command"
    )
    FILE_OR_TRUST = (
        "put the file itself there; if the link is your own, set {trusted}={folder} before the "
        "command"
    )
    HEAD_HAS = "it has 64 hexadecimal digits, as plantbal-desk book head prints them"
    NAME_A_HEAD = "{path}: it names no head of a book: plantbal-desk archive --book names it"
    GO_OR_MAKE = (
        "go to its folder or name it with --book, or make one: plantbal-desk book new 2024 WORKBOOK"
    )
    PUT_BACK_OR_MOVE = (
        "if it is of a book whose journal is lost, put back journal.csv from a backup; otherwise "
        "move it away, or name another folder with --book"
    )
    # ---- approvals
    REJECT_AND_SUBMIT = (
        "reject it (plantbal-desk book reject --head '{head}' --why TEXT), and submit it anew"
    )
