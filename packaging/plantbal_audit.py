"""Audits bundles and checks reports on a bare Python 3.11: the main file of plantbal-audit.pyz.

    python3 plantbal-audit.pyz BUNDLE             as plantbal-desk audit --no-program
    python3 plantbal-audit.pyz REPORT SESSION
    python3 plantbal-audit.pyz check < report.csv    as checker.py
"""

from __future__ import annotations

import sys


def main() -> None:
    """Do what the words of this process say."""
    if sys.version_info < (3, 11):
        sys.exit(
            "plantbal-audit: this is Python " + sys.version.split()[0] + ", and 3.11 is needed"
        )
    words = sys.argv[1:]
    if words[:1] == ["check"]:
        from plantbal import checker

        sys.argv = [sys.argv[0], *words[1:]]
        sys.exit(checker.main())
    from plantbal import desk

    command = next(each for each in desk.COMMANDS if each.word == "audit")
    named = [] if {"--no-program", "--program", "-h", "--help"} & {*words} else ["--no-program"]
    desk.end(desk.parser_of(command, "plantbal-audit"), [*words, *named])


main()
