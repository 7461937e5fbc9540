"""With which settings a report was made, as it shows them itself: rounds, gap, sweeps and tests."""

from __future__ import annotations

from plantbal.program import RunSettings
from plantbal.report.output import Output, parse_report
from plantbal.schema import schema

_DIGITS = 10  # of a number that can be one of rounds
_HEAD = 7  # cells of the row that begins a report: the last two are its gap and its sweeps


def rounds_shown(output: Output) -> int:
    """Return the fewest rounds with which the program writes an output byte for byte.

    More may have been allowed: an elimination that ended by itself is the same with more of them.

    Parameters
    ----------
    output : Output
        The output.

    Returns
    -------
    int
        The rounds; 0 if nothing was to be taken out.
    """
    fewest, verdict = 0, ""
    for row in output.rows:
        if row["row"] == "global":
            verdict = row["verdict"]
        elif row["row"] == "stop":
            text = row["rounds"]
            taken = int(text) if text.isdecimal() and len(text) < _DIGITS else 0
            # A round that is rejected, with no suspect left to take, had one more allowed.
            is_left = verdict == "reject" and row["reason"] != "spent"
            fewest = max(fewest, taken + is_left, 1)
    return min(fewest, schema().limits["most_rounds"])


def rounds_in(text: str, source: str) -> int:
    """Return the fewest rounds with which the program writes a text; 0 if it is empty.

    Parameters
    ----------
    text : str
        What the program wrote, as CSV.
    source : str
        What it is called in what is said.
    """
    # without such a row it needn't be read
    return rounds_shown(parse_report(text, source)) if "\nstop," in text else 0


def settings_in(text: str, source: str) -> RunSettings:
    """Return the settings with which the program writes a text, with its fewest rounds.

    Parameters
    ----------
    text : str
        What the program wrote, as CSV.
    source : str
        What it is called in what is said.

    Returns
    -------
    RunSettings
        None in all of them if it has no report, which would show them.
    """
    begin = text.find("report,") if text.startswith("report,") else text.find("\nreport,") + 1
    cells = (
        text[begin : text.find("\n", begin)].split(",")
        if text[begin:].startswith("report,")
        else []
    )
    if len(cells) != _HEAD or not (cells[-1].isdecimal() and cells[-2].isdecimal()):
        return RunSettings()
    tests = "\nglobal," in text
    return RunSettings(tests, rounds_in(text, source), int(cells[-2]), int(cells[-1]))
