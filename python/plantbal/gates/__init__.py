"""What has to be looked at before a period is closed: gates, found in one place, and their words."""

from __future__ import annotations

from plantbal.gates.find import by_report, by_session, stops_of
from plantbal.gates.flows import negative_flows
from plantbal.gates.gate import Gate, Stop, unsaid
from plantbal.gates.words import about, line_of_stop, remedy_of_stop, said_of_stop

__all__ = [
    "Gate",
    "Stop",
    "about",
    "by_report",
    "by_session",
    "line_of_stop",
    "negative_flows",
    "remedy_of_stop",
    "said_of_stop",
    "stops_of",
    "unsaid",
]
