"""What can be wrong in a table of costs of meters."""

from __future__ import annotations

from enum import unique

from plantbal.causes import Causes


@unique
class OfferCause(Causes):
    """Why a row of a table of costs can't be used."""

    NO_NAME = "there is no name of a stream"
    NO_STREAM = "there is no stream {name}"
    NOT_A_STREAM = "{name} is a {kind}, not a stream"
    MEASURED_ALREADY = "{name} is a {kind} stream: it is measured already"
    TWICE = "{name} is already given above"
    NOT_A_COST = "{text} isn't a cost"
