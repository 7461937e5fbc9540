"""Sessions: rows that are accepted or refused by the rules of the program.

A `Session` refuses what the program would refuse, with the same code, so that whatever it writes is
accepted row by row.
"""

from plantbal.model.forms import (
    ASKS,
    FIRST_DAY,
    LAST_DAY,
    LIMITS,
    day_of_number,
    field_fits,
    rows_of_kind,
    rows_of_word,
    whole_number,
)
from plantbal.model.periods import Period, period_days
from plantbal.model.plant import (
    ENV,
    Service,
    days_in_service,
    dip_days,
    in_service,
    is_served,
    most_streams,
    service_of,
)
from plantbal.model.remedies import kind_near
from plantbal.session.builder import Session
from plantbal.session.values import dates_of_service, grade_text, grade_variance

__all__ = [
    "ASKS",
    "ENV",
    "FIRST_DAY",
    "LAST_DAY",
    "LIMITS",
    "Period",
    "Service",
    "Session",
    "dates_of_service",
    "day_of_number",
    "days_in_service",
    "dip_days",
    "field_fits",
    "grade_text",
    "grade_variance",
    "in_service",
    "is_served",
    "kind_near",
    "most_streams",
    "period_days",
    "rows_of_kind",
    "rows_of_word",
    "service_of",
    "whole_number",
]
