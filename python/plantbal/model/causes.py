"""Why a row is refused: the code of the program, a reason that is finer, and the answer to a row.

`Cause` is the code that the program writes. `Reason` says which of the rules it was, so that what
is said and done about a refusal never has to look into a sentence. The sentences are made from an
answer by `plantbal.model.words`.
"""

from __future__ import annotations

from collections.abc import Mapping
from dataclasses import dataclass, field
from enum import Enum, IntEnum


# What a rule compared, by names of its own.
Values = Mapping[str, str | int]


class Cause(IntEnum):
    """The code of a refusal, as ``schema.json`` and the program have it."""

    KIND = 1
    FIELDS = 2
    NAME = 3
    NUMBER = 4
    DATE = 5
    UNKNOWN = 6
    DUPLICATE = 7
    ORDER = 8
    MISMATCH = 9
    SEALED = 10
    CLOSED = 11
    RANGE = 12
    FULL = 13

    @property
    def word(self) -> str:
        """The word that stands beside the code in an output."""
        return self.name.lower()

    @property
    def said(self) -> str:
        """The code and its word."""
        return f"{int(self)}, {self.word}"


class Reason(Enum):
    """Which rule refuses a row; the value is its cause and a word of its own."""

    NO_SUCH_KIND = Cause.KIND, "no-such-kind"
    KIND_OF_VERSION_2 = Cause.KIND, "kind-of-version-2"
    NOT_VERSION_2 = Cause.KIND, "not-version-2"
    VERSION_AFTER_ROWS = Cause.KIND, "version-after-rows"
    VERSION_AGAIN = Cause.KIND, "version-again"
    NO_SUCH_WORD = Cause.KIND, "no-such-word"
    FIELD_COUNT = Cause.FIELDS, "field-count"
    SERVICE_OF_VERSION_2 = Cause.FIELDS, "service-of-version-2"
    NO_NAME = Cause.NAME, "no-name"
    NO_REASON = Cause.NAME, "no-reason"
    NO_NUMBER = Cause.NUMBER, "no-number"
    NO_DATE = Cause.DATE, "no-date"
    NAME_UNKNOWN = Cause.UNKNOWN, "name-unknown"
    NAME_OF_OTHER = Cause.UNKNOWN, "name-of-other"
    PERIOD_UNKNOWN = Cause.UNKNOWN, "period-unknown"
    FACT_UNKNOWN = Cause.UNKNOWN, "fact-unknown"
    FACT_STRUCK = Cause.UNKNOWN, "fact-struck"
    ASSAY_UNKNOWN = Cause.UNKNOWN, "assay-unknown"
    STREAM_AND_COMPONENT_SWAPPED = Cause.UNKNOWN, "stream-and-component-swapped"
    PERIOD_AND_COMPONENT_SWAPPED = Cause.UNKNOWN, "period-and-component-swapped"
    NAME_TAKEN = Cause.DUPLICATE, "name-taken"
    PERIOD_TAKEN = Cause.DUPLICATE, "period-taken"
    CRITICAL_TAKEN = Cause.DUPLICATE, "critical-taken"
    COST_TAKEN = Cause.DUPLICATE, "cost-taken"
    ID_TAKEN = Cause.DUPLICATE, "id-taken"
    DAY_TAKEN = Cause.DUPLICATE, "day-taken"
    ASSAY_TAKEN = Cause.DUPLICATE, "assay-taken"
    SERVICE_ORDER = Cause.ORDER, "service-order"
    TABLE_ORDER = Cause.ORDER, "table-order"
    PERIOD_ORDER = Cause.ORDER, "period-order"
    FACT_ORDER = Cause.ORDER, "fact-order"
    WINDOW_ORDER = Cause.ORDER, "window-order"
    SAME_END = Cause.MISMATCH, "same-end"
    BOTH_OUTSIDE = Cause.MISMATCH, "both-outside"
    DAY_SHARED = Cause.MISMATCH, "day-shared"
    MEASURED_ALREADY = Cause.MISMATCH, "measured-already"
    DAY_IN_NO_PERIOD = Cause.MISMATCH, "day-in-no-period"
    FACT_OF_OTHER_KIND = Cause.MISMATCH, "fact-of-other-kind"
    VALUES_OF_OTHER_KIND = Cause.MISMATCH, "values-of-other-kind"
    PLANT_SEALED = Cause.SEALED, "plant-sealed"
    DAYS_SEALED = Cause.SEALED, "days-sealed"
    CLOSED_ALREADY = Cause.CLOSED, "closed-already"
    TOUCHES_CLOSED = Cause.CLOSED, "touches-closed"
    ASSAY_OF_CLOSED = Cause.CLOSED, "assay-of-closed"
    PERIOD_LONG = Cause.RANGE, "period-long"
    TRANSFER_LONG = Cause.RANGE, "transfer-long"
    WINDOW_LONG = Cause.RANGE, "window-long"
    DAY_OUT_OF_SERVICE = Cause.RANGE, "day-out-of-service"
    PERIOD_OUT_OF_SERVICE = Cause.RANGE, "period-out-of-service"
    TABLE_EMPTY = Cause.RANGE, "table-empty"
    LEVEL_OUTSIDE = Cause.RANGE, "level-outside"
    NODES_FULL = Cause.FULL, "nodes-full"
    STREAMS_FULL = Cause.FULL, "streams-full"
    BOUNDARIES_FULL = Cause.FULL, "boundaries-full"
    POINTS_FULL = Cause.FULL, "points-full"
    PERIODS_FULL = Cause.FULL, "periods-full"
    ASSAYS_FULL = Cause.FULL, "assays-full"
    FACTS_FULL = Cause.FULL, "facts-full"
    WINDOW_FULL = Cause.FULL, "window-full"
    # The proved core refuses a row, and none of these rules does so with its code; the cause is
    # then that of the answer.
    CORE_ALONE = Cause.KIND, "core-alone"

    @property
    def cause(self) -> Cause:
        """The code of the program."""
        return self.value[0]

    @property
    def names_field(self) -> bool:
        """Whether its sentence begins with the label of the field at fault."""
        return self in _NAME_FIELD


_NAME_FIELD = (
    Reason.NO_SUCH_WORD,
    Reason.NO_NAME,
    Reason.NO_REASON,
    Reason.NO_NUMBER,
    Reason.NO_DATE,
    Reason.TABLE_ORDER,
    Reason.LEVEL_OUTSIDE,
)


@dataclass(frozen=True, slots=True)
class Refused:
    """The answer to a row that the program refuses.

    Attributes
    ----------
    reason : Reason
        Which rule refuses it.
    column : str
        The column at fault, if a single one is.
    text : str
        What stands there.
    values : Values
        What the rule compared: the name of a closed period, a limit, a count.
    clash : int
        The line of the accepted row that it clashes with; 0 if there is none, or it isn't known.
    core : Cause or None
        The code of the proved core, if it isn't known which rule refuses the row.
    """

    reason: Reason
    column: str = ""
    text: str = ""
    values: Values = field(default_factory=dict)
    clash: int = 0
    core: Cause | None = None

    @property
    def cause(self) -> Cause:
        """The code of the program."""
        return self.reason.cause if self.core is None else self.core
