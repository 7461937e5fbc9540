"""What can be wrong in a plant's workbook: each cause with its sentence."""

from __future__ import annotations

from enum import unique

from plantbal.causes import Causes


@unique
class SheetCause(Causes):
    """Why a cell, a row, a column or a sheet of a workbook can't be read as it stands."""

    # cells of figures
    NO_VALUE = "its formula has no value"
    PERCENTAGE = "{text} is a percentage"
    SHOWN_IN_THOUSANDS = "{text} is in this cell, which shows {shown}"
    DATE_FOR_FIGURE = "{text} is a date"
    NO_FIGURE = "{text!r} isn't a number"
    FORMULA_FAILS = "{text}: the formula of this cell fails"
    POINT_OR_THOUSANDS = "{text!r} is a decimal number in one country, and thousands in another"
    MARK_OF_OTHER_LOCALE = "{text!r} has {mark}{locale}"
    BELOW_0 = "{text} is below 0"
    NO_UNIT_OF_KIND = "{text!r} isn't a unit"
    NO_DENSITY_OF_VOLUME = "{text} {unit} have no density"
    NOT_A_DENSITY = "{text} kg/m3 isn't a density"
    LEVEL_WITHOUT_UNIT = "the level {text} has decimals and no unit: {readings}?"
    LEVEL_LIKE_METRES = "the level {text} has decimals, and its unit is mm: {text} m?"
    LEVELS_WITHOUT_UNIT = "the level {text} has decimals, and its column has no unit"
    GRADE_WITHOUT_UNIT = "the grade {text} has no unit"
    NOT_AN_ERROR = "{text!r} isn't an error with its unit"
    ERROR_TOO_WIDE = "the error of {text} is {error}, and a row bears at most {most}"
    # cells of days
    NO_DAY = "there is no day"
    NOT_A_DAY = "{text!r} isn't a day"
    TIME_OF_DAY = "{text} has a time of the day, {time}"
    YEAR_FIRST_OR_LAST = "{text!r} may have its year first or last"
    TWO_DAYS = "{text!r} can be read as two days"
    DAYS_OUT_OF_ORDER = "read as {locale}, days from {text} on don't follow each other"
    NOT_A_MONTH = "{text!r} isn't a month"
    MONTH_AND_DAYS = "this row has a month and days"
    NO_FIRST_DAY = "there is no day before the last one"
    # sheets, heads, columns and rows
    NO_SHEET_OF_NAME = "there is no sheet of the kind {name!r}"
    SHEET_NOT_READ = "the sheet has the heads of the sheet {kind}, and isn't read"
    NO_COLUMN = "there is no column {head!r}"
    NO_COLUMN_HERE = "there is no column {head!r} here"
    TWO_COLUMNS = "there are two columns {head!r}"
    COLUMN_NOT_READ = "{column} isn't read, but it has {content}"
    ROW_NOT_READ = "this row isn't read, but it has figures or units"
    NO_HEAD = "this column has no head"
    UNIT_IN_HEADS_TOO = "{head} is in {unit} by its heads, and there is a column unit"
    UNIT_OF_HEAD_DIFFERS = "{unit} is here, and its head has {other}"
    NO_COLUMN_BESIDE = "no column of {what} beside those of {names}"
    SEVERAL_COLUMNS_BESIDE = "several columns of {what} beside those of {names}"
    # settings
    NO_SETTING = "there is no setting {text!r}"
    NO_ZONE = "there is no zone {text!r}"
    NOT_A_CLOCK = "{text!r} isn't a time of the day"
    NO_END_OF_HOUR = "{text!r} isn't an end of an hour"
    MISSING_HOURS = "an hour without a figure is 0 or a fault"
    NOT_A_LEVEL_OF_TEST = "{text!r} isn't a level of a test"
    COUNTER_UNTOLD = "a counter needs a figure above 0, and a tag"
    # the plant
    NO_KIND_OF_STREAM = "{text!r} isn't a kind of stream"
    METERED_OR_BATCH = "{name} has tickets and readings, and no kind: batch or metered?"
    METER_WITHOUT_ERROR = "the meter {name} has no error"
    TAG_TWICE = "{tag} is the tag of {name} too ({other})"
    PLAIN_BASE = "a plain stream has no base"
    BASE_IN_PERCENT = "a base has no figure to be a part of"
    BASE_TOO_WIDE = "a {kind} has a systematic error of at most {most}"
    BASE_OF_TWO_PERIODS = (
        "a base of {text} is shared over the days of a period, and from {first} to {last} days are "
        "in two periods"
    )
    TANK_ERROR_IN_PERCENT = "a tank's error in percent says nothing of a level"
    DEAD_END = "{name} has nothing {lacks}, so its flows would be 0"
    NO_TEST = "{text!r} isn't a test"
    NOT_A_CRITICAL_VALUE = "{text} isn't a critical value: no test would reject"
    NO_TAG = "there is no tag"
    TAG_UNKNOWN = "there is no tag or stream {text!r}"
    NO_STREAM = "there is no stream"
    NO_PERIOD = "there is no period"
    # readings and estimates
    READING_WITHOUT_ERROR = "the meter of {name} has no error"
    ZERO_WITHOUT_ERROR = "a reading of 0 has no error in percent"
    NO_TAGS = "no row has a tag of the sheet streams"
    NO_COLUMN_OF_STREAM = "there is no column for {stream}"
    COLUMN_TWICE = "{stream} has a column already ({other})"
    UNIT_OF_STREAM_DIFFERS = "{text} is here, but the sheet streams has {unit}"
    DAY_TWICE = "{day} is already given above ({other})"
    DAY_TWICE_ACROSS = "{day} appears twice"
    FIGURE_TWICE = "{stream} has a figure of {day} already ({other})"
    GUESS_TOO_LONG = "this guess goes from {first} to {last}"
    # hours, stamps and counters
    CLOCKS_FORWARD = "{at} isn't there: clocks are put forward then in {zone}"
    STAMP_TWICE = "{at} appears twice"
    ZONE_UNTOLD = "{text} has a zone, and the plant's isn't given"
    DAY_BEGINS_UNTOLD = (
        "{text} has a time of the day, {time}, as all stamps have: does the plant's day begin then?"
    )
    HOURS_NOT_WHOLE_DAYS = (
        "from {first} to {last} aren't whole days: is a stamp the beginning or the end of its hour?"
    )
    NO_FULL_HOUR = "this isn't a full hour of the day"
    HOURS_LACK = (
        "{name} has no figure for {lacks} of the {hours} hours of {day}: those from {times}"
    )
    HEAD_NOT_NEXT_HOUR = "this head isn't the next hour of one day"
    HOUR_TWICE = (
        "{at} appears twice in {zone}, since clocks are put back, and there is one column for it"
    )
    NO_HOUR_OF_DAY = "{day} has {hours} hours, and this is a figure of one more"
    STAMPS_OUT_OF_ORDER = "the stamps don't follow each other"
    COUNTER_GAP = "the counter {name} has no figure at {at}, so what went on {day} isn't known"
    COUNTER_ABOVE = "the counter {name} begins again at {modulus:f}, and this is {text}"
    COUNTER_BACK = "the counter {name} went back, or on by more than half of {modulus:f}"
    COUNTER_OF_DAY = "was this counter read at the beginning or the end of the day?"
    UNITS_OF_TAG_DIFFER = "this tag has figures in {first} and in {other}"
    # dips and tickets
    NO_TANK = "there is no tank {name!r}"
    DIP_TWICE = "{name} has a dip of {day} already ({other})"
    DIP_WITHOUT_DENSITY = "the dip has no density"
    DIP_WITHOUT_ERROR = "the dip has no error"
    TICKET_WITHOUT_ERROR = "the ticket has no error"
    # moistures and assays
    MOISTURE_OF_TICKET_TWICE = "the ticket {name} has a moisture already"
    MOISTURE_TWICE = "{stream} has a moisture of these days already ({other})"
    NOT_A_MOISTURE = "{text} isn't a moisture"
    NO_TONNES_OF_SHIFT = "{text} t belong to no shift"
    NO_MOISTURE = "{text} {unit} of {stream} have no moisture {of}"
    DRIES_NOTHING = "no figure of {name} is in {unit}, so its moistures apply to nothing"
    NOT_A_GRADE = "{text} isn't a grade"
    GRADE_TOO_FINE = (
        "{text} with the error {error} would become {ppm:,} ppm with an error of {sd:,} ppm, since "
        "both are whole"
    )
    # products, factors, gauges, densities, temperatures
    NO_PRODUCT = "there is no product {name!r}"
    NOT_A_FACTOR = "{factor} isn't a factor"
    FACTORS_OUT_OF_ORDER = "{temperature} °C of {name} come after {before} °C"
    WATERS_OUT_OF_ORDER = "{mm} mm of {name} don't come after {before} mm"
    ROOF_WITHOUT_ERROR = "the roof has no error"
    NO_CRITICAL_ZONE = "there is no critical zone of the roof"
    DENSITY_MISSING = "there is no density"
    DENSITY_WITHOUT_ERROR = "the density has no error"
    DATED_TWICE = "{name} has one of these days already ({other})"
    NO_SUCH_WORD = "{text!r} is no {head}"
    TEMPERATURE_WITHOUT_ERROR = "the temperature has no error"
    OWN_TEMPERATURE_WITHOUT_ERROR = "the temperature of {name} has no error"
    NOT_A_TEMPERATURE = "{text} isn't a temperature of a tank"
    SEVERAL_OF_TICKET = "{text} is of days with several densities or temperatures"
    WATER_WITHOUT_ERROR = "the water of {name} has no error"
    OUTSIDE_OF_TABLE = "the table has {ends}, and not {mm} mm"
    # accounts
    NO_NAME_OF_ACCOUNT = "there is no name"
    NO_STREAM_OR_TANK = "there is no stream or tank {name!r}"
    ACCOUNT_TWICE = "{name} has two accounts ({other})"
    KIND_OF_TANK = "{name} is a tank, and its stock isn't a {text}"
    NO_KIND_OF_ACCOUNT = "{text!r} isn't a kind of account"
    TWO_KINDS_OF_ACCOUNT = "{name} is both {kinds}"
    NOT_OF_KIND = "{name} is no {kind}: {why}"
    NOT_SPELT = "this {head} has {count} letters, or some that can't be printed"
    COMPUTED = "a spreadsheet would compute {word!r}"
    NAME_TAKEN = "no {head} can be called {word!r}"
    SPELT_IN_TWO_WAYS = "{word!r} is {was!r} at {where}"
    GROUP_DIFFERS = "{product} is in the group {was!r} at {where}"
    SHARED_BY_ITSELF = "{name} comes in, and can't be shared by what comes in"
    NOT_SHARES = "{text!r} isn't a list of shares"
    SHARE_TWICE = "{name} appears twice"
    SHARES_NOT_WHOLE = "these shares add up to {percent:.10g} %"
    SHARE_OF_0 = "a share of {text!r} is 0"
    UNIT_WITHOUT_DENSITY = "the unit {unit} has no density"
