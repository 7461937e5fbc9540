"""The units of a workbook, in grams, cubic metres, millimetres and parts per million."""

from __future__ import annotations

import re
from fractions import Fraction

from plantbal.workbook.remedies import CellRemedy

GRAMS = {
    "t": Fraction(10**6),
    "kt": Fraction(10**9),
    "kg": Fraction(1000),
    "g": Fraction(1),
    "lb": Fraction("453.59237"),
    "klb": Fraction("453592.37"),
}
# In grams with their water in them.
WET = {"wmt": Fraction(10**6)}
# In cubic metres; a barrel has 42 gallons of 231 cubic inches.
VOLUMES = {
    "m3": Fraction(1),
    "L": Fraction(1, 1000),
    "mL": Fraction(1, 10**6),
    "bbl": Fraction("0.158987294928"),
}
DENSITIES = {
    "kg/m3": Fraction(1000),
    "g/m3": Fraction(1),
    "g/L": Fraction(1000),
    "t/m3": Fraction(10**6),
    "kg/L": Fraction(10**6),
    "g/cm3": Fraction(10**6),
    "g/mL": Fraction(10**6),
}
LENGTHS = {"mm": Fraction(1), "cm": Fraction(10), "m": Fraction(1000)}
# In parts per million.
GRADES = {
    "%": Fraction(10_000),
    "ppm": Fraction(1),
    "g/t": Fraction(1),
    "mg/kg": Fraction(1),
    "kg/t": Fraction(1000),
}
# Of temperatures: degrees Celsius alone are read.
TEMPERATURES = ("°C", "°F")
AMOUNTS = GRAMS | VOLUMES | WET
OTHER_WORDS = {
    "tonne": "t",
    "tonnes": "t",
    "to": "t",
    "dmt": "t",
    "m³": "m3",
    "cbm": "m3",
    "ltr": "L",
    "litre": "L",
    "liter": "L",
    "litres": "L",
    "liters": "L",
    "barrel": "bbl",
    "barrels": "bbl",
    "kg/m³": "kg/m3",
    "t/m³": "t/m3",
    "g/m³": "g/m3",
    "g/cm³": "g/cm3",
    "kg/cbm": "kg/m3",
    "deg c": "°C",
    "degc": "°C",
    "grad c": "°C",
    "ºc": "°C",
    "celsius": "°C",
    "deg f": "°F",
    "degf": "°F",
    "ºf": "°F",
}
_RATE = re.compile(r"[\[(]?([^\W\d_][\w³]*)/(?:hr?|hours?|d|day|min|s)[\])]?", re.IGNORECASE)
UNITS = frozenset({*AMOUNTS, *DENSITIES, *LENGTHS, *GRADES, *TEMPERATURES})
# Millilitres in capital letters, or a million litres.
MEGALITRES = "ML"
_KNOWN = {
    name.casefold(): name for name in (*AMOUNTS, *DENSITIES, *LENGTHS, *GRADES, *TEMPERATURES)
}


def unit_of(text: str) -> str:
    """Return a unit as it is written here."""
    plain = text.strip().strip("[]()").strip()
    plain = OTHER_WORDS.get(plain.casefold(), plain)
    return plain if plain == MEGALITRES else _KNOWN.get(plain.casefold(), plain)


def is_rate(text: str) -> bool:
    """Say whether a text is a unit of what flows in a time, such as `kg/h`."""
    return bool(_RATE.fullmatch(text))


def of_rate(text: str) -> str:
    """Return what to do with a figure in such a unit, or nothing if a text is another."""
    match = _RATE.fullmatch(text)
    if match is None:
        return ""
    return CellRemedy.NOT_A_RATE(unit=match.group(1)).sentence
