"""The public classes, found by introspection, and an object of each, made by what its fields are.

A class is public if a name of `plantbal.__all__` leads to it: by what a function returns, by what a
method or a property of a class returns, or by a field.
"""

from __future__ import annotations

import dataclasses
import datetime
import decimal
import enum
import fractions
import importlib
import inspect
import types
import typing
from collections import abc
from collections.abc import Iterator
from pathlib import Path
from typing import Any

import pandas

import plantbal

Public = dict[str, Any]


def name_of(found: Any) -> str:
    return f"{found.__module__}.{found.__qualname__}"


def hints_of(found: Any) -> dict[str, Any]:
    """What a class or a function is annotated with; names for checkers of types alone count too."""
    own = {"pandas": pandas, "Any": Any}
    for module in ("book.library", "model.state", "session", "report.output", "workbook.hourheads"):
        there = vars(importlib.import_module(f"plantbal.{module}"))
        own |= {name: each for name, each in there.items() if isinstance(each, type)}
    return typing.get_type_hints(found, localns=own)


def classes_in(hint: Any) -> Iterator[type]:
    """The package's classes in an annotation."""
    if isinstance(hint, type) and hint.__module__.startswith("plantbal"):
        yield hint
    for inner in typing.get_args(hint):
        yield from classes_in(inner)


def function_of(member: Any) -> Any:
    """The function of a method, a property, a kept value or a kept table; None of another member."""
    for attribute in ("fget", "func", "__func__", "_make"):
        member = getattr(member, attribute, member)
    return member if inspect.isfunction(member) else None


def led_to(found: Any) -> Iterator[type]:
    """The classes that a public name leads to."""
    if not isinstance(found, type):
        yield from classes_in(hints_of(found).get("return"))
        return
    for name, member in inspect.getmembers_static(found):
        function = None if name.startswith("_") else function_of(member)
        if function is not None:
            yield from classes_in(hints_of(function).get("return"))
    for name, hint in hints_of(found).items():
        if not name.startswith("_"):
            yield from classes_in(hint)


def public() -> Public:
    """All that is public, by its full name: functions of `plantbal.__all__`, and classes."""
    found: Public = {}
    todo = [getattr(plantbal, name) for name in plantbal.__all__ if name != "__version__"]
    while todo:
        each = todo.pop()
        if name_of(each) not in found:
            found[name_of(each)] = each
            todo += led_to(each)
    return found


# Values of what isn't the package's own.
_PLAIN: dict[Any, Any] = {
    str: "x",
    int: 7,
    float: 0.5,
    bool: True,
    bytes: b"x",
    object: "x",
    type(None): None,
    Any: "x",
    Path: Path("x"),
    datetime.date: datetime.date(2024, 5, 1),
    datetime.datetime: datetime.datetime(2024, 5, 1, 6),
    decimal.Decimal: decimal.Decimal("1.5"),
    fractions.Fraction: fractions.Fraction(1, 3),
}


def value_of(hint: Any, makers: dict[type, abc.Callable[[], Any]], depth: int = 0) -> Any:
    """A value of an annotation."""
    if hint in _PLAIN:
        return _PLAIN[hint]
    if hint in makers:
        return makers[hint]()
    origin, inner = typing.get_origin(hint), typing.get_args(hint)
    if origin is typing.Literal:
        return inner[0]
    if origin in (typing.Union, types.UnionType):
        some = [each for each in inner if each is not type(None)]
        return value_of(some[0], makers, depth) if depth < 12 else None
    if origin is tuple:
        held = inner[:1] if Ellipsis in inner else inner
        return tuple(value_of(each, makers, depth + 1) for each in held)
    if origin in (list, abc.Sequence, abc.Iterable, abc.Collection):
        return [value_of(inner[0], makers, depth + 1)]
    if origin in (set, frozenset):
        return origin([value_of(inner[0], makers, depth + 1)])
    if origin in (dict, abc.Mapping):
        return {value_of(inner[0], makers, depth + 1): value_of(inner[1], makers, depth + 1)}
    if isinstance(hint, type) and issubclass(hint, enum.Enum):
        return next(iter(hint))
    hints = hints_of(hint) if isinstance(hint, type) else {}
    if dataclasses.is_dataclass(hint):
        names = [each.name for each in dataclasses.fields(hint) if each.init]
        return hint(**{name: value_of(hints[name], makers, depth + 1) for name in names})
    if hasattr(hint, "_fields"):
        return hint(*(value_of(hints[name], makers, depth + 1) for name in hint._fields))
    raise TypeError(f"nobody says how a {hint} is made: add it to MAKERS")
