"""Tables that are made once and handed out as copies, so that nobody changes what is booked."""

from __future__ import annotations

from collections.abc import Callable
from typing import TYPE_CHECKING, Any, NoReturn, overload

if TYPE_CHECKING:
    import pandas

_MADE = "made tables"


class kept_table:  # noqa: N801  (it is read as `property` is)
    """A table of an object: made when it is first asked for, and copied for each who asks.

    `functools.cached_property` hands out the table itself. If a caller changes it in place, every
    later amount, file and sheet is made of the changed one.

    Parameters
    ----------
    make : callable
        Makes the table of an object.
    """

    def __init__(self, make: Callable[[Any], pandas.DataFrame]) -> None:
        self._make = make
        self._name = make.__name__
        self.__doc__ = make.__doc__

    @overload
    def __get__(self, holder: None, owner: type) -> kept_table:
        ...

    @overload
    def __get__(self, holder: object, owner: type | None = None) -> pandas.DataFrame:
        ...

    def __get__(self, holder: object | None, owner: type | None = None) -> Any:
        if holder is None:
            return self
        made: dict[str, pandas.DataFrame] = holder.__dict__.setdefault(_MADE, {})
        if self._name not in made:
            made[self._name] = self._make(holder)
        return made[self._name].copy()

    def __set__(self, holder: object, value: object) -> NoReturn:
        raise AttributeError(f"{self._name} follows from the rows, and can't be set")
