"""Garbage collection, kept off while many rows are made."""

from __future__ import annotations

import gc
from collections.abc import Iterator
from contextlib import contextmanager


@contextmanager
def uncollected() -> Iterator[None]:
    """Keep the garbage collector off: many rows are made here, and none of them in a circle."""
    was = gc.isenabled()
    gc.disable()
    try:
        yield
    finally:
        if was:
            if not gc.get_freeze_count():
                # all that was made is old from here on: a collection of what is young would go
                # through it to no end
                gc.freeze()
                gc.unfreeze()
            gc.enable()
