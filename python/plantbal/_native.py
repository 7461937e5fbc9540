"""The library that C calls, in process: runs, checks, and sessions that take rows block by block.

The declarations are those of its header, by cffi. A call releases the lock of the interpreter and
can't be stopped: what wants a limit of time, or to be apart, takes the program. A session is one
thread's at a time; any number of them may be in use.
"""

from __future__ import annotations

import os
from array import array
from collections.abc import Iterable
from functools import lru_cache
from itertools import accumulate
from pathlib import Path
from types import TracebackType
from typing import Any, TypeAlias

import cffi

from plantbal._declarations import DECLARATIONS, Status
from plantbal.faults import ProgramFault, ToolMissing

Buffer: TypeAlias = "bytes | bytearray | memoryview | array[int]"
SONAME = "libplantbal.so.0"
CHECKOUT = Path(__file__).resolve().parents[2] / "libplantbal" / "out" / SONAME


class Library:
    """The functions of the library.

    Parameters
    ----------
    path : str or Path
        The library, by its name or its place.
    """

    def __init__(self, path: str | Path) -> None:
        self.ffi = cffi.FFI()
        self.ffi.cdef(DECLARATIONS)
        try:
            self.functions: Any = self.ffi.dlopen(os.fspath(path))
        except OSError as error:
            raise ToolMissing(f"library {path}", "libplantbal0") from error

    def handle(self) -> Any:
        """Return a handle that holds no session; it frees what it holds."""
        handle = self.ffi.new("plantbal_session")
        return self.ffi.gc(handle, self.functions.plantbal_session_free)

    def options(self, gap: int, sweeps: int, eliminate: int, tests: bool, json: bool) -> Any:
        """Return the options of a run, if each fits."""
        numbers = (gap, sweeps, eliminate, int(tests), int(json))
        if not all(0 <= number < 2**32 for number in numbers):
            raise fault(Status.USAGE)
        return self.ffi.new("plantbal_options *", numbers)

    def output(self, handle: Any) -> bytes:
        """Return what a session has to hand over."""
        count = self.ffi.new("size_t *")
        status = self.functions.plantbal_session_output(handle, count, 0, count)
        buffer = bytearray(int(count[0]))
        if status == Status.SMALL_BUFFER:
            view = self.ffi.from_buffer(buffer)
            status = self.functions.plantbal_session_output(handle, view, len(buffer), count)
        if status != Status.DONE:
            raise fault(Status(status))
        return bytes(buffer)


def fault(status: Status) -> ProgramFault:
    """Return the fault of a status other than 0 and 1."""
    from plantbal.program import STATUSES

    name, remedy = STATUSES.get(int(status), (status.name.title().replace("_", ""), ""))
    said = f"libplantbal ended with status {int(status)} ({name})"
    return ProgramFault(said, status=int(status), name=name, remedy=remedy)


@lru_cache(maxsize=None)
def library(path: str | None = None) -> Library:
    """Return the library of a name, else that of ``PLANTBAL_LIBRARY``, the system or this checkout.

    Raises
    ------
    ToolMissing
        If there is none.
    """
    named = path or os.environ.get("PLANTBAL_LIBRARY")
    if named:
        return Library(named)
    try:
        return Library(SONAME)
    except ToolMissing:
        return Library(CHECKOUT)


def is_there() -> bool:
    """Return whether the library is there."""
    try:
        library()
    except ToolMissing:
        return False
    return True


def run(
    data: bytes | bytearray | memoryview,
    *,
    gap: int = 10,
    sweeps: int = 5000,
    eliminate: int = 0,
    tests: bool = False,
    json: bool = False,
) -> tuple[int, bytes]:
    """Answer the rows of a session as the program does, and return its status and its output."""
    native = library()
    handle = native.handle()
    options = native.options(gap, sweeps, eliminate, tests, json)
    given = native.ffi.from_buffer(data)
    status = native.functions.plantbal_run(options, given, len(given), handle)
    return _answer(native, handle, status)


def check(data: bytes | bytearray | memoryview) -> tuple[int, bytes]:
    """Judge the blocks of a report as the program does, and return its status and its output."""
    native = library()
    handle = native.handle()
    given = native.ffi.from_buffer(data)
    return _answer(native, handle, native.functions.plantbal_check(given, len(given), handle))


def make(
    number: int,
    streams: int,
    *,
    summary: bool = False,
    gap: int = 10,
    sweeps: int = 5000,
) -> bytes:
    """Return the session of a number with this many streams, or the row that sums up its study."""
    numbers = (number, streams, int(summary), gap, sweeps)
    if not all(0 <= given < 2**32 for given in numbers):
        raise fault(Status.USAGE)
    native = library()
    handle = native.handle()
    return _answer(native, handle, native.functions.plantbal_make(*numbers, handle))[1]


def _answer(native: Library, handle: Any, status: int) -> tuple[int, bytes]:
    """Return a status and the output that goes with it."""
    if status > Status.DONE_REFUSED:
        raise fault(Status(status))
    return status, native.output(handle)


class NativeSession:
    """A session that takes rows, and answers each with the number of its refusal, or 0.

    Parameters
    ----------
    gap, sweeps, eliminate, tests, json : optional
        As in `run`.
    """

    def __init__(
        self,
        *,
        gap: int = 10,
        sweeps: int = 5000,
        eliminate: int = 0,
        tests: bool = False,
        json: bool = False,
    ) -> None:
        self._native = library()
        self._handle = self._native.handle()
        options = self._native.options(gap, sweeps, eliminate, tests, json)
        self._code = self._native.ffi.new("uint8_t *")
        status = self._native.functions.plantbal_session_new(options, self._handle)
        if status != Status.DONE:
            raise fault(Status(status))

    def rows(self, data: bytes | bytearray | memoryview) -> bytes:
        """Take rows as bytes, and return a code for each: a byte, 0 if the row is accepted.

        Raises
        ------
        ProgramFault
            If memory ran out: the rows that were taken stay taken.
        """
        given = self._native.ffi.from_buffer(data)
        # a row has a byte at least, and each but the last one a line end; what isn't written takes
        # no memory
        codes = bytearray(len(given) // 2 + 1)
        room = self._native.ffi.from_buffer(codes)
        taken = self._native.ffi.new("size_t *")
        status = self._native.functions.plantbal_session_rows(
            self._handle, given, len(given), 0, room, len(codes), taken
        )
        if status != Status.DONE:
            raise fault(Status(status))
        return bytes(memoryview(codes)[: taken[0]])

    def records(self, records: Iterable[Iterable[bytes]]) -> bytes:
        """Take a block of rows by their fields, and return a code for each, as `rows` does.

        Raises
        ------
        ProgramFault
            If memory ran out: the rows that were taken stay taken.
        """
        fields: list[bytes] = []
        counts = array("Q")
        for record in records:
            fields.extend(record)
            counts.append(len(fields))
        return self.apart(b"".join(fields), array("Q", accumulate(map(len, fields))), counts)

    def apart(self, text: Buffer, ends: Buffer, counts: Buffer) -> bytes:
        """Take a block of rows whose fields are apart in arrays, and return a code for each.

        Parameters
        ----------
        text : bytes or anything with a buffer
            The fields, one after another.
        ends, counts : anything with a buffer of unsigned 64-bit numbers
            Where each field ends, in bytes from the beginning; and for each row how many fields
            there are up to its end.

        Raises
        ------
        ProgramFault
            If places aren't in order, or lie beyond the text (status 2), or memory ran out: the
            rows before stay taken.
        """
        ffi = self._native.ffi
        given = ffi.from_buffer(text)
        places = [ffi.from_buffer("size_t[]", numbers) for numbers in (ends, counts)]
        codes = bytearray(len(places[1]))
        taken = ffi.new("size_t *")
        words = [word for each in (given, *places) for word in (each, len(each))]
        status = self._native.functions.plantbal_session_records(
            self._handle, *words, ffi.from_buffer(codes), len(codes), taken
        )
        if status != Status.DONE:
            raise fault(Status(status))
        return bytes(memoryview(codes)[: taken[0]])

    def read(self, what: str, *words: Any) -> bool:
        """Have a call of the library write to the arrays among its words.

        Returns
        -------
        bool
            Whether there was room; if not, the counts among the words say how much it takes.

        Raises
        ------
        IndexError
            If there is nothing at the place.
        ProgramFault
            If it ends otherwise.
        """
        function = getattr(self._native.functions, f"plantbal_session_{what}")
        status = function(self._handle, *words)
        if status == Status.NOT_THERE:
            raise IndexError(f"{what}: nothing at this place")
        if status not in (Status.DONE, Status.SMALL_BUFFER):
            raise fault(Status(status))
        return bool(status == Status.DONE)

    @property
    def ffi(self) -> Any:
        """Return what makes values of C."""
        return self._native.ffi

    def look(self, what: str, kind: str, *words: Any) -> Any | None:
        """Return what a look-up of the library finds, or None if there is nothing there.

        Parameters
        ----------
        what : str
            The look-up: the name of its function without ``plantbal_session_``.
        kind : str
            The type in C of what it writes.
        *words
            What it takes after the session: a place, or a name and its length.
        """
        found = self._native.ffi.new(f"{kind} *")
        function = getattr(self._native.functions, f"plantbal_session_{what}")
        status = function(self._handle, *words, found)
        if status == Status.NOT_THERE:
            return None
        if status != Status.DONE:
            raise fault(Status(status))
        return found[0]

    def row(self, fields: Iterable[bytes]) -> int:
        """Take one row by its fields, and return its code: 0 if it is accepted."""
        listed = list(fields)
        text = b"".join(listed)
        ends = list(accumulate(map(len, listed)))
        status = self._native.functions.plantbal_session_row(
            self._handle, text, len(text), ends, len(ends), self._code
        )
        if status != Status.DONE:
            raise fault(Status(status))
        return int(self._code[0])

    def output(self) -> bytes:
        """Return what the rows have added to the output since the last call."""
        return self._native.output(self._handle)

    def close(self) -> None:
        """Free the session; it takes no more rows."""
        self._native.functions.plantbal_session_free(self._handle)

    def __enter__(self) -> NativeSession:
        return self

    def __exit__(
        self,
        kind: type[BaseException] | None,
        error: BaseException | None,
        trace: TracebackType | None,
    ) -> None:
        self.close()
