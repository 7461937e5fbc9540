"""The container of a bundle: a zip that each reader of zips reads alike.

A zip says twice what is in it: before each file in a local header, and at its end in a directory.
A reader that streams a zip goes by the headers, and one that opens it goes by the directory, so a
zip can be made that has one month for the first and another month for the second. Here a zip is
walked from its first byte to its last one. Nothing in it may be free but the compressed bytes of
each file, and these have to be one stream of DEFLATE that ends where its entry ends.

A bundle that somebody unpacked and zipped again, as a mail gateway does, has other times, methods and
extra fields. It is walked too, and only these may differ: what each reader finds is the same.
"""

from __future__ import annotations

import struct
import zipfile
import zlib
from collections.abc import Sequence

# The version that a reader needs, and the time of 1980-01-01 00:00 as a zip writes it.
_NEEDS, _TIME, _DAY = 20, 0, 33
_UNIX = 3 << 8
_PIECE = 1 << 20


def layout_fault(entries: Sequence[zipfile.ZipInfo], directory: int, data: bytes) -> str:
    """Return why some readers may find other files in a zip than its directory has; else nothing.

    Parameters
    ----------
    entries : sequence of ZipInfo
        What the directory has, each entry with the fixed items of those that are written here.
    directory : int
        Where the directory begins.
    data : bytes
        The zip.
    """
    at = 0
    for entry in entries:
        head = _local_header(entry)
        if entry.header_offset != at:
            return f"{entry.filename} doesn't begin where the file before it ends"
        if data[at : at + len(head)] != head:
            return f"the header before {entry.filename} isn't that of the directory"
        at += len(head) + entry.compress_size
        if not _is_one_stream(data[at - entry.compress_size : at], entry.file_size):
            return f"the compressed bytes of {entry.filename} don't end where its entry ends"
    if directory != at:
        return "there are bytes between its last file and its directory"
    written = b"".join(map(_directory_entry, entries))
    comment = data[at + len(written) + 22 :]
    if data[at:] != written + _end(len(entries), len(written), at, comment):
        return "its directory isn't followed by its end, and by nothing else"
    return ""


def _local_header(entry: zipfile.ZipInfo) -> bytes:
    """Return the header that stands before a file."""
    return struct.pack("<4s", b"PK\x03\x04") + _told(entry) + entry.filename.encode("utf-8")


def _told(entry: zipfile.ZipInfo) -> bytes:
    """Return what both the header and the directory say of a file."""
    sizes = entry.CRC, entry.compress_size, entry.file_size
    name = len(entry.filename.encode("utf-8"))
    return struct.pack(
        "<5H3L2H", _NEEDS, 0, entry.compress_type, _TIME, _DAY, *sizes, name, len(entry.extra)
    )


def _directory_entry(entry: zipfile.ZipInfo) -> bytes:
    """Return what the directory says of a file."""
    ends = struct.pack("<3H2L", 0, 0, 0, entry.external_attr, entry.header_offset)
    head = struct.pack("<4sH", b"PK\1\2", _UNIX | _NEEDS)
    return head + _told(entry) + ends + entry.filename.encode("utf-8")


def _end(count: int, size: int, begin: int, comment: bytes) -> bytes:
    """Return the end of a zip: where its directory is, and the comment."""
    numbers = 0, 0, count, count, size, begin, len(comment)
    return struct.pack("<4s4H2LH", b"PK\5\6", *numbers) + comment


def _is_one_stream(packed: bytes, size: int) -> bool:
    """Return whether compressed bytes are one stream of a size, and nothing follows it."""
    reader, found, rest = zlib.decompressobj(-zlib.MAX_WBITS), 0, packed
    while not reader.eof and found <= size:
        piece = reader.decompress(rest, _PIECE)
        rest = reader.unconsumed_tail
        found += len(piece)
        if not (piece or rest):
            return False  # it is cut off
    return reader.eof and not (reader.unused_data or rest) and found == size


# ---- a zip of another packer

_DESCRIBED, _ALLOWED_FLAGS = 0x0008, 0x080E  # sizes after the data; speed of packing, UTF-8
_STORED, _DEFLATED = zipfile.ZIP_STORED, zipfile.ZIP_DEFLATED
_RENAMING = {
    0x0001,
    0x7075,
    0x6375,
}  # extra fields that give an entry another size, name or comment
_LOCAL, _DIRECTORY = struct.Struct("<4s5H3L2H"), struct.Struct("<4s6H3L5H2L")


def other_reading(entries: Sequence[zipfile.ZipInfo], directory: int, data: bytes) -> str:
    """Return why a reader may find other files than the directory has in a zip of another packer.

    Parameters
    ----------
    entries : sequence of ZipInfo
        What the directory has.
    directory : int
        Where the directory begins.
    data : bytes
        The zip.
    """
    at = 0
    for entry in entries:
        if entry.header_offset != at:
            return f"{entry.filename} doesn't begin where the file before it ends"
        end = _entry_end(entry, data, at)
        if end is None:
            return f"the header before {entry.filename} isn't that of the directory"
        at = end
    if directory != at:
        return "there are bytes between its last file and its directory"
    for entry in entries:
        at += _DIRECTORY.size
        at += len(entry.orig_filename.encode("utf-8")) + len(entry.extra) + len(entry.comment)
    comment = data[at + 22 :]
    if data[at:] != _end(len(entries), at - directory, directory, comment):
        return "its directory isn't followed by its end, and by nothing else"
    return ""


def _entry_end(entry: zipfile.ZipInfo, data: bytes, at: int) -> int | None:
    """Return where a file ends whose header begins at a place; None if readers may differ on it."""
    head, name = data[at : at + _LOCAL.size], entry.filename.encode("utf-8")
    if len(head) < _LOCAL.size:
        return None
    mark, _, flags, method, _, _, *sizes, length, extra = _LOCAL.unpack(head)
    begin = at + _LOCAL.size + length + extra
    end: int = begin + entry.compress_size
    wanted = [entry.CRC, entry.compress_size, entry.file_size]
    is_described = bool(flags & _DESCRIBED)
    fits = (
        mark == b"PK\x03\x04"
        and data[begin - extra - length : begin - extra] == name
        and method == entry.compress_type in (_STORED, _DEFLATED)
        and flags == entry.flag_bits
        and not flags & ~_ALLOWED_FLAGS
        and (sizes == wanted or (is_described and _is_put_off(sizes, wanted)))
        and _renames_nothing(data[begin - extra : begin])
        and _renames_nothing(entry.extra)
    )
    if not fits or not _body_fits(entry, data[begin:end], sizes[1]):
        return None
    if not is_described:
        return end
    described = struct.pack("<3L", *wanted)
    for mark in (b"PK\x07\x08", b""):
        if data[end : end + len(mark) + 12] == mark + described:
            return end + len(mark) + 12
    return None


def _is_put_off(sizes: Sequence[int], wanted: Sequence[int]) -> bool:
    """Return whether a header leaves numbers out that stand after the data, and says no other."""
    return all(size in (0, known) for size, known in zip(sizes, wanted))


def _body_fits(entry: zipfile.ZipInfo, packed: bytes, size_before: int) -> bool:
    """Return whether a file's bytes end where its entry does, for each reader.

    Deflated bytes end by themselves. Of stored ones a reader has to know the size before them.
    """
    if entry.compress_type == _DEFLATED:
        return _is_one_stream(packed, entry.file_size)
    return len(packed) == entry.file_size == size_before


def _renames_nothing(extra: bytes) -> bool:
    """Return whether extra fields are whole, and none gives another size or name."""
    while len(extra) >= 4:
        kind, size = struct.unpack("<2H", extra[:4])
        if kind in _RENAMING or len(extra) < 4 + size:
            return False
        extra = extra[4 + size :]
    return not extra
