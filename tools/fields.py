"""The fields of a sheet, or of a file of sheets with names: a tag of one byte, a length of two, then so many bytes."""

import struct
from typing import NamedTuple, Optional


class Field(NamedTuple):
    """A field where it stands, or where the bytes end one that is not there (tag None)."""

    offset: int
    tag: Optional[int]
    words: str
    due: str  # what is due there


def field(tag, body):
    """The bytes of a field."""
    return struct.pack(">BH", tag, len(body)) + body


def heads(given):
    """Offset, tag and length of each field whose header is there."""
    at = 0
    while at + 3 <= len(given):
        length = int.from_bytes(given[at + 1 : at + 3], "big")
        yield at, given[at], length
        at += 3 + length


def fields(given, walk):
    """The fields as far as the bytes given go, each named by the walk, and at last the one that is not there."""
    end = 0
    for at, tag, length in heads(given):
        due, end = walk.due, at + 3 + length
        words = f"{walk.name(tag, given[at + 3 : end])} (tag {tag}, length {length})"
        if end > len(given):
            words += f", of which {len(given) - at} of {end - at} bytes are there"
        yield Field(at, tag, words, due)
    if end < len(given):
        yield Field(end, None, f"a header of which {len(given) - end} of 3 bytes are there", walk.due)
    yield Field(len(given), None, f"here the {walk.whole} ends", walk.due)
