"""Records of changes that travel, and whole images."""
from __future__ import annotations

import ctypes
import dataclasses
import os
from typing import Iterator, List, Optional, Tuple, Union

from . import _library as lib
from ._errors import Path, error_of, raise_of_path

Buffer = Union[bytes, bytearray, memoryview]
_KINDS = {1: "new", 2: "gone", 3: "other", 4: "damaged"}
_ROOM = 130


def to_bytes(value: Buffer, what: str) -> bytes:
    """Bytes of what has bytes, and of nothing else."""
    if not isinstance(value, (bytes, bytearray, memoryview)):
        raise TypeError("%s is bytes, not %s" % (what, type(value).__name__))
    return bytes(value)


@dataclasses.dataclass(frozen=True)
class Delta:
    """A record that leads from one image to another of the same length."""

    record: bytes = dataclasses.field(repr=False)
    image_len: int
    before: bytes           # check sums
    after: bytes
    stretches: Tuple[Tuple[int, bytes], ...] = dataclasses.field(repr=False)


@dataclasses.dataclass(frozen=True)
class Applied:
    """How many records were applied, and how many the file had; its sum."""

    applied: int
    passed: int
    sum: bytes


@dataclasses.dataclass(frozen=True)
class Change:
    """A point that changed: new, gone, other (its text), or damaged."""

    kind: str
    key: bytes
    old: Optional[bytes]
    new: Optional[bytes]

    @property
    def name(self) -> str:
        return self.key.rstrip(b"\0").decode(errors="replace")


def sum_of(image: Buffer) -> bytes:
    """The check sum of an image: SHA-256.

    >>> sum_of(b"abc").hex()[:16]
    'ba7816bf8f01cfea'
    """
    data = to_bytes(image, "an image")
    room = ctypes.create_string_buffer(lib.SUM)
    lib.sum_of(data, len(data), room)
    return room.raw


def delta(before: Buffer, after: Buffer) -> bytes:
    """The record that leads from one image to another of the same length."""
    old, now = to_bytes(before, "an image"), to_bytes(after, "an image")
    if len(old) != len(now):
        raise error_of(127, "the images have %d and %d bytes; a delta leads to "
                       "one of the same length" % (len(old), len(now)))
    size = lib.size()
    number = lib.delta_make(old, now, len(now), None, None, 0,
                            ctypes.byref(size))
    if number == _ROOM:
        room = ctypes.create_string_buffer(size.value)
        number = lib.delta_make(old, now, len(now), None, room, size.value,
                                ctypes.byref(size))
    if number != 0:
        raise error_of(number, lib.sentence(number))
    return room.raw


def _stretches(record: bytes) -> Iterator[Tuple[int, bytes]]:
    at = lib.Stretch()
    while lib.delta_next(record, ctypes.byref(at)):
        yield at.offset, record[at.at:at.at + at.length]


def deltas(data: Buffer) -> Iterator[Delta]:
    """The records that follow each other in some bytes, each checked whole."""
    left = to_bytes(data, "a delta")
    while True:
        d = lib.Delta()
        number = lib.delta_check(left, len(left), ctypes.byref(d))
        if number != 0:
            raise error_of(number, lib.sentence(number))
        record = left[:d.size]
        yield Delta(record, d.image_len, bytes(d.before), bytes(d.after),
                    tuple(_stretches(record)))
        left = left[d.size:]
        if not left:
            return


def change_of(c: lib.Change, before: Buffer, after: Buffer,
              key_size: int) -> Change:
    """A change, with what it says of both images."""
    keys = before if c.kind == 2 else after
    old = bytes(before[c.old_offset:c.old_offset + c.old_length]) \
        if c.old_offset else None
    new = bytes(after[c.new_offset:c.new_offset + c.new_length]) \
        if c.new_offset else None
    return Change(_KINDS[c.kind],
                  bytes(keys[c.key_offset:c.key_offset + key_size]), old, new)


def changes(before: Buffer, after: Buffer) -> List[Change]:
    """The points in which two images differ."""
    old, now = to_bytes(before, "an image"), to_bytes(after, "an image")
    c = lib.Change()
    found: List[Change] = []
    while True:
        number = lib.changes(old, len(old), now, len(now), ctypes.byref(c))
        if number != 0:
            raise error_of(number, lib.sentence(number))
        if c.kind == 0:
            return found
        found.append(change_of(c, old, now,
                               int.from_bytes(now[12:16], "big")))


def put(path: Path, image: Buffer, sync: bool = True,
        wait: Optional[float] = 10) -> None:
    """Puts a whole image in the place of a file, all of it or nothing; makes
    the file where there is none."""
    data, why = to_bytes(image, "an image"), lib.Why()
    options = lib.options(True, sync, wait)
    if lib.put(os.fsencode(path), data, len(data), ctypes.byref(options),
               ctypes.byref(why)) != 0:
        raise_of_path(why.number, lib.words(why), why.error, path)
