"""Control point images in memory, by the calls of bhtf.h alone."""
from __future__ import annotations

import ctypes
from typing import (Any, Iterable, Iterator, List, Mapping, NamedTuple,
                    Optional, Tuple)

from . import _library as lib
from ._deltas import Buffer, to_bytes
from ._errors import error_of
from ._mapping import (ABSENT, NEW, About, Name, Points, Text, alone,
                       records_of, to_name, to_text, to_u32)
from ._patterns import places

PAGE, LONGEST = 4096, 1 << 30
_SLOTS, _USUAL = 5507, 256  # without a number of slots; bytes of texts a slot
_BAD_LENGTH, _TABLE_TOO_BIG = 1, 4


def ask(number: int) -> None:
    if number != 0:
        raise error_of(number, "refused (%d): %s"
                       % (number, lib.sentence(number)))


def u32_at(image: Buffer, at: int) -> int:
    return int.from_bytes(image[at:at + 4], "big")


def in_memory(image: bytearray) -> Any:
    """Its bytes for the library, which cannot be resized meanwhile."""
    return (ctypes.c_uint8 * len(image)).from_buffer(image)


def whole_pages(size: int) -> int:
    return -(-size // PAGE) * PAGE


def image_length(key_size: int, slots: int = 0, texts: int = 0,
                 size: int = 0) -> int:
    """How long a file must be for a number of texts with `size` bytes in all.

    >>> image_length(12, 100, texts=100, size=5000)
    12288
    """
    length = lib.size()
    ask(lib.image_len(to_u32(key_size, "a key size"), to_u32(slots, "slots"),
                      to_u32(texts, "texts"), min(size, LONGEST + 1),
                      ctypes.byref(length)))
    return length.value


class Calls(NamedTuple):
    """The library's calls, on an image or on a pair of them."""

    add: Any
    delete: Any
    lookup: Any
    count: Any
    select: Any
    at_epoch: Any
    store_columns: Any
    read_columns: Any


class Memory(Points):
    """Points in one image, or in an old and a new one."""

    _calls: Calls

    def __init__(self, *parts: bytearray) -> None:
        super().__init__()
        self._parts = parts
        self._images: List[Any] = []  # as the calls take them
        for part in parts:
            self._images += [in_memory(part), len(part)]

    def _done(self, number: int, name: Name) -> None:
        if number == ABSENT:
            raise self._absent(name)
        ask(number)

    # ---- reading ----

    @property
    def key_size(self) -> int:
        """Bytes of a name."""
        len(self)  # asks the header
        return u32_at(self._parts[0], 12)

    @alone
    def __len__(self) -> int:
        count = lib.u32()
        ask(self._calls.count(*self._images, ctypes.byref(count)))
        return count.value

    def _where(self) -> "List[ctypes.c_uint32]":
        """For offset and length; of two images, before them which it is."""
        return [lib.u32() for _ in range(1 + len(self._parts))]

    def _text_at(self, where: "List[ctypes.c_uint32]") -> Optional[bytes]:
        *which, offset, length = (number.value for number in where)
        image = self._parts[which[0] if which else 0]
        return bytes(image[offset:offset + length]) if offset else None

    @alone
    def __getitem__(self, name: Name) -> Optional[bytes]:
        key, where = self._key(name), self._where()
        self._done(self._calls.lookup(*self._images, key, len(key),
                                      *map(ctypes.byref, where)), name)
        return self._text_at(where)

    def _key_from(self, part: int, begin: int) -> Tuple[int, Optional[bytes]]:
        """The first key of an image from a slot on, and its slot."""
        slot, offset = lib.u32(), lib.u32()
        ask(lib.walk_image(*self._images[2 * part:2 * part + 2], begin,
                           ctypes.byref(slot), ctypes.byref(offset)))
        image, at = self._parts[part], offset.value
        return slot.value, bytes(image[at:at + u32_at(image, 12)]) \
            if at else None

    @alone
    def _keys(self) -> List[bytes]:
        found: List[bytes] = []
        for part in range(len(self._parts)):
            slot, key = self._key_from(part, 0)
            while key is not None:
                found.append(key)
                slot, key = self._key_from(part, slot + 1)
        return found

    def __iter__(self) -> Iterator[bytes]:
        """All names, as they are when it begins."""
        return iter([key.rstrip(b"\0") for key in self._keys()])

    @alone
    def select(self, pattern: Name) -> Iterator[bytes]:
        """The names that a half legible one may be, as File.select."""
        allowed = places(to_name(pattern), self.key_size)
        lowest = bytes(min(place) for place in allowed)
        highest = bytes(max(place) for place in allowed)
        slots = 4 * sum(u32_at(part, 16) for part in self._parts)
        room, found = bytearray(slots), [lib.u32() for _ in self._parts]
        ask(self._calls.select(*self._images, lowest, len(lowest), highest,
                               len(highest), in_memory(room), slots,
                               *map(ctypes.byref, found)))
        parts = [part for part, n in enumerate(found) for _ in range(n.value)]
        keys = [self._key_from(part, u32_at(room, 4 * i))[1] or b""
                for i, part in enumerate(parts)]
        return iter([key.rstrip(b"\0") for key in keys if all(
            byte in place for byte, place in zip(key, allowed))])

    @alone
    def at(self, name: Name, epoch: int) \
            -> Optional[Tuple[int, Optional[bytes]]]:
        """The last epoch of a point at most `epoch`, and its text, as File.at."""
        word, most = to_name(name).rstrip(b"\0"), self.key_size - 4
        if not word or len(word) > most > 0:
            raise self._bad_name(word, max(most, 0), " before its epoch")
        key = word.ljust(max(most, 0), b"\0")
        shown, where = lib.u32(), self._where()
        number = self._calls.at_epoch(*self._images, key, len(key),
                                      to_u32(epoch, "an epoch"),
                                      ctypes.byref(shown),
                                      *map(ctypes.byref, where))
        if number == ABSENT:
            return None
        ask(number)
        return shown.value, self._text_at(where)

    @alone
    def read_records(self, name: Name) -> Tuple[int, bytes]:
        """Records that were stored by column: their width, and the records."""
        text, key, found = self[name] or b"", self._key(name), lib.u32()
        room = ctypes.create_string_buffer(len(text) + 1)
        ask(self._calls.read_columns(*self._images, key, len(key), room,
                                     len(text), ctypes.byref(found)))
        return text[0], room.raw[:found.value]

    # ---- changing ----

    @alone
    def store_records(self, name: Name, records: Any,
                      width: Optional[int] = None) -> None:
        """Stores records of `width` bytes by column, as the point's text; a
        numpy array has its own width."""
        data, width = records_of(records, width)
        key = self._key(name)
        ask(self._calls.store_columns(*self._images, key, len(key), data,
                                      len(data), width))

    @alone
    def add(self, name: Name, text: Text, mode: int = NEW) -> None:
        """Stores a text: NEW, REPLACE, APPEND or WITHDRAW."""
        key, data = self._key(name), to_text(text)
        self._done(self._calls.add(*self._images, key, len(key), data,
                                   len(data), to_u32(mode, "a mode")), name)

    @alone
    def __delitem__(self, name: Name) -> None:
        key = self._key(name)
        self._done(self._calls.delete(*self._images, key, len(key)), name)


class Image(Memory):
    """A control point image in memory: a file's bytes, without the file.

    >>> import bhtf
    >>> image = bhtf.Image.create(key_size=12, slots=100)
    >>> image["CP-104"] = "4482113.402,5351874.118,489.271,bolt"
    >>> image.add("CP-105", "")
    >>> image.append("CP-105", "seen")
    >>> image["CP-105"], "CP-106" in image, len(image)
    (b'seen', False, 2)
    >>> sorted(image.select("CP-10?"))
    [b'CP-104', b'CP-105']
    >>> whole = bytes(image)            # to be written, or sent
    >>> again = bhtf.Image(whole)
    >>> del again["CP-105"]
    >>> again.compact()
    >>> again.names(), again.is_sound(), len(image)
    (['CP-104'], True, 2)
    >>> again["CP-101-IS-A-LONG-NAME"]
    Traceback (most recent call last):
     ...
    bhtf.BadName: refused (7): the name has 21 bytes, and in this image a name has 1 to 12

    A mapping of names to texts, as a File is. A bytearray is changed in place,
    and keeps its length as long as the image is there; bytes are copied, and
    so is a memoryview. Bytes that are no image are refused with NotAFile, and
    an image that is damaged by each call that meets the damage. A refused call
    changes nothing. One thread at a time uses an image, others wait.

    It needs the calls of bhtf.h alone, and so works with bhtf.dll. Nothing is
    kept on a disk: a program that writes bytes(image) over a file has to see to
    power cuts and to other programs itself, as bhtf.open and bhtf.put do.
    """

    _holder = "this image"
    _calls = Calls(lib.add_image, lib.delete_image, lib.lookup_image, lib.count,
                   lib.select_image, lib.at_epoch_image, lib.store_columns,
                   lib.read_columns)

    def __init__(self, image: Buffer) -> None:
        if not isinstance(image, bytearray):
            image = bytearray(to_bytes(image, "an image"))
        super().__init__(image)
        len(self)  # asks the header

    @classmethod
    def create(cls, key_size: int = 16, slots: int = 0, seed: int = 0,
               size: Optional[int] = None) -> "Image":
        """An image without points, of `size` bytes; without that, with room
        for 256 bytes of texts a slot, as bhtf.create has it."""
        least = image_length(key_size, slots)
        if size is None:
            size = min(least + whole_pages((slots or _SLOTS) * _USUAL), LONGEST)
        if size < PAGE or size > LONGEST or size % PAGE:
            ask(_BAD_LENGTH)
        if size < least:
            ask(_TABLE_TOO_BIG)
        made = bytearray(size)
        ask(lib.create(in_memory(made), size, key_size, slots,
                       to_u32(seed, "a seed")))
        return cls(made)

    def __bytes__(self) -> bytes:
        """A copy of the whole image."""
        with self._lock:
            return bytes(self._parts[0])

    @property
    def data(self) -> bytearray:
        """The image itself, which each change changes."""
        return self._parts[0]

    def __repr__(self) -> str:
        return "<bhtf.Image of %d slots, %d bytes>" % (
            u32_at(self.data, 16), len(self.data))

    @alone
    def about(self) -> About:
        """Version, key size, slots, points, bytes used and free."""
        count, image = len(self), self.data
        begin, free = u32_at(image, 48), u32_at(image, 52)
        return About((image[5], image[6], image[7]), u32_at(image, 12),
                     u32_at(image, 16), count, len(image), free - begin,
                     len(image) - free, lib.message_max(*self._images))

    @property
    def version(self) -> Tuple[int, int, int]:
        """(1, 0, 2), or (2, 0, 0) where texts may be longer than 16,777,215
        bytes."""
        return self.about().version

    @alone
    def check(self) -> Tuple[int, int]:
        """What bhtf_check says: (0, 0) of a sound image; 1 and the lowest slot
        that is wrong; (2, 0) where only the count is."""
        verdict, slot = lib.u32(), lib.u32()
        ask(lib.check_image(*self._images, ctypes.byref(verdict),
                            ctypes.byref(slot)))
        return verdict.value, slot.value

    def is_sound(self) -> bool:
        """Does check() say so?"""
        return self.check()[0] == 0

    @alone
    def compact(self) -> None:
        """Gives the space of dead texts back. It takes up to 1,344 KiB of its
        thread's stack, as convert() does."""
        ask(lib.compact_image(*self._images))

    @alone
    def convert(self, size: Optional[int] = None) -> "Image":
        """A new image of this one, of the other version: (2, 0, 0), or
        (1, 0, 2) if this one is of (2, 0, 0). It has `size` bytes; as many as
        this one, or more if its points need them, if that is None."""
        if size is None:
            size = len(self.data)
            if self.is_sound():
                header = 4 if self.data[5] == 2 else 5
                need = u32_at(self.data, 48) + sum(
                    header + len(text) for text in self.values()
                    if text is not None)
                size = min(max(size, whole_pages(need)), LONGEST)
        if size < PAGE or size > LONGEST or size % PAGE:
            ask(_BAD_LENGTH)
        made = bytearray(size)
        ask(lib.convert_image(*self._images, in_memory(made), size))
        return Image(made)

    @alone
    def update(self, points: "Mapping[Any, Text] | Iterable[Tuple[Any, Text]]"
               ) -> None:
        """Stores texts, all of them or none."""
        pairs = points.items() if isinstance(points, Mapping) else points
        before = bytes(self.data)
        try:
            for name, text in pairs:
                self[name] = text
        except BaseException:
            self.data[:] = before
            raise
