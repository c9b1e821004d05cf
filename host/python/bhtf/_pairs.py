"""Two images in memory, one of which grows into the other."""
from __future__ import annotations

import ctypes
from typing import Optional, Union

from . import _library as lib
from ._deltas import Buffer, to_bytes
from ._images import (LONGEST, Calls, Image, Memory, ask, image_length,
                      in_memory, u32_at, whole_pages)
from ._mapping import APPEND, alone, to_u32

Growing = Union[bytes, bytearray, Image]


def larger(image: "Buffer | Image", slots: int, seed: int = 0,
           size: Optional[int] = None) -> bytearray:
    """An empty image into which one may grow: of its key size and version, with
    more slots. It has `size` bytes; without that, as much room more for texts
    as it has more slots."""
    old = bytes(image) if isinstance(image, Image) \
        else to_bytes(image, "an image")
    count = lib.u32()
    ask(lib.count(old, len(old), ctypes.byref(count)))
    key_size, before = u32_at(old, 12), max(u32_at(old, 16), 1)
    table = image_length(key_size, slots)
    if size is None:
        room = (len(old) - u32_at(old, 48)) * max(slots, before) // before
        size = min(table + whole_pages(room), LONGEST)
    made = bytearray(size if old[5] == 1 else table)
    ask(lib.create(in_memory(made), len(made), key_size, slots,
                   to_u32(seed, "a seed")))
    if old[5] == 1:
        return made
    wide = bytearray(size)
    ask(lib.convert_image(in_memory(made), len(made), in_memory(wide), size))
    return wide


def _bytearray(image: Growing) -> bytearray:
    if isinstance(image, Image):
        return image.data
    if not isinstance(image, (bytes, bytearray)):
        raise TypeError("an image is bytearray or bytes, not %s"
                        % type(image).__name__)
    return image if isinstance(image, bytearray) else bytearray(image)


class Pair(Memory):
    """An image that grows into a larger one while the work goes on.

    >>> import bhtf
    >>> bhtf.create("small.bhtf", key_size=12, slots=20)
    >>> with bhtf.open("small.bhtf", write=True) as f:
    ...     f.update(("CP-%d" % i, str(i)) for i in range(20))
    >>> with bhtf.open("small.bhtf") as f:
    ...     pair = Pair(f.image(), larger(f.image(), slots=500))
    >>> len(pair), pair.finished
    (20, False)
    >>> pair["CP-20"] = "4482120,5351880,489.1,new"
    >>> pair["CP-7"], len(pair), pair.finished
    (b'7', 21, False)
    >>> while not pair.finished:
    ...     pair.go_on()
    >>> bhtf.put("small.bhtf", pair.new)

    A mapping of names to texts, as a File is. Each add, delete or store brings
    up to nine points over from `old` to `new`, go_on() does nothing else; when
    the pair is `finished`, go on with `new` alone. A bytearray is changed in
    place, and keeps its length as long as the pair is there, and so is that of
    an Image; bytes are copied. Nothing else may change either of them
    meanwhile.

    `begun` says that the growth began earlier, and goes on with both images as
    they were left. Both are in memory only: what a power cut may not take away
    is put into files, both images together, by the caller.
    """

    _holder = "these images"
    _calls = Calls(lib.grow_add, lib.grow_delete, lib.grow_lookup,
                   lib.grow_count, lib.grow_select, lib.grow_at_epoch,
                   lib.grow_store_columns, lib.grow_read_columns)

    def __init__(self, old: Growing, new: Growing, begun: bool = False) -> None:
        self.old, self.new = _bytearray(old), _bytearray(new)
        if old is new or self.old is self.new:
            raise ValueError("one image, where two are needed")
        super().__init__(self.old, self.new)
        if not begun:
            ask(lib.grow(*self._images))
        len(self)  # asks both images

    def __repr__(self) -> str:
        return "<bhtf.Pair of %d and %d slots%s>" % (
            u32_at(self.old, 16), u32_at(self.new, 16),
            ", finished" if self.finished else "")

    @property
    @alone
    def finished(self) -> bool:
        """Has the old image no point any more?"""
        count = lib.u32()
        ask(lib.count(*self._images[:2], ctypes.byref(count)))
        return count.value == 0

    @alone
    def go_on(self) -> None:
        """Brings up to nine points over, and leaves all texts as they are."""
        key = self._key_from(0, 0)[1]
        if key is not None:
            ask(lib.grow_add(*self._images, key, len(key), b"", 0, APPEND))
