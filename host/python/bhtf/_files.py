"""Control point files on a disk."""
from __future__ import annotations

import contextlib
import ctypes
import os
from typing import (Any, Callable, Iterable, Iterator, List, Mapping, Optional,
                    Tuple)

from . import _library as lib
from ._deltas import Applied, Buffer, Change, change_of, to_bytes
from ._errors import BadName, Misuse, Path, error_of, raise_of_path
from ._mapping import (ABSENT, NEW, About, Name, Points, Text, alone,
                       records_of, to_name, to_text, to_u32)
from ._patterns import places

_ROOM = 130


class File(Points):
    """An open file; bhtf.open makes one. A mapping of names to texts, which
    are None where a point has none."""

    def __init__(self, handle: int, path: Path, options: lib.Options,
                 write: bool) -> None:
        super().__init__()
        self._handle: Optional[int] = handle
        self._path = path
        self._options = options  # kept as long as the library may call it
        self._write = write
        self._process = os.getpid()

    # ---- the handle ----

    @property
    def path(self) -> Path:
        return self._path

    @property
    def closed(self) -> bool:
        return self._handle is None

    def __repr__(self) -> str:
        how = "closed" if self.closed else "to write" if self._write \
            else "to read"
        return "<bhtf.File %r, %s>" % (os.fsdecode(self._path), how)

    def _ask_process(self) -> None:
        if os.getpid() != self._process:
            raise Misuse(108, "another process opened the file, of which this "
                         "one is a fork; open it again")

    def _open_handle(self) -> int:
        if self._handle is None:
            raise ValueError("the file is closed")
        return self._handle

    def _done(self, number: int) -> None:
        if number != 0:
            why = lib.error(self._handle).contents
            raise error_of(number, lib.words(why), why.error)

    def close(self) -> None:
        """Gives everything back; a batch that is open is undone."""
        # A fork does not have the thread that may hold its parent's lock.
        if os.getpid() == self._process:
            with self._lock:
                self._close()
        else:
            self._close()

    def _close(self) -> None:
        if self._handle is not None:
            handle, self._handle = self._handle, None
            number = lib.close(handle)
            if number != 0:
                raise error_of(number, "the file could not be closed",
                               ctypes.get_errno())

    def __enter__(self) -> "File":
        return self

    def __exit__(self, *_: Any) -> None:
        self.close()

    def __del__(self) -> None:
        with contextlib.suppress(Exception):
            self.close()

    def _shown(self) -> str:
        return os.fsdecode(self._path) + ": "

    # ---- what it holds ----

    @alone
    def about(self) -> About:
        """Version, key size, slots, points, bytes used and free."""
        a = lib.About()
        self._done(lib.about(self._open_handle(), ctypes.byref(a),
                             ctypes.sizeof(a)))
        return About((a.version[0], a.version[1], a.version[2]), a.key_size,
                     a.slots, a.count, a.length, a.used, a.free, a.message_max)

    @property
    def key_size(self) -> int:
        """Bytes of a name."""
        return self.about().key_size

    @property
    def version(self) -> Tuple[int, int, int]:
        """(1, 0, 2), or (2, 0, 0) where texts may be longer than 16,777,215
        bytes."""
        return self.about().version

    def __len__(self) -> int:
        return self.about().count

    @alone
    def is_sound(self) -> bool:
        """Does bhtf_check say so?"""
        verdict, slot = lib.u32(), lib.u32()
        self._done(lib.check(self._open_handle(), ctypes.byref(verdict),
                             ctypes.byref(slot)))
        return verdict.value == 0

    @alone
    def image(self) -> bytes:
        """A copy of the whole image, as the last whole change left it."""
        self.about()
        length = lib.size()
        start = lib.image(self._open_handle(), ctypes.byref(length))
        return ctypes.string_at(start, length.value)

    @alone
    def sum(self) -> bytes:
        """The image's check sum, which deltas have: 32 bytes."""
        room = ctypes.create_string_buffer(lib.SUM)
        self._done(lib.file_sum(self._open_handle(), room))
        return room.raw

    @property
    @alone
    def recovered(self) -> bool:
        """Did opening find an unfinished change, and finish it?"""
        return bool(lib.recovered(self._open_handle()))

    @property
    @alone
    def unsure(self) -> bool:
        """Did the disk fail so that the last change may be in the file?"""
        return bool(lib.unsure(self._open_handle()))

    # ---- reading ----

    @alone
    def __getitem__(self, name: Name) -> Optional[bytes]:
        key, text, size = self._key(name), ctypes.c_void_p(), lib.size()
        number = lib.lookup(self._open_handle(), key, len(key),
                            ctypes.byref(text), ctypes.byref(size))
        if number == ABSENT:
            raise self._absent(name)
        self._done(number)
        return ctypes.string_at(text.value, size.value) if text.value else None

    @alone
    def _point_from(self, begin: int) -> Optional[Tuple[bytes, int]]:
        """The first name from a slot on, and where to go on."""
        p = lib.FilePoint(next=begin)
        self._done(lib.walk(self._open_handle(), ctypes.byref(p)))
        if not p.key:
            return None
        return ctypes.string_at(p.key, p.name_len), p.next

    def __iter__(self) -> Iterator[bytes]:
        found = self._point_from(0)
        while found is not None:
            yield found[0]
            found = self._point_from(found[1])

    @alone
    def select(self, pattern: Name) -> Iterator[bytes]:
        """The names that a half legible one may be: ? stands for any byte,
        [..] for some, * at the end for any rest."""
        allowed = places(to_name(pattern), self.key_size)
        lowest = bytes(min(place) for place in allowed)
        highest = bytes(max(place) for place in allowed)
        names = []
        for number in self._selected(lowest, highest):
            p = lib.FilePoint()
            self._done(lib.slot(self._open_handle(), number, ctypes.byref(p)))
            key = ctypes.string_at(p.key, p.key_len)
            if all(byte in place for byte, place in zip(key, allowed)):
                names.append(key[:p.name_len])
        return iter(names)

    def _selected(self, lowest: bytes, highest: bytes) -> List[int]:
        """The slots of all keys between, byte by byte."""
        room, found = len(self), lib.u32()
        slots = (lib.u32 * max(room, 1))()
        self._done(lib.select(self._open_handle(), lowest, highest,
                              len(lowest), slots, room, ctypes.byref(found)))
        return list(slots[:found.value])

    # ---- epochs ----

    @alone
    def at(self, name: Name, epoch: int) \
            -> Optional[Tuple[int, Optional[bytes]]]:
        """In a file of epochs: the last epoch of a point at most `epoch`, and
        its text, None without one; None where it has no such epoch."""
        word = to_name(name).rstrip(b"\0")
        if b"\0" in word:
            raise BadName(7, "a zero byte within a name")
        shown, text, size = lib.u32(), ctypes.c_void_p(), lib.size()
        number = lib.at_epoch(self._open_handle(), word,
                              to_u32(epoch, "an epoch"), ctypes.byref(shown),
                              ctypes.byref(text), ctypes.byref(size))
        if number == ABSENT:
            return None
        self._done(number)
        return shown.value, ctypes.string_at(text.value, size.value) \
            if text.value else None

    # ---- readings by column ----

    @alone
    def read_records(self, name: Name) -> Tuple[int, bytes]:
        """Records that were stored by column: their width, and the records."""
        text = self[name] or b""
        key, found = self._key(name), lib.u32()
        room, length = ctypes.create_string_buffer(len(text) + 1), lib.size()
        image = lib.image(self._open_handle(), ctypes.byref(length))
        number = lib.read_columns(image, length.value, key, len(key), room,
                                  len(text), ctypes.byref(found))
        if number != 0:
            raise error_of(number, lib.sentence(number))
        return text[0], room.raw[:found.value]

    @alone
    def store_records(self, name: Name, records: Any,
                      width: Optional[int] = None) -> None:
        """Stores records of `width` bytes by column, as the point's text; a
        numpy array has its own width."""
        data, width = records_of(records, width)
        key = self._key(name)
        with contextlib.nullcontext() if self._in_batch() else self.batch():
            length = lib.size()
            image = lib.batch_image(self._open_handle(), ctypes.byref(length))
            number = lib.store_columns(image, length.value, key, len(key),
                                       data, len(data), width)
            if number != 0:
                raise error_of(number, lib.sentence(number))

    # ---- as others change it ----

    @alone
    def pause(self) -> None:
        """Lets writers in; refresh() before the next look."""
        self._done(lib.pause(self._open_handle()))

    @alone
    def refresh(self) -> None:
        """The file as the last writer left it."""
        self._done(lib.refresh(self._open_handle()))

    @alone
    def convert(self, path: Path, size: Optional[int] = None) -> None:
        """Makes a new file of this one, of the other version: (2, 0, 0), or
        (1, 0, 2) if this one is of (2, 0, 0). It has `size` bytes; as many as
        this one, or more if its points need them, if that is None."""
        if size is not None and size < 1:
            raise ValueError("a file has at least 4096 bytes")
        number = lib.convert(self._open_handle(), os.fsencode(path), size or 0)
        if number != 0:
            why = lib.error(self._handle).contents
            raise_of_path(number, lib.words(why), why.error, path)

    # ---- changing ----

    @alone
    def add(self, name: Name, text: Text, mode: int = NEW) -> None:
        """Stores a text: NEW, REPLACE, APPEND or WITHDRAW."""
        key, data = self._key(name), to_text(text)
        self._done(lib.add(self._open_handle(), key, len(key), data, len(data),
                           to_u32(mode, "a mode")))

    def update(self, points: "Mapping[Any, Text] | Iterable[Tuple[Any, Text]]"
               ) -> None:
        """Stores texts, all of them or none."""
        pairs = points.items() if isinstance(points, Mapping) else points
        with contextlib.nullcontext() if self._in_batch() else self.batch():
            for name, text in pairs:
                self[name] = text

    @alone
    def __delitem__(self, name: Name) -> None:
        key = self._key(name)
        number = lib.delete(self._open_handle(), key, len(key))
        if number == ABSENT:
            raise self._absent(name)
        self._done(number)

    @alone
    def compact(self) -> None:
        """Gives the space of dead texts back."""
        self._done(lib.compact(self._open_handle()))

    # ---- batches ----

    @alone
    def _in_batch(self) -> bool:
        length = lib.size()
        return lib.batch_image(self._open_handle(),
                               ctypes.byref(length)) is not None

    @alone
    def _call(self, function: Any) -> None:
        self._done(function(self._open_handle()))

    @contextlib.contextmanager
    def batch(self) -> Iterator["File"]:
        """All changes of the block, or, if it is left by an exception, none.
        Other threads wait until it is left, so that no change of theirs is
        undone with it."""
        self._ask_process()
        with self._lock:
            self._call(lib.begin)
            try:
                yield self
                self._call(lib.commit)
            except BaseException:
                if self._handle is not None and os.getpid() == self._process:
                    lib.rollback(self._handle)
                raise

    # ---- deltas ----

    @alone
    def delta(self) -> bytes:
        """In a batch: the record of what it has changed so far."""
        size = lib.size()
        number = lib.file_delta(self._open_handle(), None, 0,
                                ctypes.byref(size))
        if number != _ROOM:
            self._done(number)
        room = ctypes.create_string_buffer(size.value)
        self._done(lib.file_delta(self._open_handle(), room, size.value,
                                  ctypes.byref(size)))
        return room.raw

    @alone
    def apply(self, records: Buffer, end: Optional[bytes] = None) -> Applied:
        """Applies records, all of them or none, as one change; refused unless
        the file then has the check sum `end`, if that is given."""
        data = to_bytes(records, "a delta")
        if end is not None and len(to_bytes(end, "a sum")) != lib.SUM:
            raise ValueError("a check sum has 32 bytes")
        done = lib.Applied()
        self._done(lib.file_apply(self._open_handle(), data, len(data), end,
                                  ctypes.byref(done)))
        return Applied(done.applied, done.passed, bytes(done.sum))

    @alone
    def changes(self) -> List[Change]:
        """In a batch: the points that it has changed so far."""
        length, c, size = lib.size(), lib.Change(), self.key_size
        found: List[Change] = []
        start = lib.file_before(self._open_handle(), ctypes.byref(length))
        views = [memoryview((ctypes.c_uint8 * length.value).from_address(at))
                 for at in (start, lib.image(self._open_handle(),
                                             ctypes.byref(length)))] \
            if start else [memoryview(b""), memoryview(b"")]
        while True:
            self._done(lib.file_changes(self._open_handle(), ctypes.byref(c)))
            if c.kind == 0:
                return found
            found.append(change_of(c, views[0], views[1], size))


def open(path: Path, write: bool = False, sync: bool = True,
         wait: Optional[float] = 10,
         give_up: Optional[Callable[[], Any]] = None) -> File:
    """Opens a file. `wait` is in seconds, None without end; `give_up` is asked
    while a lock is waited for, and ends the wait if it answers true. What is no
    control point file is refused."""
    options, why = lib.options(write, sync, wait, give_up), lib.Why()
    handle = lib.open_with(os.fsencode(path), ctypes.byref(options),
                           ctypes.byref(why))
    if not handle:
        raise_of_path(why.number, lib.words(why), why.error, path)
    return File(handle, path, options, write)


def create(path: Path, key_size: int = 16, slots: int = 0, seed: int = 0,
           size: Optional[int] = None, sync: bool = True) -> None:
    """Makes a new file of `size` bytes; without that, with room for 256 bytes
    of texts a slot, as the command does."""
    if size is not None and size < 1:
        raise ValueError("a file has at least 4096 bytes")
    options, why = lib.options(True, sync, 0), lib.Why()
    if lib.make(os.fsencode(path), to_u32(key_size, "a key size"),
                to_u32(slots, "slots"), to_u32(seed, "a seed"), size or 0,
                ctypes.byref(options), ctypes.byref(why)) != 0:
        raise_of_path(why.number, lib.words(why), why.error, path)
