"""Points by name: what files, images and pairs of images have in common."""
from __future__ import annotations

import abc
import dataclasses
import functools
import threading
from typing import (Any, Callable, List, Mapping, Optional, Tuple, TypeVar,
                    Union, cast)

from ._deltas import to_bytes
from ._errors import Absent, BadName
from ._points import Point

Name = Union[str, bytes]
Text = Union[str, bytes, bytearray, memoryview]
_Method = TypeVar("_Method", bound=Callable[..., Any])

NEW, REPLACE, APPEND, WITHDRAW = 1, 2, 3, 4
ABSENT = 14


@dataclasses.dataclass(frozen=True)
class About:
    """The numbers of a file or an image."""

    version: Tuple[int, int, int]
    key_size: int       # bytes of a name
    slots: int          # points that it can hold
    count: int          # and that it holds
    length: int         # bytes of the file
    used: int           # bytes that texts have taken, and those still free
    free: int
    text_max: int       # bytes in the longest text


def to_name(name: Name) -> bytes:
    if isinstance(name, str):
        return name.encode()
    if not isinstance(name, bytes):
        raise TypeError("a name is str or bytes, not %s" % type(name).__name__)
    return name


def to_text(text: Text) -> bytes:
    if isinstance(text, str):
        return text.encode()
    return to_bytes(text, "a text") if isinstance(
        text, (bytearray, memoryview)) else _only_bytes(text)


def _only_bytes(text: Any) -> bytes:
    if not isinstance(text, bytes):
        raise TypeError("a text is str or bytes, not %s" % type(text).__name__)
    return text


def to_u32(number: int, what: str) -> int:
    """A number that has 32 bits, of which ctypes would take the last ones."""
    if not 0 <= number <= 0xFFFFFFFF:
        raise OverflowError("%s is from 0 to 4294967295, not %d"
                            % (what, number))
    return number


def records_of(records: Any, width: Optional[int]) -> Tuple[bytes, int]:
    """The bytes of records and their width, which a numpy array has itself."""
    if width is None:
        width = records.dtype.itemsize
    data = to_bytes(records.tobytes() if hasattr(records, "dtype")
                    else records, "records")
    return data, to_u32(width, "a width")


def alone(method: _Method) -> _Method:
    """A method that runs in one thread at a time, and, of a file, in the
    process that opened it."""
    @functools.wraps(method)
    def wrapper(self: "Points", *arguments: Any, **named: Any) -> Any:
        self._ask_process()
        with self._lock:
            return method(self, *arguments, **named)
    return cast(_Method, wrapper)


class Points(Mapping[bytes, Optional[bytes]]):
    """A mapping of names to texts, which are None where a point has none."""

    _holder = "this file"

    def __init__(self) -> None:
        self._lock = threading.RLock()

    # One is not equal to another one that has the same points.
    __eq__ = object.__eq__
    __hash__ = object.__hash__

    def _ask_process(self) -> None:
        pass

    def _shown(self) -> str:
        """What stands before the words of an error."""
        return ""

    def _bad_name(self, name: bytes, most: int, after: str = "") -> BadName:
        return BadName(7, "%srefused (7): the name has %d bytes, and in %s a "
                       "name has 1 to %d%s" % (self._shown(), len(name),
                                               self._holder, most, after))

    def _key(self, name: Name) -> bytes:
        """The key of a name, which is never cut."""
        wanted, size = to_name(name), self.key_size
        if not wanted.rstrip(b"\0") or len(wanted) > size:
            raise self._bad_name(wanted, size)
        return wanted.ljust(size, b"\0")

    def _absent(self, name: Name) -> Absent:
        return Absent(ABSENT, "there is no point %s"
                      % to_name(name).decode(errors="replace"))

    @property
    @abc.abstractmethod
    def key_size(self) -> int:
        """Bytes of a name."""

    # ---- reading ----

    @abc.abstractmethod
    def __getitem__(self, name: Name) -> Optional[bytes]:
        """A point's text."""

    def get(self, name: Name, default: Any = None) -> Any:
        """A point's text, None without one; `default` where it is absent."""
        try:
            return self[name]
        except Absent:
            return default

    def __contains__(self, name: object) -> bool:
        try:
            self[cast(Name, name)]
        except Absent:
            return False
        return True

    def names(self) -> List[str]:
        """The names of all points, as words."""
        return [name.decode(errors="replace") for name in self]

    def point(self, name: Name) -> Point:
        """A point with its coordinates; ValueError if its text has none."""
        word = to_name(name).decode(errors="replace")
        point = Point.of(word, self[name])
        if point is None:
            raise ValueError("the text of %s is not coordinates" % word)
        return point

    def points(self) -> List[Point]:
        """All points that have coordinates, in the order of names."""
        found = (Point.of(name.decode(errors="replace"), self.get(name))
                 for name in sorted(self))
        return [point for point in found if point is not None]

    # ---- epochs ----

    @abc.abstractmethod
    def at(self, name: Name, epoch: int) \
            -> Optional[Tuple[int, Optional[bytes]]]:
        """In a file of epochs: the last epoch of a point at most `epoch`, and
        its text, None without one; None where it has no such epoch."""

    @alone
    def epochs(self, name: Name) -> List[int]:
        """In a file of epochs: those of a point, rising."""
        found: List[int] = []
        shown = self.at(name, 0xFFFFFFFF)
        while shown is not None:
            found.append(shown[0])
            shown = self.at(name, shown[0] - 1) if shown[0] else None
        return found[::-1]

    def add_at(self, name: Name, epoch: int, text: Text,
               mode: int = NEW) -> None:
        """In a file of epochs: stores a point's text of an epoch."""
        word, most = to_name(name).rstrip(b"\0"), max(self.key_size - 4, 0)
        if not word or len(word) > most:
            raise self._bad_name(word, most, " before its epoch")
        key = word.ljust(most, b"\0")
        self.add(key + to_u32(epoch, "an epoch").to_bytes(4, "big"), text, mode)

    # ---- readings by column ----

    @abc.abstractmethod
    def read_records(self, name: Name) -> Tuple[int, bytes]:
        """Records that were stored by column: their width, and the records."""

    def columns(self, name: Name) -> Any:
        """The columns as they are stored, one for each byte of a record: a
        numpy array of bytes, columns by records, where numpy is there, else a
        list of memoryviews."""
        width, records = self.read_records(name)
        count = len(records) // width
        stored = memoryview(self[name] or b"")[1:]
        try:
            import numpy
        except ImportError:
            return [stored[j * count:(j + 1) * count] for j in range(width)]
        return numpy.frombuffer(stored, numpy.uint8).reshape(width, count)

    def records(self, name: Name, dtype: Any) -> Any:
        """The records as a numpy array of a type that is as wide as one."""
        import numpy
        width, records = self.read_records(name)
        if numpy.dtype(dtype).itemsize != width:
            raise ValueError("the records have %d bytes" % width)
        return numpy.frombuffer(records, dtype)

    # ---- changing ----

    @abc.abstractmethod
    def add(self, name: Name, text: Text, mode: int = NEW) -> None:
        """Stores a text: NEW, REPLACE, APPEND or WITHDRAW."""

    def __setitem__(self, name: Name, text: Text) -> None:
        self.add(name, text, REPLACE)

    def put(self, point: Point) -> None:
        """Stores a point, in place of the one of its name."""
        self.add(point.name, point.text(), REPLACE)

    def append(self, name: Name, text: Text) -> None:
        """Stores a text after the one that is there."""
        self.add(name, text, APPEND)

    def withdraw(self, name: Name) -> None:
        """Takes the text away; the name stays."""
        self.add(name, b"", WITHDRAW)
