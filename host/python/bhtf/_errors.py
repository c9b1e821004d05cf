"""What a call is refused with: a class for each kind of answer."""
from __future__ import annotations

import errno as _errno
import os
from typing import Dict, NoReturn, Type, Union

Path = Union[str, bytes, "os.PathLike[str]", "os.PathLike[bytes]"]


class Error(Exception):
    """A call that was answered other than 0: `number`, `errno`, and words."""

    def __init__(self, number: int, words: str, error: int = 0) -> None:
        super().__init__(words)
        self.number = number
        self.errno = error

    def __str__(self) -> str:
        return str(self.args[0])

    def __reduce__(self) -> tuple:  # type: ignore[type-arg]
        return type(self), (self.number, self.args[0], self.errno)


class Refused(Error):
    """The library refused the call; nothing was changed."""


class NotAFile(Refused):
    """This is no control point file, or its header is damaged."""


class BadName(Refused, ValueError):
    """The name is empty, or longer than the file's names may be."""


class Present(Refused):
    """There already is a point of that name."""


class Absent(Refused, KeyError):
    """There is no point of that name."""


class TableFull(Refused):
    """There is no slot for another point."""


class NoRoom(Refused):
    """There is no room left in the file for the text."""


class TooLong(Refused):
    """The text is longer than the file's version allows."""


class Damaged(Refused):
    """The point's text, or the count of points, is damaged."""


class Unsound(Refused):
    """The file is not sound."""


class NoEpochs(Refused):
    """This is no file of epochs: its names have fewer than 5 bytes."""


class NotLarger(Refused):
    """The new image is not one into which the old one may grow."""


class SystemFailed(Error):
    """The system refused something: `errno` says what."""


class ImagesOnly(SystemFailed):
    """The shared library has the calls on images alone, as bhtf.dll has."""


class Locked(Error):
    """The file was still locked when the wait was over."""


class GivenUp(Error):
    """give_up ended the wait for a lock."""


class Replaced(Error):
    """The file was removed or replaced while it was in use."""


class Unfit(Error):
    """This is no regular file, or it has two names."""


class BrokenJournal(Error):
    """The journal beside the file stops everybody: bhtf recover shows it."""


class Misuse(Error):
    """The file is not open for this."""


class Broken(Error):
    """The disk failed in an earlier change: close the file, and open it."""


class BadDelta(Error):
    """What came is no whole delta, or it was made wrongly: send it again."""


class DeltaGap(Error):
    """The delta does not go on from this file, or not to the one wanted."""


_KINDS: Dict[int, Type[Error]] = {
    1: NotAFile, 5: NotAFile, 6: NotAFile, 7: BadName, 9: Present,
    10: TableFull, 11: Damaged, 12: TooLong, 13: NoRoom, 14: Absent,
    15: Unsound, 20: TooLong, 21: NotLarger, 23: NoEpochs, 101: SystemFailed,
    102: Locked, 103: GivenUp, 104: Replaced, 105: Unfit, 106: BrokenJournal,
    107: BrokenJournal, 108: Misuse, 109: Broken, 110: BrokenJournal,
    121: BadDelta, 122: BadDelta, 123: BadDelta, 124: BadDelta, 125: BadDelta,
    126: BadDelta, 127: DeltaGap, 128: DeltaGap, 129: DeltaGap,
}


def error_of(number: int, words: str, error: int = 0) -> Error:
    """The error for an answer, of its own class."""
    return _KINDS.get(number, Refused if number < 101 else Error)(
        number, words, error)


def raise_of_path(number: int, words: str, error: int, path: Path) -> NoReturn:
    """The same for a file by its name: what Python has a class for is that."""
    if number == 101 and error == _errno.ENOENT:
        raise FileNotFoundError(error, words, path)
    if number == 101 and error == _errno.EEXIST:
        raise FileExistsError(error, words, path)
    raise error_of(number, words, error)
