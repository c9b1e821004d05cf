"""libbhtf: found, loaded, and its calls declared as the headers have them."""
from __future__ import annotations

import ctypes
import ctypes.util
import errno
import os
import sys
from typing import Any, Iterator, NoReturn

from ._errors import ImagesOnly

u32, size, u64 = ctypes.c_uint32, ctypes.c_size_t, ctypes.c_uint64
address, chars = ctypes.c_void_p, ctypes.c_char_p
result = ctypes.POINTER(ctypes.c_uint32)
size_result = ctypes.POINTER(ctypes.c_size_t)
text_result = ctypes.POINTER(ctypes.c_void_p)
GiveUp = ctypes.CFUNCTYPE(ctypes.c_int, ctypes.c_void_p)

KEY_MAX = 32
SUM = 32
FOREVER = 0xFFFFFFFF
WRITE, NO_SYNC = 1, 2


class Why(ctypes.Structure):
    _fields_ = [("number", u32), ("error", ctypes.c_int),
                ("words", ctypes.c_char * 512)]


class Options(ctypes.Structure):
    _fields_ = [("size", size), ("flags", u32), ("wait", u32),
                ("give_up", GiveUp), ("with_", address)]


class About(ctypes.Structure):
    _fields_ = [("version", u32 * 3), ("key_size", u32), ("slots", u32),
                ("count", u32), ("length", u64), ("used", u64), ("free", u64),
                ("message_max", u32), ("message_header", u32)]


class FilePoint(ctypes.Structure):
    _fields_ = [("slot", u32), ("next", u32), ("key", address),
                ("key_len", size), ("name_len", size), ("text", address),
                ("text_len", size), ("number", u32)]


class Delta(ctypes.Structure):
    _fields_ = [("size", size), ("image_len", u32),
                ("before", ctypes.c_uint8 * SUM),
                ("after", ctypes.c_uint8 * SUM), ("stretches", u32)]


class Stretch(ctypes.Structure):
    _fields_ = [("number", u32), ("offset", u32), ("length", u32),
                ("at", size)]


class Applied(ctypes.Structure):
    _fields_ = [("applied", u32), ("passed", u32), ("record", u32),
                ("sum", ctypes.c_uint8 * SUM)]


class Change(ctypes.Structure):
    _fields_ = [("kind", u32), ("key_offset", u32), ("old_offset", u32),
                ("old_length", u32), ("new_offset", u32), ("new_length", u32),
                ("next", u32), ("first_image", u32)]


def _places() -> Iterator[str]:
    """Where the library may be, the first that is there counts."""
    here = os.path.dirname(os.path.abspath(__file__))
    names = ("bhtf.dll",) if sys.platform == "win32" else \
        ("libbhtf.so.1", "libbhtf.so")
    if os.environ.get("BHTF_LIBRARY"):
        yield os.environ["BHTF_LIBRARY"]
    for place in (here, os.path.join(here, "..", "..", "..", "lib")):
        for name in names:
            path = os.path.join(place, name)
            if os.path.exists(path):
                yield path
    found = ctypes.util.find_library("bhtf")
    if found:
        yield found
    yield names[0]


_path = next(_places())
_lib = ctypes.CDLL(_path)
# Some have the calls of bhtf.h and no others, as the DLL for Windows.
_files = hasattr(_lib, "bhtf_file_open_with")


def _call(name: str, answer: Any, *arguments: Any) -> Any:
    function = getattr(_lib, "bhtf_" + name)
    function.restype = answer
    function.argtypes = arguments
    return function


def _file(name: str, answer: Any, *arguments: Any) -> Any:
    """A call of bhtf_file.h or bhtf_delta.h."""
    if _files:
        return _call(name, answer, *arguments)

    def refuse(*_: Any) -> NoReturn:
        raise ImagesOnly(101, "%s has no bhtf_%s: it has the calls on images "
                         "in memory alone, so that bhtf.Image and bhtf.Pair "
                         "work, and files and deltas need the whole library"
                         % (_path, name), errno.ENOSYS)
    return refuse


P = ctypes.POINTER
message = _call("message", chars, u32)
image_len = _call("image_len", u32, u32, u32, u32, u64, size_result)
store_columns = _call("store_columns", u32, address, size, chars, size, chars,
                      size, u32)
read_columns = _call("read_columns", u32, address, size, chars, size, address,
                     size, result)
create = _call("create", u32, address, size, u32, u32, u32)
convert_image = _call("convert", u32, address, size, address, size)
count = _call("count", u32, address, size, result)
walk_image = _call("walk", u32, address, size, u32, result, result)
add_image = _call("add", u32, address, size, chars, size, chars, size, u32)
delete_image = _call("delete", u32, address, size, chars, size)
lookup_image = _call("lookup", u32, address, size, chars, size, result, result)
select_image = _call("select", u32, address, size, chars, size, chars, size,
                     address, size, result)
at_epoch_image = _call("at_epoch", u32, address, size, chars, size, u32, result,
                       result, result)
check_image = _call("check", u32, address, size, result, result)
compact_image = _call("compact", u32, address, size)
message_max = _call("message_max", u32, address, size)

pair = (address, size, address, size)
grow = _call("grow", u32, *pair)
grow_add = _call("grow_add", u32, *pair, chars, size, chars, size, u32)
grow_delete = _call("grow_delete", u32, *pair, chars, size)
grow_lookup = _call("grow_lookup", u32, *pair, chars, size, result, result,
                    result)
grow_count = _call("grow_count", u32, *pair, result)
grow_select = _call("grow_select", u32, *pair, chars, size, chars, size,
                    address, size, result, result)
grow_at_epoch = _call("grow_at_epoch", u32, *pair, chars, size, u32, result,
                      result, result, result)
grow_store_columns = _call("grow_store_columns", u32, *pair, chars, size,
                           chars, size, u32)
grow_read_columns = _call("grow_read_columns", u32, *pair, chars, size,
                          address, size, result)

open_with = _file("file_open_with", address, chars, P(Options), P(Why))
make = _file("file_make", u32, chars, u32, u32, u32, size, P(Options), P(Why))
convert = _file("file_convert", u32, address, chars, size)
close = _file("file_close", u32, address)
image = _file("file_image", address, address, size_result)
pause = _file("file_pause", u32, address)
refresh = _file("file_refresh", u32, address)
about = _file("file_about", u32, address, P(About), size)
check = _file("file_check", u32, address, result, result)
lookup = _file("file_lookup", u32, address, chars, size, text_result,
               size_result)
walk = _file("file_walk", u32, address, P(FilePoint))
slot = _file("file_slot", u32, address, u32, P(FilePoint))
select = _file("file_select", u32, address, chars, chars, size, address, size,
               result)
at_epoch = _file("file_at_epoch", u32, address, chars, u32, result,
                 text_result, size_result)
add = _file("file_add", u32, address, chars, size, chars, size, u32)
delete = _file("file_delete", u32, address, chars, size)
compact = _file("file_compact", u32, address)
begin = _file("file_begin", u32, address)
commit = _file("file_commit", u32, address)
rollback = _file("file_rollback", u32, address)
batch_image = _file("file_batch_image", address, address, size_result)
error = _file("file_error", P(Why), address)
recovered = _file("file_recovered", ctypes.c_int, address)
unsure = _file("file_unsure", ctypes.c_int, address)

sum_of = _file("sum", None, chars, size, address)
file_sum = _file("file_sum", u32, address, address)
delta_make = _file("delta_make", u32, chars, chars, size, chars, address, size,
                   size_result)
delta_check = _file("delta_check", u32, address, size, P(Delta))
delta_next = _file("delta_next", ctypes.c_int, address, P(Stretch))
file_delta = _file("file_delta", u32, address, address, size, size_result)
file_apply = _file("file_apply", u32, address, chars, size, chars, P(Applied))
file_before = _file("file_before", address, address, size_result)
file_changes = _file("file_changes", u32, address, P(Change))
changes = _file("changes", u32, chars, size, chars, size, P(Change))
put = _file("file_put", u32, chars, chars, size, P(Options), P(Why))


def words(why: Why) -> str:
    return bytes(why.words).decode(errors="replace")


def sentence(number: int) -> str:
    return str(message(number).decode())


def options(write: bool = False, sync: bool = True, wait: "float | None" = 10,
            give_up: Any = None) -> Options:
    """The library's options; the caller keeps them as long as a file is open,
    for give_up."""
    call = GiveUp(lambda _: int(bool(give_up()))) if give_up else GiveUp(0)
    if wait is None or wait * 1000 >= FOREVER:
        milliseconds = FOREVER
    else:
        milliseconds = max(0, int(wait * 1000))
    flags = (WRITE if write else 0) | (0 if sync else NO_SYNC)
    return Options(ctypes.sizeof(Options), flags, milliseconds, call, None)
