"""The library, called by way of its C exports, and the model behind the same door.

Both take a call's name and its arguments as bytes and numbers, and return what the call answered and what its slices hold afterwards, so
that the two can be compared as they are. An argument that is memory mapped, longer than one would copy, is handed over itself and changed
in place.
"""

import ctypes
import mmap

# M: a slice that the call may change; r: one that it only reads; w: a working slice, of free content; u: a number. Then how many results it
# hands back beside its number.
CALLS = {
    'create': ('Muuu', 0),
    'add': ('Mrru', 0), 'delete': ('Mr', 0), 'lookup': ('rr', 2),
    'add_slots': ('Mrru', 1), 'delete_slots': ('Mr', 1), 'lookup_slots': ('rr', 3),
    'count': ('r', 1), 'walk': ('ru', 2), 'check': ('r', 2), 'compact': ('M', 0),
    'add_listed': ('MrruwM', 1), 'delete_listed': ('MrwM', 1), 'compact_listed': ('MwM', 1),
    'add_journaled': ('MrruwM', 0), 'delete_journaled': ('MrwM', 0), 'compact_journaled': ('MwM', 0), 'recover': ('MM', 0),
    'store_columns': ('Mrru', 0), 'read_columns': ('rrM', 1),
    'convert': ('rM', 0),
    'select': ('rrrM', 1),
    'at_epoch': ('rru', 3),
    'grow': ('rr', 0),
    'grow_add': ('MMrru', 0), 'grow_delete': ('MMr', 0), 'grow_store_columns': ('MMrru', 0),
    'grow_lookup': ('rrr', 3), 'grow_count': ('rr', 1), 'grow_read_columns': ('rrrM', 1),
    'grow_select': ('rrrrM', 2), 'grow_at_epoch': ('rrru', 4),
}
PAIRED = tuple(name for name in CALLS if name.startswith('grow'))  # calls on a pair of images
# Calls that a library may not have yet: Jobs 10 to 14.
LATER = ('store_columns', 'read_columns', 'convert', 'select', 'at_epoch', *PAIRED)

GUARD = 64
GUARD_BYTES = bytes(0x5A ^ i for i in range(GUARD))


class Touched(Exception):
    """The library changed a byte that was not lent to it, or one lent for reading."""


class Room:
    """Memory from which one slice is lent at a time, with guard bytes before and behind it."""

    def __init__(self):
        self.grow(1 << 17)

    def grow(self, size):
        self.bytes = bytearray(size)
        self.base = ctypes.addressof((ctypes.c_char * size).from_buffer(self.bytes))

    def lend(self, content, shift):
        self.start = GUARD + shift
        self.end = self.start + len(content)
        if self.end + GUARD > len(self.bytes):
            self.grow(2 * (self.end + GUARD))
        self.bytes[self.start - GUARD:self.start] = GUARD_BYTES
        self.bytes[self.start:self.end] = content
        self.bytes[self.end:self.end + GUARD] = GUARD_BYTES
        return self.base + self.start

    def back(self):
        if self.bytes[self.start - GUARD:self.start] != GUARD_BYTES or self.bytes[self.end:self.end + GUARD] != GUARD_BYTES:
            raise Touched('a byte outside of a lent slice changed')
        return bytes(self.bytes[self.start:self.end])


class Library:
    def __init__(self, path):
        library = ctypes.CDLL(path)
        self.functions = {}
        for name, (kinds, results) in CALLS.items():
            if name in LATER and not hasattr(library, 'bhtf_' + name):
                continue
            function = getattr(library, 'bhtf_' + name)
            function.restype = ctypes.c_uint32
            function.argtypes = [t for kind in kinds for t in ([ctypes.c_uint32] if kind == 'u' else [ctypes.c_void_p, ctypes.c_size_t])]
            function.argtypes += [ctypes.POINTER(ctypes.c_uint32)] * results
            self.functions[name] = function
        self.rooms = [Room() for _ in range(6)]
        self.turn = 0

    def do(self, name, args, inside=None):
        """Makes a call. `inside` has a key be lent as a part of the image: its place and length there."""
        kinds, results = CALLS[name]
        self.turn += 1
        lent, handed = [], []
        for i, (kind, arg) in enumerate(zip(kinds, args)):
            if kind == 'u':
                handed.append(arg)
                continue
            if isinstance(arg, mmap.mmap):
                handed += [ctypes.addressof(ctypes.c_char.from_buffer(arg)), len(arg)]
                continue
            if inside and i == 1:
                handed += [handed[0] + inside[0], inside[1]]
                continue
            # Slices begin at odd and even places in turn, and one of length 0 may be NULL, but for an image.
            pointer = self.rooms[i].lend(arg, (self.turn + i) % 16)
            is_image = i == 0 or i == 1 and name in PAIRED
            handed += [None if not is_image and len(arg) == 0 and self.turn % 2 else pointer, len(arg)]
            lent.append((kind, arg, self.rooms[i]))
        answers = [ctypes.c_uint32(0xDEADBEEF) for _ in range(results)]
        number = self.functions[name](*handed, *answers)
        after = []
        for kind, arg, room in lent:
            content = room.back()
            if kind == 'r' and content != arg:
                raise Touched('a byte of a slice lent for reading changed')
            if kind == 'M':
                after.append(content)
        return (number, *(answer.value for answer in answers)), after


class Model:
    def __init__(self, module, growth):
        self.module, self.growth = module, growth

    def do(self, name, args):
        kinds, _ = CALLS[name]
        copies = [bytearray(arg) if kind in 'Mw' and not isinstance(arg, mmap.mmap) else arg for kind, arg in zip(kinds, args)]
        answers = getattr(self.growth if name in PAIRED else self.module, name)(*copies)
        return answers, [bytes(copy) for kind, copy in zip(kinds, copies) if kind == 'M' and not isinstance(copy, mmap.mmap)]
