"""readings.py FILE NAME NUMBER..: stores readings under a name, by column, and
prints what is stored then. A reading is a signed number of tenths of a
millimetre, 4 bytes, most significant first."""
import struct
import sys

import bhtf

path, name, *words = sys.argv[1:]
try:
    with bhtf.open(path, write=True) as f:
        width, old = (4, b"") if f.get(name) is None else f.read_records(name)
        if width != 4:
            raise ValueError("the readings there have %d bytes" % width)
        new = b"".join(struct.pack(">i", int(word)) for word in words)
        f.store_records(name, old + new, 4)
        for (number,) in struct.iter_unpack(">i", f.read_records(name)[1]):
            print(number)
except (bhtf.Error, OSError, ValueError) as error:
    sys.exit("readings: %s" % error)
