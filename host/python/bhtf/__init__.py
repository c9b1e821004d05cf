"""Control point files for Python, over libbhtf (see bhtf_file(3)).

>>> import bhtf
>>> bhtf.create("site.bhtf", key_size=12, slots=100)
>>> with bhtf.open("site.bhtf", write=True) as f:
...     f["CP-104"] = "4482113.402,5351874.118,489.271,bolt"
...     with f.batch():                 # all of it, or nothing
...         f.add("CP-105", "")
...         f.put(bhtf.Point("CP-106", easting=4482120.0, northing=5351880.5))
>>> with bhtf.open("site.bhtf") as f:
...     f["CP-104"]                     # bytes, or None without a text
...     f.point("CP-104").easting
...     sorted(f.names())
b'4482113.402,5351874.118,489.271,bolt'
4482113.402
['CP-104', 'CP-105', 'CP-106']

A name that does not fit is refused, and never cut:

>>> with bhtf.open("site.bhtf") as f:
...     f["CP-101-IS-A-LONG-NAME"]
Traceback (most recent call last):
 ...
bhtf.BadName: site.bhtf: refused (7): the name has 21 bytes, and in this file a name has 1 to 12

Names and texts are bytes; a str is taken as UTF-8, and anything else is refused
with TypeError. A File is a mapping of names to texts, as keys(), values(),
items() and dict(f) show it.

Changes travel as records, from an office to its stations:

>>> import shutil
>>> _ = shutil.copy("site.bhtf", "copy.bhtf")
>>> with bhtf.open("site.bhtf", write=True) as f:
...     with f.batch():
...         del f["CP-105"]
...         record = f.delta()
>>> with bhtf.open("copy.bhtf", write=True) as copy:
...     with copy.batch():
...         copy.apply(record).applied
...         [(c.kind, c.name) for c in copy.changes()]
1
[('gone', 'CP-105')]

An image in memory needs no file, and the calls of bhtf.h alone, so that it is
there with bhtf.dll on Windows, too, where all that needs files or deltas raises
ImagesOnly:

>>> image = bhtf.Image.create(key_size=12, slots=100)
>>> image["CP-104"] = "4482113.402,5351874.118,489.271,bolt"
>>> bhtf.Image(bytes(image)).point("CP-104").height
489.271

One grows into a larger one while the work goes on:

>>> with bhtf.open("site.bhtf") as f:
...     pair = bhtf.Pair(f.image(), bhtf.larger(f.image(), slots=1000))
>>> pair["CP-107"] = "4482121,5351881,489.2,new"
>>> pair.finished, len(pair)            # pair.new has all of them now
(True, 3)

One thread at a time uses a File: others wait, and find it closed if it was
closed meanwhile. A process that was forked opens the file again: everything but
close() of a file that its parent opened is refused.
The library is looked for as the environment variable BHTF_LIBRARY says, in this
package, in the lib beside the share that this package was installed to, and
where the system looks. It is libbhtf.so.1, and bhtf.dll on Windows.
"""
from ._deltas import (Applied, Change, Delta, changes, delta, deltas, put,
                     sum_of)
from ._errors import (Absent, BadDelta, BadName, Broken, BrokenJournal, Damaged,
                     DeltaGap, Error, GivenUp, ImagesOnly, Locked, Misuse,
                     NoEpochs, NoRoom, NotAFile, NotLarger, Present, Refused,
                     Replaced, SystemFailed, TableFull, TooLong, Unfit, Unsound)
from ._files import File, create, open
from ._images import Image, image_length
from ._mapping import APPEND, NEW, REPLACE, WITHDRAW, About
from ._pairs import Pair, larger
from ._points import Point

__version__ = "1.0.0"

# Answers by number, as bhtf.h and bhtf_file.h have them.
ABSENT, SYSTEM, LOCKED, MISUSE = 14, 101, 102, 108

__all__ = [
    "APPEND", "NEW", "REPLACE", "WITHDRAW", "ABSENT", "SYSTEM", "LOCKED",
    "MISUSE", "About", "Absent", "Applied", "BadDelta", "BadName", "Broken",
    "BrokenJournal", "Change", "Damaged", "Delta", "DeltaGap", "Error", "File",
    "GivenUp", "Image", "ImagesOnly", "Locked", "Misuse", "NoEpochs", "NoRoom",
    "NotAFile", "NotLarger", "Pair", "Point", "Present", "Refused", "Replaced",
    "SystemFailed", "TableFull", "TooLong", "Unfit", "Unsound", "changes",
    "create", "delta", "deltas", "image_length", "larger", "open", "put",
    "sum_of",
]

# Classes are shown by the name under which they are used.
for _name in __all__:
    if isinstance(globals()[_name], type):
        globals()[_name].__module__ = "bhtf"
del _name
