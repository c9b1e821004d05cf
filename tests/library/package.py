"""package.py [numpy]: the package bhtf as it is installed, in the directory where
it is run; `numpy` says that numpy is there. Prints a line for each test, and
'N passed, M failed' last."""
import collections.abc
import doctest
import importlib
import os
import pickle
import random
import struct
import sys
import threading

import bhtf

passed = failed = 0
seed = int(os.environ.get("SEED", "1"))


def holds(name, is_true):
    global passed, failed
    print("ok:" if is_true else "FAILED:", name)
    if is_true:
        passed += 1
    else:
        failed += 1


def raises(name, kind, call, *arguments, number=None):
    try:
        call(*arguments)
    except kind as error:
        holds(name, number is None or error.number == number)
    except Exception as error:
        print("  ", type(error), error)
        holds(name, False)
    else:
        holds(name, False)


# ---- the examples of the documentation ----

for module in "bhtf", "bhtf._deltas", "bhtf._images":
    result = doctest.testmod(importlib.import_module(module))
    holds("examples of " + module, result.failed == 0 and result.attempted > 0)
    for left in "site.bhtf", "copy.bhtf", "small.bhtf":
        if os.path.exists(left):
            os.unlink(left)

# ---- a mapping ----

bhtf.create("site", key_size=12, slots=100)
f = bhtf.open("site", write=True)
f.update({"CP-1": "1,2,3,bolt", b"CP-2": b"", "CP-3": bytearray(b"x")})
f.withdraw("CP-3")
expected = {b"CP-1": b"1,2,3,bolt", b"CP-2": b"", b"CP-3": None}
holds("dict(f)", dict(f) == expected)
holds("keys, values and items", set(f.keys()) == set(expected) and
      sorted(map(str, f.values())) == sorted(map(str, expected.values())) and
      dict(f.items()) == expected)
holds("it is a Mapping", isinstance(f, collections.abc.Mapping))
holds("len, in, get", len(f) == 3 and "CP-1" in f and "CP-9" not in f and
      f.get("CP-9", 7) == 7 and f.get("CP-3", 7) is None)
holds("a file is itself alone", f == f and f != bhtf.open("site") and
      hash(f) == hash(f))
raises("an absent point is a KeyError", KeyError, lambda: f["CP-9"])
raises("and an Absent", bhtf.Absent, lambda: f["CP-9"], number=14)
holds("path and repr", f.path == "site" and "to write" in repr(f))

# ---- wrong types and names ----

for wrong in 5, [65, 66], None, 1.5, ("a",), bytearray(b"CP-1"):
    raises("no name: %r" % (wrong,), TypeError, lambda: f[wrong])
for wrong in 5, [65, 66], None, 1.5:
    raises("no text: %r" % (wrong,), TypeError, f.__setitem__, "CP-5", wrong)
holds("nothing was stored", "CP-5" not in f)
for call in f.__getitem__, f.__delitem__, f.__contains__, f.withdraw:
    raises("a long name, in %s" % call.__name__, bhtf.BadName, call,
           "CP-1-IS-TOO-LONG", number=7)
raises("which is a ValueError", ValueError, f.add, "CP-1-IS-TOO-LONG", "x")
raises("an empty name", bhtf.BadName, f.add, "", "x")
raises("no delta: a str", TypeError, f.apply, "BHTFd")
raises("no image: a list", TypeError, bhtf.sum_of, [1])

# ---- errors by class ----

raises("Present", bhtf.Present, f.add, "CP-1", "x", number=9)
raises("NoRoom", bhtf.NoRoom, f.add, "BIG", b"x" * 100000, number=13)
raises("Locked", bhtf.Locked, lambda: bhtf.open("site", write=True, wait=0))
raises("GivenUp", bhtf.GivenUp,
       lambda: bhtf.open("site", write=True, give_up=lambda: True))
raises("Misuse", bhtf.Misuse, lambda: bhtf.open("site").add("x", "y"))
raises("NotAFile, when it is opened", bhtf.NotAFile, bhtf.open, "/etc/passwd")
raises("FileNotFoundError", FileNotFoundError, bhtf.open, "nobody")
raises("FileExistsError", FileExistsError, bhtf.create, "site")
raises("NotAFile, of create", bhtf.Refused, lambda: bhtf.create("z", 33))
raises("a size that is none", bhtf.NotAFile,
       lambda: bhtf.create("z", size=5000), number=1)
reader = bhtf.open("site")
reader.pause()
raises("a paused reader is told to refresh", bhtf.Misuse,
       lambda: reader["CP-1"], number=108)
reader.refresh()
holds("and is not, then", reader["CP-1"] == b"1,2,3,bolt")
reader.close()
raises("a closed one", ValueError, lambda: reader["CP-1"])
bhtf.create("full", key_size=4, slots=2, size=8192)
with bhtf.open("full", write=True) as full:
    full.update({"A": "1", "B": "2"})
    raises("TableFull", bhtf.TableFull, full.add, "C", "3", number=10)
    raises("NoEpochs", bhtf.NoEpochs, full.at, "A", 3, number=23)
error = bhtf.Locked(102, "words", 11)
again = pickle.loads(pickle.dumps(error))
holds("an error is kept by pickle", type(again) is bhtf.Locked and
      again.number == 102 and again.errno == 11 and str(again) == "words")

# ---- points ----

p = f.point("CP-1")
holds("a point has coordinates", (p.easting, p.northing, p.height, p.note) ==
      (1.0, 2.0, 3.0, "bolt"))
f.put(bhtf.Point("CP-4", 4482113.402, 5351874.118, note='a "nail", bent'))
holds("a point that is stored is the one that is read",
      f.point("CP-4") == bhtf.Point("CP-4", 4482113.402, 5351874.118, None,
                                    'a "nail", bent'))
raises("no coordinates", ValueError, f.point, "CP-2")
raises("half of them", ValueError, lambda: bhtf.Point("x", 1.0))
holds("all that have some", [p.name for p in f.points()] == ["CP-1", "CP-4"])
rng = random.Random(seed)
for _ in range(300):
    p = bhtf.Point("P", round(rng.uniform(-1e7, 1e7), rng.randrange(7)),
                   rng.uniform(-1e7, 1e7), rng.choice([None, 1e-7, -0.25]),
                   "".join(rng.choice('ab ,"\nü') for _ in range(rng.randrange(5))))
    if bhtf.Point.of("P", p.text()) != p or b"e" in p.text().split(b",")[0]:
        holds("seed %d: %r" % (seed, p), False)
        break
else:
    holds("300 random points, there and back", True)

# ---- numbers, selections, epochs ----

about = f.about()
holds("about", about.key_size == 12 and about.slots == 100 and
      about.count == 4 and about.version == (1, 0, 2) and
      about.used + about.free + 4096 == about.length and f.is_sound())
f.update(("S-%02d" % i, str(i)) for i in range(20))
holds("select", sorted(f.select("S-1[0-4]")) ==
      [b"S-%d" % i for i in range(10, 15)] and
      len(list(f.select("S-*"))) == 20 and not list(f.select("X*")))
for epoch in 3, 7, 9:
    f.add_at("PRISM", epoch, str(epoch))
holds("epochs", f.epochs("PRISM") == [3, 7, 9] and f.at("PRISM", 8) ==
      (7, b"7") and f.at("PRISM", 2) is None)
raises("an epoch's name that is too long", bhtf.BadName, f.add_at,
       "PRISM-007", 1, "x")
holds("how long a file must be", bhtf.image_length(12, 100) == 4096)

# ---- readings ----

readings = [rng.randrange(-2**31, 2**31) for _ in range(50)]
f.store_records("READ", struct.pack(">50i", *readings), 4)
holds("records", f.read_records("READ") == (4, struct.pack(">50i", *readings)))
columns = f.columns("READ")
holds("their columns", [bytes(c) for c in columns] ==
      [bytes(struct.pack(">i", r)[j] for r in readings) for j in range(4)])
if "numpy" in sys.argv:
    import numpy
    holds("as a numpy array", isinstance(columns, numpy.ndarray) and
          columns.shape == (4, 50) and columns.dtype == numpy.uint8)
    holds("records as numbers", list(f.records("READ", ">i4")) == readings)
    table = numpy.zeros(7, [("direction", ">f8"), ("distance", ">f4")])
    table["direction"] = numpy.arange(7)
    f.store_records("TABLE", table)
    holds("a table there and back",
          (f.records("TABLE", table.dtype) == table).all())
    raises("another width", ValueError, f.records, "TABLE", ">i4")
else:
    holds("without numpy, memoryviews", isinstance(columns[0], memoryview))
    raises("and no arrays", ImportError, f.records, "READ", ">i4")
raises("what is no records", bhtf.Refused, f.read_records, "CP-1", number=19)

# ---- batches and deltas ----

before = f.image()
try:
    with f.batch():
        del f["CP-1"]
        raise RuntimeError
except RuntimeError:
    pass
holds("a batch that fails is undone", f.image() == before)
with f.batch():
    del f["CP-1"]
    f["CP-2"] = "other"
    f["CP-7"] = "new"
    record = f.delta()
    kinds = sorted((c.kind, c.name, c.old, c.new) for c in f.changes())
after = f.image()
holds("what a batch changes", kinds == [
    ("gone", "CP-1", b"1,2,3,bolt", None), ("new", "CP-7", None, b"new"),
    ("other", "CP-2", b"", b"other")])
holds("the same of two images",
      sorted((c.kind, c.name, c.old, c.new)
             for c in bhtf.changes(before, after)) == kinds)
holds("its record is that of two images", record == bhtf.delta(before, after))
(d,) = bhtf.deltas(record)
holds("what a record says", d.before == bhtf.sum_of(before) and
      d.after == f.sum() and d.image_len == len(after) and
      len(d.record) == len(record))
patched = bytearray(before)
for offset, new in d.stretches:
    patched[offset:offset + len(new)] = new
holds("its stretches", patched == after)
bhtf.put("copy", before)
with bhtf.open("copy", write=True) as copy:
    raises("a record that was cut", bhtf.BadDelta, copy.apply, record[:-1],
           number=123)
    raises("an end that is another", bhtf.DeltaGap, copy.apply, record,
           bytes(32), number=129)
    raises("an end of no length", ValueError, copy.apply, record, b"")
    holds("apply", copy.apply(record, f.sum()) ==
          bhtf.Applied(1, 0, f.sum()) and copy.image() == after)
    holds("once", copy.apply(record).passed == 1)
    copy["CP-8"] = "changed by others"
    raises("a gap", bhtf.DeltaGap, copy.apply, record, number=128)
raises("no delta", bhtf.BadDelta, lambda: list(bhtf.deltas(b"something")),
       number=121)
raises("no delta outside of a batch", bhtf.Misuse, f.delta)
raises("nor changes", bhtf.Misuse, f.changes)
bhtf.put("copy", after)
with bhtf.open("copy") as copy:
    holds("a whole image in a file's place", copy.image() == after)
raises("not in that of another file", bhtf.NotAFile, bhtf.put, sys.argv[0],
       after)
raises("images of two lengths", bhtf.DeltaGap, bhtf.delta, before,
       before + bytes(4096))

# ---- threads, and forks ----


def count_up(name):
    for n in range(50):
        f[name] = str(n)
        seen.append(int(f[name]) == n and len(f) > 0)


seen = []
threads = [threading.Thread(target=count_up, args=("T%d" % i,))
           for i in range(4)]
for thread in threads:
    thread.start()
for thread in threads:
    thread.join()
holds("four threads with one file", len(seen) == 200 and all(seen))
other = threading.Thread(target=f.add, args=("OTHER", "kept"))
try:
    with f.batch():
        other.start()
        other.join(0.05)
        f["MINE"] = "x"
        raise RuntimeError
except RuntimeError:
    pass
other.join()
holds("a batch that is undone takes no other thread's change with it",
      f.get("OTHER") == b"kept" and "MINE" not in f)
child = os.fork()
if child == 0:
    try:
        for call in f.sum, f.about, f.image, lambda: list(f):
            try:
                call()
                os._exit(1)
            except bhtf.Misuse:
                pass
        f.close()
        os._exit(0)
    finally:
        os._exit(2)
holds("a fork is refused, and may close", os.waitpid(child, 0)[1] == 0)
f["CP-9"] = "the parent goes on"
holds("its parent goes on", f["CP-9"] == b"the parent goes on")
f.close()
holds("closed", f.closed and "closed" in repr(f))

holds("its version", bhtf.__version__.count(".") == 2)
holds("all that is named is there",
      all(hasattr(bhtf, name) for name in bhtf.__all__))
print("%d passed, %d failed" % (passed, failed))
sys.exit(failed > 0)
