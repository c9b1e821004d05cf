"""images.py [alone]: bhtf.Image, an image in memory, beside a dict and beside
the library's own calls, which this program makes by ctypes itself; in the
directory where it is run. With 'alone' the library has no calls for files.
Prints a line for each test, and 'N passed, M failed' last."""
import ctypes
import doctest
import errno
import os
import pickle
import random
import re
import sys
import threading

import bhtf
import bhtf._library

passed = failed = 0
alone = sys.argv[1:] == ["alone"]
seed = int(os.environ.get("SEED", "1"))
print("seed", seed)
rng = random.Random(seed)


def holds(name, is_true):
    global passed, failed
    print("ok:" if is_true else "FAILED:", name)
    if is_true:
        passed += 1
    else:
        failed += 1


def raises(name, kind, call, *arguments, number=None):
    try:
        call(*arguments)
    except kind as error:
        holds(name, number is None or error.number == number)
    except Exception as error:
        print("  ", type(error), error)
        holds(name, False)
    else:
        holds(name, False)


runner = doctest.DocTestRunner()
for example in doctest.DocTestFinder(recurse=False).find(bhtf.Image, "Image",
                                                         globs={}):
    runner.run(example)
holds("the examples", runner.failures == 0 and runner.tries > 10)

# ---- the library's calls, without the package ----

library = ctypes.CDLL(bhtf._library._path)


def raw(name, *arguments):
    """A call's answer: a bytearray is handed with its length, as bytes are, a
    number as it is, and each [] takes a result."""
    handed, results = [], []
    for argument in arguments:
        if isinstance(argument, bytearray):
            handed += [(ctypes.c_uint8 * len(argument)).from_buffer(argument),
                       ctypes.c_size_t(len(argument))]
        elif isinstance(argument, bytes):
            handed += [argument, ctypes.c_size_t(len(argument))]
        elif isinstance(argument, list):
            results.append((argument, ctypes.c_uint32()))
            handed.append(ctypes.byref(results[-1][1]))
        else:
            handed.append(ctypes.c_uint32(argument))
    call = getattr(library, "bhtf_" + name)
    call.restype = ctypes.c_uint32
    answer = call(*handed)
    for where, value in results:
        where[:] = [value.value]
    return answer


def made(length, key_size, slots, seed=0):
    image = bytearray(length)
    assert raw("create", image, key_size, slots, seed) == 0
    return image


holds("an image is what bhtf_create makes",
      bytes(bhtf.Image.create(12, 50, 7, 16384)) == made(16384, 12, 50, 7) and
      bytes(bhtf.Image.create(key_size=32, slots=0, seed=2**32 - 1,
                              size=1 << 20)) ==
      made(1 << 20, 32, 0, 2**32 - 1))
lengths = [(bhtf.image_length(k, s, 0, 256 * (s or 5507)),
            len(bytes(bhtf.Image.create(k, s))))
           for k in (1, 12, 32) for s in (0, 1, 16, 17, 5507)]
holds("with room for 256 bytes a slot", all(a == b for a, b in lengths))

# ---- random calls, beside a dict and those calls ----

EPOCHS = [0, 1, 7, 256, 0xFFFFFFFF]
MODES = {"new": bhtf.NEW, "replace": bhtf.REPLACE, "append": bhtf.APPEND,
         "withdraw": bhtf.WITHDRAW}


def epoch_key(name, epoch):
    return name.encode().ljust(8, b"\0") + epoch.to_bytes(4, "big")


def by_column(records, width):
    return bytes([width]) + b"".join(records[j::width] for j in range(width))


def any_name():
    if rng.random() < 0.2:
        return epoch_key(rng.choice(["E", "EPOCHS-8"]), rng.choice(EPOCHS))
    return b"P-%d" % rng.randrange(45)


def any_bytes(most):
    return bytes(rng.randrange(256) for _ in range(rng.randrange(most)))


def expect(points, slots, call, name, data):
    """What a dict answers, after it made the change."""
    if call in ("delete", "withdraw") and name not in points:
        return 14
    if call == "delete":
        del points[name]
        return 0
    if call == "new" and name in points:
        return 9
    if name not in points and len(points) == slots:
        return 10
    if call == "withdraw" or call == "append" and not data:
        points[name] = None if call == "withdraw" else points.get(name)
    else:
        points[name] = (points.get(name) or b"") + data \
            if call == "append" else data
    return 0


def answer(call, *arguments):
    try:
        call(*arguments)
    except bhtf.Refused as error:
        return error.number
    return 0


def change(image, call, name, data, records, width):
    """One way or another to make the change."""
    name = name.decode() if name.isascii() and rng.random() < 0.5 else name
    if call == "delete":
        return answer(image.__delitem__, name)
    if call == "records":
        return answer(image.store_records, name, records, width)
    if call == "replace" and rng.random() < 0.5:
        return answer(image.__setitem__, name, bytearray(data))
    if call == "append" and rng.random() < 0.5:
        return answer(image.append, name, data)
    if call == "withdraw" and rng.random() < 0.5:
        return answer(image.withdraw, name)
    return answer(image.add, name, data, MODES[call])


def change_raw(image, call, name, data, records, width):
    key = name.ljust(12, b"\0")
    if call == "delete":
        return raw("delete", image, key)
    if call == "records":
        return raw("store_columns", image, key, records, width)
    return raw("add", image, key, data, MODES[call])


def is_same(image, points):
    """All that an image tells, beside the dict."""
    for name in "E", "EPOCHS-8":
        there = [e for e in EPOCHS if epoch_key(name, e).rstrip(b"\0") in points]
        upto = rng.choice(EPOCHS)
        last = [(e, points[epoch_key(name, e).rstrip(b"\0")])
                for e in there if e <= upto][-1:]
        if image.epochs(name) != there or \
                image.at(name, upto) != (last[0] if last else None):
            return False
    fits = re.compile(rb"P-[1-3].", re.S)
    return dict(image) == points and len(image) == len(points) and \
        sorted(image) == sorted(points) and image.check() == (0, 0) and \
        all(name in image for name in points) and "NOBODY" not in image and \
        sorted(image.select("P-[1-3]?")) == sorted(filter(fits.fullmatch,
                                                          points)) and \
        sorted(image.select("*")) == sorted(points)


def random_calls(calls, slots=40):
    """Answers how often what was seen, and what was wrong."""
    image = bhtf.Image.create(12, slots, 3, 8192)
    other, points, seen = made(8192, 12, slots, 3), {}, {}
    for i in range(calls):
        call = rng.choice(["new", "new", "replace", "append", "withdraw",
                           "delete", "records", "whole"])
        name, width = any_name(), rng.randrange(1, 5)
        data, records = any_bytes(200), any_bytes(9) * width
        if call == "whole":
            call = rng.choice(["bytes", "compact", "compact", "convert"])
            if call == "bytes":
                image = bhtf.Image(rng.choice([bytes, bytearray, memoryview])(
                    bytes(image)))
            elif call == "compact":
                image.compact()
                assert raw("compact", other) == 0
            else:
                image, wide = image.convert(8192), bytearray(8192)
                assert raw("convert", other, wide) == 0
                other = wide
            seen[call] = seen.get(call, 0) + 1
        else:
            key, before = name.rstrip(b"\0"), dict(points)
            wanted = expect(points, slots, call, key, by_column(
                records, width) if call == "records" else data)
            really = change_raw(other, call, key, data, records, width)
            got = change(image, call, name, data, records, width)
            if really == 13 and wanted == 0:
                points, wanted = before, 13
            seen[got] = seen.get(got, 0) + 1
            if got != wanted or got != really:
                return seen, "call %d: %s %r: %d, not %d" % (i, call, name, got,
                                                             wanted)
            if image.get(key, 0) != points.get(key, 0) or \
                    call == "records" and got == 0 and \
                    image.read_records(key) != (width, records):
                return seen, "call %d: %s %r" % (i, call, name)
        if bytes(image) != other:
            return seen, "other bytes behind call %d: %s %r" % (i, call, name)
        if i % 20 == 0 and not is_same(image, points):
            return seen, "behind call %d" % i
    return seen, "" if is_same(image, points) else "at the end"


seen, wrong = random_calls(4000)
print("  answers and calls:", seen)
holds("4000 random calls, seed %d %s" % (seed, wrong), not wrong)
holds("with all kinds of answers", {0, 9, 10, 13, 14, "bytes", "compact",
                                    "convert"} <= set(seen))

# ---- other ways in and out ----

data = made(8192, 12, 40)
image = bhtf.Image(data)
image["A"] = "1,2,3,bolt"
holds("a bytearray is changed in place", image.data is data and
      image["A"] == b"1,2,3,bolt" and data != made(8192, 12, 40))
raises("and keeps its length meanwhile", BufferError, data.extend, b"x")
kept = bytes(image)
twin = bhtf.Image(kept)
del twin["A"]
holds("bytes are copied", kept == bytes(image) and not len(twin))
holds("an image is itself alone", image == image and image != bhtf.Image(kept)
      and hash(image) == hash(image))
holds("repr", repr(image) == "<bhtf.Image of 40 slots, 8192 bytes>")
holds("a point", image.point("A").height == 3 and
      [p.name for p in image.points()] == ["A"] and image.names() == ["A"])
image.put(bhtf.Point("B", easting=4.0, northing=5.0))
holds("stored", image.point("B").easting == 4)
about = image.about()
holds("its numbers", about.version == image.version == (1, 0, 2) and
      (about.key_size, about.slots, about.count, about.length) ==
      (12, 40, 2, 8192) and about.text_max == 16777215 and
      about.used + about.free + int.from_bytes(data[48:52], "big") == 8192)
holds("those of version 2", image.convert().version == (2, 0, 0) and
      image.convert().about().text_max == 1073741823 and
      dict(image.convert().convert()) == dict(image))

full = bhtf.Image.create(12, 40, size=8192)
for i in range(40):
    full.add("N-%02d" % i, bytes(full.about().free // (40 - i) - 4))
holds("a conversion of a full image is longer", full.about().free < 4 and
      len(bytes(full.convert())) == 12288 and
      dict(full.convert()) == dict(full))
raises("unless a length is given", bhtf.NoRoom, full.convert, 8192, number=13)

columns = image.store_records("C", b"abcdef", 2)
holds("columns", list(map(bytes, image.columns("C"))) == [b"ace", b"bdf"] and
      image.read_records("C") == (2, b"abcdef") and image["C"] == b"\2acebdf")
image.add_at("E", 5, "five")
image.add_at("E", 9, "nine")
holds("epochs", image.epochs("E") == [5, 9] and image.at("E", 8) == (5, b"five")
      and image.at("E", 4) is None and image.at("NONE", 8) is None)

# ---- what is refused ----

before = bytes(image)
raises("a name that is too long", bhtf.BadName, lambda: image["NAME-OF-13-BY"],
       number=7)
raises("to store it", bhtf.BadName, image.add, "NAME-OF-13-BY", "x", number=7)
raises("to delete it", bhtf.BadName, image.__delitem__, "NAME-OF-13-BY")
raises("is it there", bhtf.BadName, image.__contains__, "NAME-OF-13-BY")
raises("its records", bhtf.BadName, image.store_records, "NAME-OF-13-BY", b"", 1)
raises("an empty name", bhtf.BadName, image.add, "", "x", number=7)
raises("one of zeros", bhtf.BadName, image.add, b"\0\0", "x", number=7)
raises("of an epoch", bhtf.BadName, image.at, "NINE-BYTE", 1, number=7)
raises("stored, of an epoch", bhtf.BadName, image.add_at, "NINE-BYTE", 1, "x")
raises("an epoch of 33 bits", OverflowError, image.at, "E", 2**32 + 5)
raises("or below 0", OverflowError, image.at, "E", -1)
raises("to store it", OverflowError, image.add_at, "E", 2**32, "x")
raises("a point that is not there", KeyError, lambda: image["NOBODY"])
raises("nor deleted", bhtf.Absent, image.__delitem__, "NOBODY", number=14)
raises("nor withdrawn", bhtf.Absent, image.withdraw, "NOBODY", number=14)
raises("one that is there", bhtf.Present, image.add, "A", "x", number=9)
raises("a mode that is none", bhtf.Refused, image.add, "A", "x", 5, number=8)
raises("a mode of 33 bits", OverflowError, image.add, "A", "x", 2**32 + 2)
raises("a text without room", bhtf.NoRoom, image.add, "BIG", bytes(9000),
       number=13)
raises("what is no records", bhtf.Refused, image.read_records, "B", number=19)
raises("records of no width", bhtf.Refused, image.store_records, "B", b"", 0,
       number=19)
raises("a width of 33 bits", OverflowError, image.store_records, "B", b"",
       2**32 + 1)
raises("half a record", bhtf.Refused, image.store_records, "B", b"abc", 2,
       number=19)
raises("a text that is none", TypeError, image.add, "Z", 5)
raises("a name that is none", TypeError, lambda: image[5])
raises("a pattern that is too long", ValueError, image.select, "?" * 13)
raises("an update with one of them", bhtf.BadName, image.update,
       [("U-1", "x"), ("A", "other"), ("NAME-OF-13-BY", "x")])
raises("with a text that is none", TypeError, image.update, {"U-1": "x", "A": 5})
raises("a conversion to no length", bhtf.NotAFile, image.convert, 8000, number=1)
raises("or none at all", bhtf.NotAFile, image.convert, 0, number=1)
holds("nothing changed", before == bytes(image))
image.update({"U-1": "x", "A": "other"})
holds("an update", image["U-1"] == b"x" and image["A"] == b"other")

raises("what is no image", bhtf.NotAFile, bhtf.Image, bytes(8192), number=5)
raises("of no length", bhtf.NotAFile, bhtf.Image, b"", number=1)
raises("of no whole page", bhtf.NotAFile, bhtf.Image, before[:-1], number=1)
raises("cut", bhtf.NotAFile, bhtf.Image, before[:4096], number=6)
raises("what is no bytes", TypeError, bhtf.Image, "abc")
raises("a number", TypeError, bhtf.Image, 8192)
raises("keys of 33 bytes", bhtf.Refused, bhtf.Image.create, 33, number=2)
raises("too many slots", bhtf.Refused, bhtf.Image.create, 12, 1 << 21, number=3)
raises("slots of 33 bits", OverflowError, bhtf.Image.create, 12, 2**32 + 5)
raises("a seed of 33 bits", OverflowError, bhtf.Image.create, 12, 5, 2**32)
raises("no room for the table", bhtf.Refused, bhtf.Image.create, 12, 500, 0,
       4096, number=4)
raises("no whole page", bhtf.NotAFile, bhtf.Image.create, 12, 5, 0, 5000,
       number=1)
raises("longer than an image may be", bhtf.NotAFile, bhtf.Image.create, 12, 5, 0,
       2**30 + 4096, number=1)
raises("no epochs", bhtf.NoEpochs, bhtf.Image.create(4, 5).at, "A", 3, number=23)

damaged = bytearray(before)
damaged[20:24] = bytes([0, 0, 0, 39])  # the count
image = bhtf.Image(damaged)
holds("a wrong count is told", image.check() == (2, 0) and not image.is_sound())
raises("not compacted", bhtf.Unsound, image.compact, number=15)
raises("not converted", bhtf.Unsound, image.convert, number=15)
damaged[12:16] = bytes([0, 0, 0, 64])  # the key size
for call in (image.compact, image.check, image.about, lambda: image["A"],
             lambda: list(image), lambda: image.select("*"),
             lambda: image.add("A", "x"), lambda: image.epochs("E")):
    raises("a header that is damaged later", bhtf.NotAFile, call, number=6)

# ---- any bytes ----


def calls_on(image):
    name = any_name()
    return [lambda: image[name], lambda: dict(image), lambda: list(image),
            lambda: image.select("P-*"), lambda: image.epochs("E"),
            lambda: image.add(name, b"x", rng.randrange(6)),
            lambda: image.append(name, b"x"), lambda: image.withdraw(name),
            lambda: image.__delitem__(name), lambda: image.read_records(name),
            lambda: image.store_records(name, b"xy", 1), image.check,
            image.compact, image.convert, image.about, image.points]


def any_damage(turns):
    """Damages images; answers how many refusals, and what was none."""
    refused = 0
    for turn in range(turns):
        data = bytearray(before)
        for _ in range(rng.randrange(1, 5)):
            at = rng.choice([rng.randrange(64), 2048 + rng.randrange(800),
                             rng.randrange(len(data))])
            data[at] = rng.randrange(256)
        try:
            image = bhtf.Image(data)
        except bhtf.NotAFile:
            refused += 1
            continue
        for i, call in enumerate(calls_on(image)):
            kept = bytes(data)
            try:
                call()
            except bhtf.Refused:
                refused += 1
                if kept != data:
                    return refused, "turn %d: refused call %d wrote" % (turn, i)
            except Exception as error:
                return refused, "turn %d, call %d: %r" % (turn, i, error)
    return refused, ""


refused, wrong = any_damage(500)
holds("500 damaged images, seed %d %s" % (seed, wrong), not wrong)
holds("some of them refused", refused > 100)
for _ in range(200):
    size = rng.choice([4096, 8192, rng.randrange(9000)])
    if answer(bhtf.Image, rng.getrandbits(8 * size + 1).to_bytes(
            size + 1, "big")[1:]) == 0:
        holds("bytes that are no image are taken", False)
        break
else:
    holds("bytes that are no image are refused", True)

# ---- pairs of images ----

old = bhtf.Image.create(12, 20)
old.update(("K-%02d" % i, str(i)) for i in range(20))
book = dict(old)
larger = bhtf.Image(bhtf.larger(old, 50))
pair = bhtf.Pair(old, larger)
pair["K-20"] = "20"
book[b"K-20"] = b"20"
holds("an image grows into another", dict(pair) == book and
      pair.old is old.data and pair.new is larger.data and not pair.finished)
while not pair.finished:
    pair.go_on()
holds("to the end", dict(larger) == book and not len(old) and larger.is_sound())
raises("not into itself", ValueError, bhtf.Pair, larger, larger)
raises("as bytes", ValueError, bhtf.Pair, before, before)
raises("nor by its bytes", ValueError, bhtf.Pair, larger, larger.data)
raises("a pair refuses a long name", bhtf.BadName, pair.add, "NAME-OF-13-BY", "")
raises("and an epoch of 33 bits", OverflowError, pair.at, "E", 2**32)

# ---- threads ----

image = bhtf.Image.create(12, 200)
right = []


def count_up(name):
    for n in range(100):
        image[name] = str(n)
        right.append(int(image[name]) == n)


threads = [threading.Thread(target=count_up, args=("U%d" % i,))
           for i in range(4)]
for thread in threads:
    thread.start()
for thread in threads:
    thread.join()
holds("four threads with one image", len(right) == 400 and all(right) and
      len(image) == 4 and image.is_sound())
other = threading.Thread(target=image.compact)
with image._lock:
    other.start()
    other.join(0.05)
    waits = other.is_alive()
other.join()
holds("a thread waits for the call of another", waits)

# ---- files ----

if alone:
    for name, call in [
            ("open", lambda: bhtf.open("site")),
            ("create", lambda: bhtf.create("site")),
            ("put", lambda: bhtf.put("site", before)),
            ("sum_of", lambda: bhtf.sum_of(before)),
            ("delta", lambda: bhtf.delta(before, before)),
            ("deltas", lambda: list(bhtf.deltas(b"abc"))),
            ("changes", lambda: bhtf.changes(before, before))]:
        raises(name + " needs the whole library", bhtf.ImagesOnly, call,
               number=101)
    try:
        bhtf.open("site")
    except bhtf.Error as error:
        told = pickle.loads(pickle.dumps(error))
        holds("and says why", told.errno == errno.ENOSYS and
              isinstance(told, bhtf.SystemFailed) and
              str(told).startswith(bhtf._library._path + " has no bhtf_file_op")
              and "calls on images in memory alone" in str(told))
    holds("no file was made", not os.listdir("."))
else:
    bhtf.create("site", key_size=12, slots=60, seed=9)
    with bhtf.open("site", write=True, sync=False) as f:
        image = bhtf.Image.create(key_size=12, slots=60, seed=9)
        holds("an image is made as a file is", bytes(image) == f.image())
        for _ in range(60):
            with f.batch():
                for _ in range(rng.randrange(20)):
                    call = rng.choice(list(MODES) + ["delete", "records"])
                    words = call, any_name(), any_bytes(90), any_bytes(9) * 3, 3
                    if change(f, *words) != change(image, *words):
                        holds("as a file answers: %s %r" % words[:2], False)
            if rng.random() < 0.2:
                f.compact()
                image.compact()
            if bytes(image) != f.image():
                holds("as a file has them", False)
                break
        else:
            holds("random calls leave a file's bytes", len(image) > 20)
        holds("and tell the same numbers", image.about() == f.about() and
              sorted(image.select("P-[!1]*")) == sorted(f.select("P-[!1]*")))
        f.convert("wide")
        raises("a file refuses an epoch of 33 bits", OverflowError, f.at, "E",
               2**32)
        raises("and a mode", OverflowError, f.add, "Z", "x", 2**32 + 1)
        raises("and slots", OverflowError, bhtf.create, "none", 12, 2**32 + 5)
        holds("which makes none", not os.path.exists("none"))
    with bhtf.open("wide") as f:
        holds("a conversion is a file's", f.image() == bytes(image.convert()))
    bhtf.put("full", bytes(full))
    with bhtf.open("full") as f:
        f.convert("full-2")
    with bhtf.open("full-2") as f:
        holds("and so is a longer one", f.image() == bytes(full.convert()))
        f.convert("full-1")
    with bhtf.open("full-1") as f:
        holds("and back", f.image() == bytes(full.convert().convert()))

print("%d passed, %d failed" % (passed, failed))
sys.exit(failed > 0)
