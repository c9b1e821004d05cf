"""pairs.py: bhtf.Pair, an image that grows into another, beside a dict; in the
directory where it is run. Prints a line for each test, and 'N passed, M failed'
last."""
import doctest
import os
import random
import re
import struct
import sys
import threading

import bhtf

passed = failed = 0
seed = int(os.environ.get("SEED", "1"))
print("seed", seed)
rng = random.Random(seed)


def holds(name, is_true):
    global passed, failed
    print("ok:" if is_true else "FAILED:", name)
    if is_true:
        passed += 1
    else:
        failed += 1


def raises(name, kind, call, *arguments, number=None):
    try:
        call(*arguments)
    except kind as error:
        holds(name, number is None or error.number == number)
    except Exception as error:
        print("  ", type(error), error)
        holds(name, False)
    else:
        holds(name, False)


runner = doctest.DocTestRunner()
for example in doctest.DocTestFinder(recurse=False).find(bhtf.Pair, "Pair",
                                                         globs=vars(bhtf)):
    runner.run(example, clear_globs=False)
holds("the examples", runner.failures == 0 and runner.tries > 5)
with bhtf.open("small.bhtf") as f:
    holds("the grown image is a file", len(f) == 21 and f.is_sound() and
          f.about().slots == 500)


def image_of(slots, key_size=12, size=None, wide=False, points={}):
    for left in "made", "wide":
        if os.path.exists(left):
            os.unlink(left)
    bhtf.create("made", key_size=key_size, slots=slots, size=size)
    with bhtf.open("made", write=True, sync=False) as f:
        f.update(points)
        if not wide:
            return f.image()
        f.convert("wide")
    with bhtf.open("wide") as f:
        return f.image()


# ---- random calls, beside a dict ----

NAMES = ["P-%d" % i for i in range(45)]
EPOCHS = [0, 1, 7, 256, 0xFFFFFFFF]


def epoch_key(name, epoch):
    return (name.encode().ljust(8, b"\0") + epoch.to_bytes(4, "big"))


def by_column(records, width):
    return bytes([width]) + b"".join(records[j::width] for j in range(width))


def any_name():
    if rng.random() < 0.2:
        return epoch_key(rng.choice(["E", "EPOCHS-8"]),
                         rng.choice(EPOCHS)).rstrip(b"\0")
    return rng.choice(NAMES).encode()


def expect(points, call, name, data):
    """What a dict answers, after it made the change; a class if it refused."""
    if call in ("delete", "withdraw") and name not in points:
        return bhtf.Absent
    if call == "delete":
        del points[name]
        return None
    if call == "new" and name in points:
        return bhtf.Present
    if call == "withdraw" or call == "append" and not data:
        points[name] = None if call == "withdraw" else points.get(name)
    else:
        points[name] = (points.get(name) or b"") + data \
            if call == "append" else data
    return None


def change(pair, call, name, data, records, width):
    try:
        if call == "delete":
            del pair[name]
        elif call == "records":
            pair.store_records(name, records, width)
        elif call == "replace":
            pair[name] = data
        elif call == "withdraw":
            pair.withdraw(name)
        elif call == "append":
            pair.append(name, data)
        else:
            pair.add(name, data)
    except bhtf.Refused as error:
        return type(error)
    return None


def is_same(pair, points):
    """All that a pair tells, beside the dict."""
    fits = re.compile(rb"P-[1-3].", re.S)
    for name in "E", "EPOCHS-8":
        there = [e for e in EPOCHS if epoch_key(name, e).rstrip(b"\0") in points]
        upto = rng.choice(EPOCHS)
        last = [(e, points[epoch_key(name, e).rstrip(b"\0")])
                for e in there if e <= upto][-1:]
        if pair.epochs(name) != there or \
                pair.at(name, upto) != (last[0] if last else None):
            return False
    return dict(pair) == points and len(pair) == len(points) and \
        len(list(pair)) == len(points) and \
        sorted(pair.select("P-[1-3]?")) == sorted(filter(fits.fullmatch,
                                                         points))


def random_calls(wide, calls):
    """Grows again and again: answers how often, and what was wrong."""
    slots, points, growths, refused = 20, {}, 0, 0
    for name in NAMES[:15]:
        points[name.encode()] = name.encode() * rng.randrange(4)
    old = image_of(slots, wide=wide, points=points)
    pair = bhtf.Pair(old, bhtf.larger(old, slots + 3, seed=growths))
    for i in range(calls):
        call = rng.choice(["new", "new", "replace", "append", "withdraw",
                           "delete", "records", "go on"])
        name, width = any_name(), rng.randrange(1, 5)
        data = bytes(rng.randrange(256) for _ in range(rng.randrange(30)))
        records = bytes(width * rng.randrange(9))
        records = bytes(rng.randrange(256) for _ in records)
        full = name not in points and len(points) == slots + 3
        if call == "go on":
            pair.go_on()
        else:
            before = dict(points)
            wanted = expect(points, call, name, by_column(records, width)
                            if call == "records" else data)
            if full and wanted is None:
                points, wanted = before, bhtf.TableFull
                refused += 1
            got = change(pair, call, name, data, records, width)
            if got is bhtf.NoRoom and wanted is None:
                points = before
            elif got is not wanted:
                return growths, refused, "call %d: %s %r: %s, not %s" % (
                    i, call, name, got, wanted)
            if pair.get(name, 0) != points.get(name, 0) or \
                    call == "records" and got is None and \
                    pair.read_records(name) != (width, records):
                return growths, refused, "call %d: %s %r" % (i, call, name)
        if (i % 20 == 0 or pair.finished) and not is_same(pair, points):
            return growths, refused, "behind call %d" % i
        if pair.finished and (rng.random() < 0.1 or full):
            growths += 1
            slots = slots + 3 if slots < 58 else 20
            while len(points) > slots:
                del pair[points.popitem()[0]]
            with_all = image_of(slots, wide=wide, points=[
                (n, t) for n, t in points.items() if t is not None])
            points = {n: t for n, t in points.items() if t is not None}
            old = pair.new if slots > 20 and rng.random() < 0.7 and \
                dict(pair) == points else with_all
            slots = int.from_bytes(old[16:20], "big")
            pair = bhtf.Pair(old, bhtf.larger(old, slots + 3, seed=growths))
    return growths, refused, ""


for wide in False, True:
    grown, full, wrong = random_calls(wide, 3000)
    print("  %d growths, %d new points refused in a full table" % (grown, full))
    holds("3000 random calls%s, seed %d %s" % (
        " on version 2.0.0" if wide else "", seed, wrong), not wrong)
    holds("with growths that end", grown > 20)

# ---- the growth ----

points = {"K-%02d" % i: str(i) for i in range(40)}
old = image_of(40, points=points)
pair = bhtf.Pair(old, bhtf.larger(old, 100))
steps = 0
while not pair.finished:
    pair.go_on()
    steps += 1
holds("40 points are over behind five steps", steps <= 5 and
      dict(pair) == {n.encode(): t.encode() for n, t in points.items()})
bhtf.put("grown", pair.new)
with bhtf.open("grown") as f:
    holds("the new image is a sound file", f.is_sound() and
          dict(f) == dict(pair) and f.about().slots == 100)
first, second = bytearray(old), bhtf.larger(old, 100)
pair = bhtf.Pair(first, second)
pair["K-00"] = "other"
holds("bytearrays are changed in place", pair.old is first and
      pair.new is second and first != old and not pair.finished)
raises("and keep their length meanwhile", BufferError, first.extend, b"x")
raises("a growth does not begin twice", bhtf.NotLarger, bhtf.Pair, first,
       second, number=21)
again = bhtf.Pair(bytes(first), bytes(second), begun=True)
holds("but goes on", dict(again) == dict(pair) and len(again) == 40)
kept = bytes(first), bytes(second)
del again["K-01"]
holds("bytes are copied", kept == (first, second) and "K-01" not in again)
holds("a pair is itself alone", pair == pair and pair != again and
      hash(pair) == hash(pair))
holds("repr", repr(pair) == "<bhtf.Pair of 40 and 100 slots>")

# ---- what is refused ----

raises("a name that is too long", bhtf.BadName, lambda: pair["K-IS-TOO-LONG"],
       number=7)
raises("of an epoch", bhtf.BadName, pair.at, "NINE-BYTE", 1)
raises("stored, of an epoch", bhtf.BadName, pair.add_at, "NINE-BYTE", 1, "x")
raises("a point that is not there", KeyError, lambda: pair["NOBODY"])
raises("nor deleted", bhtf.Absent, pair.__delitem__, "NOBODY", number=14)
raises("nor withdrawn", bhtf.Absent, pair.withdraw, "NOBODY")
raises("one that is there", bhtf.Present, pair.add, "K-05", "x", number=9)
raises("a text without room", bhtf.NoRoom, pair.add, "BIG", bytes(100000),
       number=13)
raises("what is no records", bhtf.Refused, pair.read_records, "K-10",
       number=19)
raises("a text that is none", TypeError, pair.add, "K-77", 5)
raises("a name that is none", TypeError, lambda: pair[5])
holds("nothing changed", kept == (pair.old, pair.new))
raises("an image that is none", TypeError, bhtf.Pair, "abc", second)
raises("one of no length", bhtf.NotAFile, bhtf.Pair, b"", second, number=1)
raises("one for both", ValueError, bhtf.Pair, first, first)
raises("no more slots", bhtf.NotLarger, bhtf.Pair, old, bhtf.larger(old, 40))
raises("another key size", bhtf.NotLarger, bhtf.Pair, old,
       bhtf.larger(image_of(40, key_size=8), 100))
raises("another version", bhtf.NotLarger, bhtf.Pair, old,
       bhtf.larger(image_of(40, wide=True), 100))
raises("without room for the texts", bhtf.NotLarger, bhtf.Pair,
       image_of(40, points={"A": bytes(9000)}),
       bhtf.larger(old, 100, size=8192))
raises("larger than nothing", bhtf.NotAFile, bhtf.larger, b"", 100)
raises("no epochs", bhtf.NoEpochs, bhtf.Pair(
    image_of(4, key_size=4), bhtf.larger(image_of(4, key_size=4), 5)).at,
       "A", 3, number=23)
damaged = bytearray(old)
damaged[20:24] = bytes([0, 0, 0, 39])  # the count
raises("an image that is not sound", bhtf.Unsound, bhtf.Pair, damaged,
       bhtf.larger(old, 100), number=15)

small = image_of(3, points={"A": "1", "B": "2", "C": "3"})
pair = bhtf.Pair(small, bhtf.larger(small, 4))
pair["D"] = "4"
raises("a point without a slot", bhtf.TableFull, pair.add, "E", "5", number=10)
holds("nor is it there", sorted(pair) == [b"A", b"B", b"C", b"D"])

# ---- threads ----

old = image_of(200, points={"T-%d" % i: "" for i in range(150)})
pair = bhtf.Pair(old, bhtf.larger(old, 300))


def count_up(name):
    for n in range(100):
        pair[name] = str(n)
        seen.append(int(pair[name]) == n and len(pair) >= 150)


seen = []
threads = [threading.Thread(target=count_up, args=("U%d" % i,))
           for i in range(4)]
for thread in threads:
    thread.start()
for thread in threads:
    thread.join()
holds("four threads with one pair", len(seen) == 400 and all(seen) and
      pair.finished and len(pair) == 154)

other = threading.Thread(target=pair.go_on)
with pair._lock:
    other.start()
    other.join(0.05)
    waits = other.is_alive()
other.join()
holds("a thread waits for the call of another", waits)

print("%d passed, %d failed" % (passed, failed))
sys.exit(failed > 0)
