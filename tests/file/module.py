"""module.py DIRECTORY: the package bhtf."""
import os
import sys
import threading
import time

import bhtf

path = os.path.join(sys.argv[1], "module.bhtf")


def refused(number, call, *arguments):
    try:
        call(*arguments)
    except bhtf.Error as error:
        assert error.number == number, error
        assert str(error)
        return
    raise AssertionError("not refused")


bhtf.create(path, key_size=8, slots=20, size=16384)
try:
    bhtf.create(path)
    raise AssertionError("created twice")
except FileExistsError:
    pass
with bhtf.open(path, write=True) as f:
    assert f.key_size == 8 and len(f) == 0
    f.add("CP-103", b"a text")
    assert f.version == (1, 0, 2)
    f.convert(path + ".wide", size=64 << 20)
    refused(13, f.convert, path + ".none", 4096)
    refused(1, f.convert, path + ".none", 5000)
    try:
        f.convert(path + ".wide")
        raise AssertionError("converted twice")
    except FileExistsError:
        pass
    with bhtf.open(path + ".wide", write=True) as w:
        assert w.version == (2, 0, 0) and w["CP-103"] == b"a text"
        scan = b"\0\1\2\3" * (17 << 18)
        w["SCAN"] = scan
        assert w["SCAN"] == scan and w.is_sound()
        refused(20, w.convert, path + ".none")
        del w["SCAN"]
        w.convert(path + ".back", size=16384)
    with bhtf.open(path + ".back") as b:
        assert b.version == (1, 0, 2) and dict(b.items()) == dict(f.items())
    refused(9, f.add, "CP-103", b"x")
    f.append("CP-103", " and more")
    f["CP-104"] = ""
    f["CP-105"] = "gone"
    f.withdraw("CP-105")
    assert f["CP-103"] == b"a text and more" and f["CP-104"] == b""
    assert f["CP-105"] is None and f.get("nobody", 7) == 7
    assert "CP-105" in f and "nobody" not in f
    try:
        f["nobody"]
        raise AssertionError("found")
    except KeyError:
        pass
    try:
        with f.batch():
            del f["CP-103"]
            f["CP-106"] = "x"
            raise ValueError
    except ValueError:
        pass
    assert "CP-103" in f and "CP-106" not in f
    with f.batch():
        del f["CP-104"]
        f.compact()
    assert sorted(f) == [b"CP-103", b"CP-105"], list(f)
    refused(bhtf.LOCKED, lambda: bhtf.open(path, write=True, wait=0.05))
    refused(103, lambda: bhtf.open(path, write=True, give_up=lambda: True))
    with bhtf.open(path) as reader:
        assert dict(reader.items()) == {b"CP-103": b"a text and more",
                                        b"CP-105": None}
        assert reader.is_sound() and not reader.recovered
        refused(108, reader.add, "x", b"y")
        reader.pause()
        f["CP-107"] = "later"
        reader.refresh()
        assert reader["CP-107"] == b"later"
try:
    bhtf.open(path + "x")
    raise AssertionError("opened")
except FileNotFoundError:
    pass
try:
    f["CP-103"]
    raise AssertionError("closed")
except ValueError:
    pass
assert not os.path.exists(path + ".journal")

# ---- forks ----
with bhtf.open(path, write=True) as f:
    child = os.fork()
    if child == 0:
        try:
            refused(bhtf.MISUSE, f.add, "child", b"x")
            refused(bhtf.MISUSE, f.get, "CP-103")
            refused(bhtf.MISUSE, lambda: list(f))
            f.close()
            os._exit(0)
        finally:
            os._exit(1)
    assert os.waitpid(child, 0)[1] == 0
    f["CP-108"] = "the parent goes on"
    assert f["CP-108"] == b"the parent goes on" and "child" not in f

# ---- threads ----


def close_while_read():
    f = bhtf.open(path)
    seen = []

    def read():
        try:
            while True:
                f.get("CP-103")
                list(f)
        except Exception as error:
            seen.append(error)
    thread = threading.Thread(target=read)
    thread.start()
    time.sleep(0.002)
    f.close()
    thread.join()
    assert isinstance(seen[0], ValueError), seen


for _ in range(100):
    close_while_read()

# ---- names and waits that are odd ----
for call in bhtf.open, lambda name: bhtf.create(name + b"/no/such"):
    try:
        call(os.fsencode(path) + b"\xff")
        raise AssertionError("opened")
    except FileNotFoundError:
        pass
    except bhtf.Error as error:
        assert error.errno == 2, error
with bhtf.open(path, write=True) as f:
    start = time.monotonic()
    refused(bhtf.LOCKED, lambda: bhtf.open(path, write=True, wait=-1))
    assert time.monotonic() - start < 5
with bhtf.open(path, wait=5e6), bhtf.open(path, wait=1e300):
    pass
