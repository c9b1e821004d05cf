"""Deltas as docs/FORMAT.md has them, written without a look at the command.

    delta.py make OLD NEW               the record from OLD to NEW
    delta.py walk CHANGES               a line for each record: bytes, pairs, new bytes
    delta.py apply COPY CHANGES         what COPY becomes by all of the records, each of which must fit
    delta.py forge KIND OLD NEW         a record with right check sums, and something wrong of that kind
"""
import hashlib
import struct
import sys


def sha(data):
    return hashlib.sha256(data).digest()


def read(path):
    with open(path, "rb") as file:
        return file.read()


def runs(old, new):
    """Job 8's pairs: offset and length of each unbroken run of bytes whose value changed."""
    found = []
    for i, (a, b) in enumerate(zip(old, new)):
        if a == b:
            continue
        if found and found[-1][0] + found[-1][1] == i:
            found[-1][1] += 1
        else:
            found.append([i, 1])
    return [tuple(pair) for pair in found]


def stretches(pairs, data):
    return b"".join(data[at:at + size] for at, size in pairs)


def record(length, before, after, pairs, data, count=None):
    body = struct.pack(">I", len(pairs) if count is None else count)
    body += b"".join(struct.pack(">II", *pair) for pair in pairs) + data
    head = b"BHTFd\x01\x00\x00" + struct.pack(">II", 116 + len(body) - 4, length) + before + after
    return head + body + sha(head + body)


def make(old, new):
    pairs = runs(old, new)
    if 8 * len(pairs) + sum(size for _, size in pairs) > len(new) + 8:
        pairs = [(0, len(new))]
    return record(len(new), sha(old), sha(new), pairs, stretches(pairs, new))


def records(data):
    """Length, sums, pairs and new bytes of each record, all of it asserted."""
    at = 0
    while at < len(data):
        assert data[at:at + 8] == b"BHTFd\x01\x00\x00"
        size, length = struct.unpack_from(">II", data, at + 8)
        one = data[at:at + size]
        assert len(one) == size and sha(one[:-32]) == one[-32:]
        count, = struct.unpack_from(">I", one, 80)
        pairs = [struct.unpack_from(">II", one, 84 + 8 * i) for i in range(count)]
        new = one[84 + 8 * count:-32]
        assert len(new) == sum(s for _, s in pairs)
        ends = [0] + [a + s for a, s in pairs]
        assert all(a >= e for (a, _), e in zip(pairs, ends)) and ends[-1] <= length
        yield size, length, one[16:48], one[48:80], pairs, new
        at += size


def walk(data):
    for size, _, _, _, pairs, new in records(data):
        print(size, len(pairs), len(new))


def apply(copy, data):
    for _, length, before, after, pairs, new in records(data):
        assert length == len(copy) and sha(copy) == before
        image = bytearray(copy)
        for at, size in pairs:
            image[at:at + size] = new[:size]
            new = new[size:]
        copy = bytes(image)
        assert sha(copy) == after
    return copy


KINDS = ("outside", "far", "order", "overlap", "more", "many", "short", "long", "byte", "after", "length")


def forge(kind, old, new):
    length, pairs = len(new), runs(old, new)
    data = stretches(pairs, new)
    before, after = sha(old), sha(new)
    if kind == "outside":        # the last pair leaves the image
        pairs[-1] = (length - pairs[-1][1] + 1, pairs[-1][1])
    elif kind == "far":          # offset and length wrap around together
        pairs[-1] = (0xFFFFFFFF, pairs[-1][1])
    elif kind == "order":        # two pairs, and their bytes, in the wrong order
        pairs[0], pairs[1] = pairs[1], pairs[0]
        data = stretches(pairs, new)
    elif kind == "overlap":      # the second begins in the first; the bytes are right
        pairs.insert(1, pairs[0])
        data = stretches(pairs, new)
    elif kind == "more":         # a pair more than there are
        return record(length, before, after, pairs, data, len(pairs) + 1)
    elif kind == "many":         # more pairs than any record has bytes
        return record(length, before, after, pairs, data, 0xFFFFFFFF)
    elif kind == "short":        # a new byte too few
        data = data[:-1]
    elif kind == "long":         # and one too many
        data += b"x"
    elif kind == "byte":         # another byte than the image after has
        data = bytes([data[0] ^ 1]) + data[1:]
    elif kind == "after":        # another image is promised
        after = sha(old + new)
    elif kind == "length":       # for an image of another length
        length += 4096
    else:
        raise SystemExit("no such kind")
    return record(length, before, after, pairs, data)


def main(what, *words):
    out = sys.stdout.buffer
    if what == "make":
        out.write(make(read(words[0]), read(words[1])))
    elif what == "walk":
        walk(read(words[0]))
    elif what == "apply":
        out.write(apply(read(words[0]), read(words[1])))
    elif what == "forge":
        out.write(forge(words[0], read(words[1]), read(words[2])))


if __name__ == "__main__":
    main(*sys.argv[1:])
