"""The worked examples of document 01, tried on the model itself: its proved table, the lister's example, and FNV-1.

Each function is one example. It raises where the model and the document disagree.
"""

import image as file
from book import Book


def fresh(K, N, L, seed=0):
    image = bytearray(L)
    assert file.create(image, K, N, seed) == (0,)
    return image


def keys_by_slot(image):
    h = file.head(image)
    return [image[file.slot_at(h, i)] for i in range(h.N)]


def data_offsets():
    # "K = 4: N = 256 gives D = 4,096; 257 gives 8,192; 5,033 gives 45,056."
    assert [file.data_offset(4, N) for N in (256, 257, 5033)] == [4096, 8192, 45056]


def last_pages():
    # "X − D of 0, 4,096, 4,097 gives M −1, 0, 1."
    assert [file.last_page(8192 + n, 8192) for n in (0, 4096, 4097)] == [0xFFFFFFFF, 0, 1]
    image = fresh(1, 4, 16384)
    assert file.get(image, file.M_AT) == 0xFFFFFFFF
    assert file.add(image, b'\1', bytes(4092), 1) == (0,) and file.get(image, file.M_AT) == 0
    assert file.add(image, b'\2', b'', 1) == (0,) and file.get(image, file.M_AT) == 1


def hashes():
    # "Seed 0, K = 1: the hash of byte 32 is 0x3962AE40, of byte 1 is 0x050C5D1F."
    image = fresh(1, 4, 8192)
    assert file.hash_of(image, b'\x20') == 0x3962AE40 and file.hash_of(image, b'\1') == 0x050C5D1F


def four_slots():
    # "Seed 0, K = 1, N = 4: adding bytes 1, 2, 3, 32 fills slots 3, 0, 1, 2; byte 33 then gives 10. Deleting 1 leaves 2, 3, 32 in slots 3,
    # 0, 1 and slot 2 empty."
    image, book = fresh(1, 4, 8192), Book(1, 4, 8192)
    for byte, slot in ((1, 3), (2, 0), (3, 1), (32, 2)):
        assert file.add(image, bytes([byte]), b'', 1) == book.add(bytes([byte]), b'', 1) == (0,)
        assert keys_by_slot(image)[slot] == byte
    assert file.add(image, b'\x21', b'', 1) == book.add(b'\x21', b'', 1) == (10,)
    assert file.delete(image, b'\1') == book.delete(b'\1') == (0,)
    assert keys_by_slot(image) == [3, 32, 0, 2] and file.check(image) == (0, file.SOUND, 0)


def three_slots():
    # "Seed 0, K = 1, N = 3, an opened image with 33, 34, 32 in slots 0, 1, 2: deleting 33 leaves 32 in slot 0 and 34 in slot 2."
    image = fresh(1, 3, 4096)
    for slot, byte in enumerate((33, 34, 32)):
        image[file.slot_at(file.head(image), slot)] = byte
    file.put(image, file.C_AT, 3)
    assert file.delete(image, b'\x21') == (0,) and keys_by_slot(image) == [32, 0, 34]


def room():
    # "R = 4,096: 4,092 bytes fit, 4,093 give 13."
    for m, number in ((4092, 0), (4093, 13)):
        assert file.add(fresh(1, 4, 8192), b'\1', bytes(m), 1) == Book(1, 4, 8192).add(b'\1', bytes(m), 1) == (number,)


def replacing():
    # "Replacing 5 bytes by 3, then 4: U is 9, 9, 17."
    image, book = fresh(1, 4, 8192), Book(1, 4, 8192)
    for m, used in ((5, 9), (3, 9), (4, 17)):
        assert file.add(image, b'\1', bytes(m), 2) == book.add(b'\1', bytes(m), 2) == (0,)
        assert file.head(image).X - file.head(image).D == book.U == used


def zero_key():
    # "The key of zeros gives 7."
    assert file.add(fresh(1, 4, 8192), b'\0', b'', 1) == Book(1, 4, 8192).add(b'\0', b'', 1) == (7,)


def listing():
    # "Create with seed 0, K = 1, N = 4, L = 8,192, then mode 1 adds of byte 1 "P", byte 2 "QR", byte 3 nothing, print:"
    image = fresh(1, 4, 8192)
    for key, data in ((b'\1', b'P'), (b'\2', b'QR'), (b'\3', b'')):
        assert file.add(image, key, data, 1) == (0,)
    assert file.lister(image) == 'slot key length\n0 02 2\n1 03 0\n3 01 1\n'
    assert file.lister(bytearray(4095)) == 'refused 1\n' and file.lister(bytearray(69632)) == 'too long\n'


def fnv_1():
    # "published FNV-1 vectors of 1 to 32 bytes (the hash before the modulo) on an image with F = 0, E = 255 and scramble number i equal
    # to i"
    for key, expected in ((b'a', 0x050C5D7E), (b'b', 0x050C5D7D), (b'foobar', 0x31F0B262)):
        image = fresh(len(key), 4, 8192)
        file.put(image, 32, 0)
        file.put(image, 36, 255)
        for i in range(256):
            file.put(image, file.SCRAMBLE + 4 * i, i)
        assert file.hash_of(image, key) == expected


def recovered():
    # Job 9: "once the mark was fully written it is the one after, and a second recovery changes nothing".
    image = fresh(4, 8, 8192)
    assert file.add(image, b'P001', b'first', 1) == (0,)
    before, journal = bytearray(image), bytearray(200)
    assert file.add_journaled(image, b'P001', b'second', 3, bytearray(8192), journal) == (0,)
    marked = journal[:-1] + b'\xa5'
    for _ in range(2):
        assert file.recover(before, marked) == (0,) and before == image and marked == journal


def refreshed():
    # Job 8: "Copying the listed stretches into a copy of the old image gives the new one."
    image = fresh(4, 8, 8192)
    assert file.add(image, b'P001', b'first', 1) == (0,)
    copy, pairs = bytearray(image), bytearray(800)
    number, written = file.delete_listed(image, b'P001', bytearray(8192), pairs)
    assert number == 0 and written > 1
    for i in range(written):
        at, length = file.get(pairs, 8 * i), file.get(pairs, 8 * i + 4)
        assert copy[at:at + length] != image[at:at + length]
        copy[at:at + length] = image[at:at + length]
    assert copy == image


def by_column():
    # Job 10: "For each W and number of records, reading after storing gives the records, and rearranging what was read gives the stored
    # bytes".
    assert file.columns(b'abcdef', 3) == b'\3adbecf'
    for width in range(1, 65):
        for number in range(4):
            records = bytes(i % 251 for i in range(width * number))
            image, out = fresh(1, 4, 8192), bytearray(256)
            assert file.store_columns(image, b'\1', records, width) == (0,)
            assert file.read_columns(image, b'\1', out) == (0, len(records)) and out[:len(records)] == records
            _, at, length = file.lookup(image, b'\1')
            assert file.columns(records, width) == image[at:at + length]


def widened():
    # Job 11: "Points, texts and each point's slot are equal before and after, as are scramble and header but for version, X and M; space is
    # compacted as in Job 2, all other bytes are zero."
    image, book = fresh(1, 4, 8192), Book(1, 4, 8192)
    for key, data, mode in ((b'\1', b'first', 1), (b'\2', b'second', 1), (b'\3', b'', 1), (b'\1', b'longer', 2), (b'\2', b'', 4)):
        assert file.add(image, key, data, mode) == book.add(key, data, mode) == (0,)
    image[file.slot_at(file.head(image), 2) + 1] = 7  # an offset byte of the empty slot
    image[60] = image[511] = image[2047] = image[4095] = 9
    before, target = bytes(image), bytearray(b'\xEE' * 8192)
    assert file.convert(image, target) == book.convert(8192) == (0,) and image == before
    # Slots 3, 0 and 1 have 1, 2 and 3. The note of 3 stood before the second text of 1.
    assert target[4096:4112] == b'a\0\0\0\0a\0\0\0\6longer' and not any(target[4112:])
    assert target[2048:2068] == b'\2\0\0\0\0\3\0\0\x10\0\0\0\0\0\0\1\0\0\x10\5'
    assert not any(target[2068:4096]) and not any(target[60:512]) and not any(target[512 + 4 * 95:2048])
    assert target[512:512 + 4 * 95] == image[512:512 + 4 * 95] and target[8:52] == image[8:52]
    assert target[:8] == b'BHTFv\2\0\0' and file.get(target, 52) == 4112 and file.get(target, 56) == 0 and book.U == 16
    # "its version bytes never change"; 5 where there was 4.
    assert file.add(target, b'\2', b'', 2) == book.add(b'\2', b'', 2) == (0,) and target[5:8] == b'\2\0\0' and book.U == 21
    for m, number in ((4096 - 21 - 5 + 1, 13), (4096 - 21 - 5, 0)):
        assert file.add(target, b'\x20', bytes(m), 1) == book.add(b'\x20', bytes(m), 1) == (number,)
    # A target of 4,096 bytes has no room; one page more than needed has.
    assert file.convert(target, bytearray(4096)) == book.convert(4096) == (13,)
    back = bytearray(12288)
    assert file.convert(target, back) == book.convert(12288) == (0,) and back[5:8] == b'\1\0\2'
    assert file.head(back).X - 4096 == book.U == 4096 - 4 and file.get(back, 56) == 0


def half_legible():
    # Job 13: "equal bounds everywhere give what lookup finds on a sound image".
    image, out = fresh(2, 8, 8192), bytearray(32)
    for key in (b'A1', b'A2', b'B1'):
        assert file.add(image, key, key, 1) == (0,)
    assert file.select(image, b'A\0', b'A\xff', out)[:2] == (0, 2) and file.get(out, 0) < file.get(out, 4)
    for key in (b'A1', b'A2', b'B1'):
        assert file.select(image, key, key, out) == (0, 1) and file.get(out, 0) == file.search(image, key)[1]


def epochs():
    # Job 14: "shows epoch and message of the entry of that name with the largest epoch at most t".
    image, book = fresh(6, 8, 8192), Book(6, 8, 8192)
    for when, text in ((3, b'three'), (7, b'seven')):
        key = b'P1' + when.to_bytes(4, 'big')
        assert file.add(image, key, text, 1) == book.add(key, text, 1) == (0,)
    three, seven = (0, 3, b'three'), (0, 7, b'seven')
    for t, expected in ((2, (14, 0, None)), (3, three), (6, three), (7, seven), (2 ** 32 - 1, seven)):
        number, when, at, length = file.at_epoch(image, b'P1', t)
        assert (number, when, bytes(image[at:at + length]) if at else None) == book.at_epoch(b'P1', t) == expected


EXAMPLES = [data_offsets, last_pages, hashes, four_slots, three_slots, room, replacing, zero_key, listing, fnv_1, recovered, refreshed,
            by_column, widened, half_legible, epochs]
