"""A second model of the control point file: documents 01 and 02 read anew, for any image bytes.

Each rule stands beside the sentence it was written from, in quotes: 01 is the scope, and "Job n" a request of 02. Where a request changes
a sentence of 01, or of an earlier request, the later sentence holds. A call has the name that the C header gives it without "bhtf_", and
its arguments in the header's order, without lengths and pointers to results. It takes images and other slices that it may change as
bytearray, changes them in place, and returns a tuple: the number, then the results.

The model is written to be read. It keeps no state and is quick enough for images up to 65,536 bytes and small tables.

Readings, where the documents are open:

 1. Walk as numbers (01 describes it as parts of the image): the slot, then the offset of its key. The end and a refusal are 0, 0.
 2. Check as numbers: a verdict, 0 sound, 1 a slot fails, 2 only the count fails; then the slot, 0 but for verdict 1.
 3. Compaction on an image where nothing is dead does not change X. M stays as it was then, right or wrong, since "a call that changes X
    rewrites M".
 4. Question 11 takes m = 0 of "a" and of "d", and in images of each version: Job 4's "question 5 accepts up to 2, 8 mode 4, and 11
    m = 0" makes no difference between them.
 5. Lookup as numbers gives an empty message as its offset and the length 0; Job 4's "lookup tells an empty message from none".
 6. The check's "its message passes 11" means the first half of 11. The other half, "for delete: is C at least 1", is not the message's.
 7. An empty slot's offset field may hold anything. It stays, but that an add that takes the slot overwrites it.
 8. Job 8: a call that changes no byte answers 0 pairs and leaves the list. A list of the single pair 0, L answers 1 pair.
 9. Job 9: a call that changes no byte has a content of 4 bytes, the pair count 0, and so needs a journal of 5.
10. Job 9: a refused recovery changes nothing, so that the mark stays 0xA5 with an 18. A pair of length 0 is no fault by itself, and
    may stand at L.
11. Job 10: "W from the first stored byte, 0 if none" makes W = 0, out of range, and so 19, of no message and of an empty one.
12. Job 13: a list that can't hold N slot numbers is 16 also where fewer are found.
13. Job 11: 1 is put to both slices before the source's 5. 13 is D and the messages with their headers against the target's length, since a
    target may be shorter than D. Only active messages are asked 20 and carried. M is by its formula.
14. Job 14: 7 asks the length alone of a name, so that a name of zeros may be asked for. Epochs are unsigned. The entry is any taken slot,
    found by its search or not.
"""

import re
import struct
from collections import namedtuple

PAGE = 4096
LONGEST_IMAGE = 1_073_741_824  # Job 5: "Images may be up to 1,073,741,824 bytes
MOST_SLOTS = 1_048_576         # and N up to 1,048,576. Questions 1, 3 and 6 take the new limits."
LONGEST_MESSAGE = 16_777_215   # 01, question 12
LONGEST_OF_2 = 1_073_741_823   # Job 11: "On a 2.0 image .. question 12's bound is 1,073,741,823"
SCRAMBLE = 512                 # 01: "40 scramble offset, 512; 44 table offset, 2,048"
TABLE = 2048
CUT = 2 ** 32                  # 01: "cut to 32 bits"

MET, EMPTY, EXHAUSTED = 'met', 'empty', 'exhausted'
SOUND, SLOT_FAILS, COUNT_FAILS = 0, 1, 2
MARK = 0xA5


# ---- numbers in the image ----

def get(b, at):
    # 01: "All stored numbers are 4 bytes, most significant first."
    return int.from_bytes(b[at:at + 4], 'big')


def put(b, at, number):
    b[at:at + 4] = number.to_bytes(4, 'big')


# 01: "12 K, bytes in a key; 16 N, slots; 20 C, points held; 24 multiplier; 28 start value; 32 F and 36 E, first and last scrambled
# character; 40 scramble offset, 512; 44 table offset, 2,048; 48 D, data offset; 52 X, next free offset; 56 M, last page."
C_AT, X_AT, M_AT = 20, 52, 56
Head = namedtuple('Head', 'K N C multiplier start F E scramble table D X')


def head(image):
    return Head._make(struct.unpack_from('>11I', image, 12))


def data_offset(K, N):
    # 01: "D is 2,048 + N × (K + 4), rounded up to a multiple of 4,096."
    return (TABLE + N * (K + 4) + PAGE - 1) // PAGE * PAGE


def last_page(X, D):
    # 01: "M is signed, two's complement: −1 when X = D, else the whole part of (X − D − 1) / 4,096."
    return CUT - 1 if X == D else (X - D - 1) // PAGE


def set_next_free(image, X):
    # 01: "A call that changes X rewrites M; no call reads it."
    if X != head(image).X:
        put(image, X_AT, X)
        put(image, M_AT, last_page(X, head(image).D))


# ---- questions of every call ----

def question_1(length):
    # 01: "Is L a multiple of 4,096 from 4,096 to 16,777,216?" with Job 5's limit.
    return length % PAGE == 0 and PAGE <= length <= LONGEST_IMAGE


def question_5(image):
    # 01: "Are the first 5 bytes "BHTFv", the next two 1 and 0, the next at most 1?" Job 4: "question 5 accepts up to 2". Job 11: "Question 5
    # takes 2, 0, 0 too".
    return image[:5] == b'BHTFv' and image[5:8] in (b'\1\0\0', b'\1\0\1', b'\1\0\2', b'\2\0\0')


def question_6(image):
    # 01: "Is K from 1 to 32, N from 1 to 65,536, C at most N, F ≤ E ≤ 255, are the scramble and table offsets as above, is D by its
    # formula, and D ≤ X ≤ L? Of the fields named here, one with its top bit set fails" (as one above its limit does).
    h = head(image)
    return (1 <= h.K <= 32 and 1 <= h.N <= MOST_SLOTS and h.C <= h.N and h.F <= h.E <= 255
            and h.scramble == SCRAMBLE and h.table == TABLE and h.D == data_offset(h.K, h.N) and h.D <= h.X <= len(image))


def opening(image):
    # 01: "Every other call: 1, 5, 6, then ..". Returns the number of the first "no", else 0.
    if not question_1(len(image)):
        return 1
    if not question_5(image):
        return 5
    if not question_6(image):
        return 6
    return 0


def opening_with_key(image, key):
    # 01: "7. Has the key K bytes, not all zero?"
    number = opening(image)
    if number == 0 and (len(key) != head(image).K or not any(key)):
        return 7
    return number


# ---- create ----

def create(image, K, N, seed):
    N = N or 5507  # "N (0 means 5,507)"
    if not question_1(len(image)):
        return (1,)
    if not 1 <= K <= 32:  # "2. Is K from 1 to 32?"
        return (2,)
    if not N <= MOST_SLOTS:  # "3. Is N at most 65,536?" with Job 5's limit
        return (3,)
    D = data_offset(K, N)
    if not D <= len(image):  # "4. Is D at most L?"
        return (4,)
    # "It writes the header above with F = 32, E = 126, multiplier 0x01000193, start 0x811C9DC5, C = 0, X = D and the scramble. All
    # other bytes become zero." Serial is 0. Job 4: "Version bytes become 1, 0, 2 at create".
    image[:] = bytes(len(image))
    image[0:8] = b'BHTFv\1\0\2'
    fields = Head(K, N, 0, 0x01000193, 0x811C9DC5, 32, 126, SCRAMBLE, TABLE, D, D)
    image[12:56] = struct.pack('>11I', *fields)
    put(image, M_AT, last_page(D, D))
    # "Scramble number i is the generator's state after i + 1 steps from the seed; a step is state × 1,664,525 + 1,013,904,223, cut to 32
    # bits." Job 6: seed 0 as any other.
    state = seed
    for i in range(126 - 32 + 1):
        state = (state * 1_664_525 + 1_013_904_223) % CUT
        put(image, SCRAMBLE + 4 * i, state)
    return (0,)


# ---- from name to slot ----

def hash_of(image, key):
    # 01: "begin with the start value. For each key byte c multiply by the multiplier, cut to 32 bits; then, if F ≤ c ≤ E, exclusive-or with
    # scramble number c − F."
    h = head(image)
    state = h.start
    for c in key:
        state = state * h.multiplier % CUT
        if h.F <= c <= h.E:
            state ^= get(image, SCRAMBLE + 4 * (c - h.F))
    return state


def home_of(image, key):
    # 01: "The home slot is the hash modulo N."
    return hash_of(image, key) % head(image).N


def slot_at(h, slot):
    # 01: "Slot i (0 to N − 1) is K key bytes and a message offset, at 2,048 + i × (K + 4)."
    return TABLE + slot * (h.K + 4)


def search(image, key):
    # 01: "from home upwards, wrapping from N − 1 to 0, until the key is met, an empty slot is met, or N slots were read. All K bytes are
    # compared." Returns how it ended, the slot, and, for Job 7, "the number of slots that the search read".
    h = head(image)
    nothing = bytes(h.K)
    slot = home_of(image, key)
    for read in range(1, h.N + 1):
        at = slot_at(h, slot)
        here = image[at:at + h.K]
        if here == key:
            return MET, slot, read
        if here == nothing:  # "A slot is empty exactly when its key bytes are all zero."
            return EMPTY, slot, read
        slot = (slot + 1) % h.N
    return EXHAUSTED, None, h.N


def taken_slots(image, start=0):
    # Slot, key and message offset of each taken slot from `start` on, in slot order.
    h = head(image)
    nothing = bytes(h.K)
    for slot in range(start, h.N):
        at = slot_at(h, slot)
        key = image[at:at + h.K]
        if key != nothing:
            yield slot, bytes(key), get(image, at + h.K)


def offset_in(image, slot):
    h = head(image)
    return get(image, slot_at(h, slot) + h.K)


def set_offset(image, slot, offset):
    h = head(image)
    put(image, slot_at(h, slot) + h.K, offset)


# ---- messages ----

def header_size(image):
    # 01: "points at "a" (active) or "d" (inactive), a 3-byte length m". Job 11: "Version 2.0.0 has message headers of a letter and 4 bytes".
    return 5 if image[5] == 2 else 4


def longest_message(image):
    return LONGEST_OF_2 if image[5] == 2 else LONGEST_MESSAGE


def length_at(image, offset):
    # 01: a length m "(most significant byte first)".
    return int.from_bytes(image[offset + 1:offset + header_size(image)], 'big')


def message(image, letter, text):
    # The bytes of a message as the image's version has them.
    return letter + len(text).to_bytes(header_size(image) - 1, 'big') + text


def message_passes(image, offset):
    # 01: "11. If the key is present with an offset other than 0: is it at least D, the letter "a" or "d", m at least 1, the message's end
    # at most X?" Job 4: question 11 accepts "m = 0".
    if offset == 0:
        return True
    h = head(image)
    text_start = offset + header_size(image)
    if offset < h.D or text_start > h.X:
        return False
    return image[offset] in b'ad' and text_start + length_at(image, offset) <= h.X


def text_at(image, offset):
    # The active message at an offset that passes 11, None where there is none. 01: "A message offset of 0 means no message. Otherwise it
    # points at "a" (active) or "d" (inactive)".
    if offset == 0 or image[offset] != ord('a'):
        return None
    text_start = offset + header_size(image)
    return bytes(image[text_start:text_start + length_at(image, offset)])


def write_active(image, offset, data):
    written = message(image, b'a', data)
    image[offset:offset + len(written)] = written
    # Job 4: "Version bytes become 1, 0, 2 .. at the first empty message stored". They were 1, 0 and at most 2 (question 5); or 2.0.0, of
    # which Job 11 says: "its version bytes never change".
    if len(data) == 0 and image[5] == 1:
        image[7] = 2


def withdraw(image, offset):
    # "a" becomes "d", if there is a header.
    if offset != 0:
        image[offset] = ord('d')


# ---- add ----

def add(image, key, data, mode):
    return add_slots(image, key, data, mode)[:1]


def add_slots(image, key, data, mode):
    # 01: "add 7 to 13". Job 7: "report the number of slots that the search read, or 0 when refused before it".
    number = opening_with_key(image, key)
    if number:
        return number, 0
    if mode not in (1, 2, 3, 4):  # "8. Is the mode 1, 2 or 3?" and Job 4's mode 4
        return 8, 0
    h = head(image)
    how, slot, read = search(image, key)
    present = how == MET
    if mode == 4 and not present:  # Job 4: "14 stands after 8 for mode 4"
        return 14, read
    if mode == 1 and present:  # "9. In mode 1, is the key absent?"
        return 9, read
    if not present and (how == EXHAUSTED or h.C >= h.N):  # "10. If the key is absent, is a slot empty and C below N?"
        return 10, read
    offset = offset_in(image, slot) if present else 0
    if not message_passes(image, offset):
        return 11, read
    text = text_at(image, offset)

    # What is done to the old message, and what goes to new space, if anything does.
    in_place = False
    if mode == 4:
        # Job 4: "Mode 4 withdraws a message as empty replace did, ignores its data": "length 0 turns "a" into "d"".
        needs = None
    elif mode == 3:
        # "Mode 3, append: length 0 changes nothing. An active message is copied with the new bytes behind it into new space, and the old
        # header becomes "d". Otherwise new space is taken for the new bytes only." Job 4: "Mode 3 with empty data is unchanged."
        needs = len(text or b'') + len(data) if len(data) > 0 else None
    else:
        # "Mode 2, replace: .. A length at most that at the offset (0 for no offset) is written there as active, with the rest of the old
        # bytes zeroed. Otherwise the old header, if there is one, becomes "d" and new space is taken." Job 4: empty data is stored "in
        # new space of 4 bytes when the point has no offset". Mode 1 comes here with an absent key alone.
        in_place = offset != 0 and len(data) <= length_at(image, offset)
        needs = None if in_place else len(data)

    header = header_size(image)
    if needs is not None and needs > longest_message(image):  # "12. Is the message to be placed in new space at most 16,777,215 bytes?"
        return 12, read
    if needs is not None and h.X + header + needs > len(image):  # "13. Does that space end at or below L?"
        return 13, read

    if not present:
        # "Add, key absent: the entry goes to the empty slot where the search ended; C grows by 1."
        at = slot_at(h, slot)
        image[at:at + h.K] = key
        set_offset(image, slot, 0)
        put(image, C_AT, h.C + 1)
    if mode == 4:
        withdraw(image, offset)
    elif in_place:
        rest = length_at(image, offset) - len(data)
        write_active(image, offset, data)
        end = offset + header + len(data)
        image[end:end + rest] = bytes(rest)
    elif needs is not None:
        # "New space for m bytes is taken at X, and X grows by 4 + m." Job 11: the header's size "where it added 4".
        withdraw(image, offset)
        write_active(image, h.X, (text or b'') + data if mode == 3 else data)
        set_offset(image, slot, h.X)
        set_next_free(image, h.X + header + needs)
    return 0, read


# ---- delete, lookup, count ----

def delete(image, key):
    return delete_slots(image, key)[:1]


def delete_slots(image, key):
    # 01: "lookup and delete 7, 14, 11".
    number = opening_with_key(image, key)
    if number:
        return number, 0
    h = head(image)
    how, hole, read = search(image, key)
    if how != MET:  # "14. Is the key present?"
        return 14, read
    offset = offset_in(image, hole)
    if not message_passes(image, offset) or h.C < 1:  # "For delete, with or without an offset: is C at least 1?"
        return 11, read
    delete_slot(image, hole)
    return 0, read


def delete_slot(image, hole):
    # "the message header, if active, becomes "d"; C falls by 1; the slot is zeroed and is the hole."
    h = head(image)
    withdraw(image, offset_in(image, hole))
    put(image, C_AT, h.C - 1)
    size = h.K + 4
    nothing = bytes(size)
    image[slot_at(h, hole):slot_at(h, hole) + size] = nothing
    # "Look at the slots after it in turn, wrapping. An entry whose home is not among the slots from the one after the hole up to its own
    # moves into the hole, and its old slot, zeroed, is the new hole. The walk ends at the first empty slot, which may be the hole itself."
    slot = hole
    while True:
        slot = (slot + 1) % h.N
        at = slot_at(h, slot)
        entry = image[at:at + size]
        if entry[:h.K] == nothing[:h.K]:
            return
        first = hole + 1
        if (home_of(image, entry[:h.K]) - first) % h.N > (slot - first) % h.N:
            image[slot_at(h, hole):slot_at(h, hole) + size] = entry
            image[at:at + size] = nothing
            hole = slot


def lookup(image, key):
    return lookup_slots(image, key)[:3]


def lookup_slots(image, key):
    # 01: "lookup gives the offset of the first message byte and the length, both 0 with no active message or when refused".
    number = opening_with_key(image, key)
    if number:
        return number, 0, 0, 0
    how, slot, read = search(image, key)
    if how != MET:
        return 14, 0, 0, read
    offset = offset_in(image, slot)
    if not message_passes(image, offset):
        return 11, 0, 0, read
    return 0, *shown(image, offset), read


def shown(image, offset):
    text = text_at(image, offset)
    return (0, 0) if text is None else (offset + header_size(image), len(text))


def count(image):
    # 01: "count answers C, and 0 beside the number when refused".
    number = opening(image)
    return (number, 0) if number else (0, head(image).C)


# ---- walk, check, lister ----

def walk(image, start):
    # 01: "The walk from slot i shows the lowest taken slot at or above i, its key as a part of the image, or the end; i ≥ N is the end."
    number = opening(image)
    if number:
        return number, 0, 0
    for slot, _, _ in taken_slots(image, start):
        return 0, slot, slot_at(head(image), slot)
    return 0, 0, 0


def check(image):
    # 01: "The check says sound when each taken slot's key, searched, ends there, its message passes 11, and C is the number of taken slots.
    # Else it names the lowest failing slot, or, if only C fails, the count."
    number = opening(image)
    if number:
        return number, 0, 0
    taken = 0
    below = bytearray(len(image))  # 1 where a byte is in the stretch of a lower-numbered taken slot
    for slot, key, offset in taken_slots(image):
        taken += 1
        if search(image, key)[:2] != (MET, slot) or not message_passes(image, offset):
            return 0, SLOT_FAILS, slot
        # Job 1: "a taken slot with an offset other than 0 also fails the check when its stretch, from its header to the end of its
        # message, meets the stretch of a lower-numbered taken slot".
        if offset != 0:
            end = offset + header_size(image) + length_at(image, offset)
            if 1 in below[offset:end]:
                return 0, SLOT_FAILS, slot
            below[offset:end] = b'\1' * (end - offset)
    return (0, SOUND, 0) if taken == head(image).C else (0, COUNT_FAILS, 0)


def lister(image):
    # 01: "reads an image of at most 65,536 bytes. It prints a heading, then slot, key (two lower-case hexadecimal digits a byte) and the
    # length of the slot's own active message (0 if none, bad where 11 fails) of each taken slot in slot order, one space between, a line
    # feed after each line; or, as the only line, "refused", a space and the number, or "too long"."
    if len(image) > 65_536:
        return 'too long\n'
    if opening(image):
        return f'refused {opening(image)}\n'
    lines = ['slot key length']
    for slot, key, offset in taken_slots(image):
        length = len(text_at(image, offset) or b'') if message_passes(image, offset) else 'bad'
        lines.append(f'{slot} {key.hex()} {length}')
    return ''.join(line + '\n' for line in lines)


# ---- Job 2: space of dead messages ----

def compact(image):
    # Job 2: "It answers 0, or 15, after 6, if the image isn't sound."
    number, verdict, _ = check(image)
    if number:
        return (number,)
    if verdict != SOUND:
        return (15,)
    # "moves all active messages down, in the order of their offsets, without gaps from D on, lowers X, zeroes every byte from X on, and
    # sets the offset of each inactive message to 0."
    kept = []
    for slot, _, offset in taken_slots(image):
        text = text_at(image, offset)
        if text is None:
            set_offset(image, slot, 0)
        else:
            kept.append((offset, slot, text))
    X = head(image).D
    for _, slot, text in sorted(kept):
        set_offset(image, slot, X)
        moved = message(image, b'a', text)
        image[X:X + len(moved)] = moved
        X += len(moved)
    image[X:] = bytes(len(image) - X)
    set_next_free(image, X)
    return (0,)


# ---- Job 8: refreshing the stations' copies ----

def changed_runs(old, new):
    # Job 8: "pairs of offset and length, sorted by offset, one pair for each unbroken run of bytes whose value changed".
    differing = (int.from_bytes(old, 'big') ^ int.from_bytes(new, 'big')).to_bytes(len(old), 'big')
    return [(run.start(), run.end() - run.start()) for run in re.finditer(rb'[^\0]+', differing)]


def as_bytes(pairs):
    # Job 8: "pairs of offset and length, 4 bytes each".
    return b''.join(struct.pack('>2I', *pair) for pair in pairs)


def listed(image, call, work, pair_list):
    # "A list slice below 8 bytes, or a working slice below L, is answered 16, before question 1."
    if len(pair_list) < 8 or len(work) < len(image):
        return 16, 0
    new = bytearray(image)
    number = call(new)[0]
    if number:  # "A refused call answers no pairs."
        return number, 0
    pairs = changed_runs(image, new)
    if 8 * len(pairs) > len(pair_list):  # "If the pairs don't fit, the list is the single pair 0, L."
        pairs = [(0, len(image))]
    # 01: "a call that fills a slice leaves the bytes behind its answer". Job 8: "The call answers how many pairs it wrote."
    pair_list[:8 * len(pairs)] = as_bytes(pairs)
    image[:] = new
    return 0, len(pairs)


def add_listed(image, key, data, mode, work, pair_list):
    return listed(image, lambda new: add(new, key, data, mode), work, pair_list)


def delete_listed(image, key, work, pair_list):
    return listed(image, lambda new: delete(new, key), work, pair_list)


def compact_listed(image, work, pair_list):
    return listed(image, compact, work, pair_list)


# ---- Job 9: cable pulled while writing ----

def content_of(old, new):
    # Job 9: "from its start the pair count (4 bytes), all the pairs and the new bytes".
    pairs = changed_runs(old, new)
    return struct.pack('>I', len(pairs)) + as_bytes(pairs) + b''.join(new[at:at + length] for at, length in pairs)


def journaled(image, call, work, journal):
    if len(work) < len(image):  # "with Job 8's working slice but no list"
        return (16,)
    new = bytearray(image)
    number = call(new)[0]
    if number:
        return (number,)
    content = content_of(image, new)
    # "A journal too short for content and mark, or with a mark other than 0, is answered 17 after all other questions and before any
    # write".
    if len(journal) < len(content) + 1 or journal[-1] != 0:
        return (17,)
    # "a lent journal takes from its start [the content]; then its last byte, the mark, is set to 0xA5; then each stretch is written to
    # the image; then the mark becomes 0."
    journal[:len(content)] = content
    journal[-1] = MARK
    image[:] = new
    journal[-1] = 0
    return (0,)


def add_journaled(image, key, data, mode, work, journal):
    return journaled(image, lambda new: add(new, key, data, mode), work, journal)


def delete_journaled(image, key, work, journal):
    return journaled(image, lambda new: delete(new, key), work, journal)


def compact_journaled(image, work, journal):
    return journaled(image, compact, work, journal)


def recover(image, journal):
    # Job 9: "recovery, which puts no other question, answers 0, or 18 when the journal is empty or, being marked, has content that reaches
    # the mark or a pair that leaves the image or starts before the last one's end".
    if len(journal) == 0:
        return (18,)
    if journal[-1] == MARK:
        room = len(journal) - 1
        if room < 4:
            return (18,)
        pairs_end = 4 + 8 * get(journal, 0)
        if pairs_end > room:
            return (18,)
        pairs = [struct.unpack_from('>2I', journal, at) for at in range(4, pairs_end, 8)]
        if pairs_end + sum(length for _, length in pairs) > room:
            return (18,)
        last_end = 0
        for at, length in pairs:
            if at + length > len(image) or at < last_end:
                return (18,)
            last_end = at + length
        # "Recovery rewrites the image from a journal whose mark is 0xA5; with any other mark it leaves the image."
        source = pairs_end
        for at, length in pairs:
            image[at:at + length] = journal[source:source + length]
            source += length
    # "Either way it sets the mark to 0 and changes no other journal byte."
    journal[-1] = 0
    return (0,)


# ---- Job 10: readings by column ----

def columns(records, width):
    # Job 10: "one byte W followed by the first byte of every record, then the second bytes, and so on".
    return bytes([width]) + b''.join(records[i::width] for i in range(width))


def records_of(text):
    # The records in a stored text; None where its width is out of range or its record bytes are no multiple of it. Job 10: "Reading takes W
    # from the first stored byte, 0 if none".
    width = text[0] if text else 0
    if not 1 <= width <= 64 or (len(text) - 1) % width != 0:
        return None
    number = (len(text) - 1) // width
    body = text[1:]
    return b''.join(body[i::number] for i in range(number))


def store_columns(image, key, records, width):
    # Job 10: "A storing form takes records and W from 1 to 64, and stores, as mode 2 does". "A width out of range, record bytes not a
    # multiple of W, or a slice too short is answered 19, after 7 when storing".
    number = opening_with_key(image, key)
    if number:
        return (number,)
    if not 1 <= width <= 64 or len(records) % width != 0:
        return (19,)
    return add(image, key, columns(records, width), 2)


def read_columns(image, key, out):
    # Job 10: 19 stands "after 11 when reading". Reading "fills a lent slice with the records and answers their byte count". "A refused
    # reading, like a later job's refused call, answers 0 beside the number."
    number, at, length = lookup(image, key)
    if number:
        return number, 0
    records = records_of(bytes(image[at:at + length]))
    if records is None or len(records) > len(out):
        return 19, 0
    out[:len(records)] = records
    return 0, len(records)


# ---- Job 11: scans longer than sixteen MiB ----

def active_messages(image):
    # "in the order of their offsets" (Job 2): the offset, slot and text of each active message of a point.
    texts = ((offset, slot, text_at(image, offset)) for slot, _, offset in taken_slots(image))
    return sorted(one for one in texts if one[2] is not None)


def converted_end(image):
    # Where the messages of a sound image end in the other version: D, and each with its other header, "compacted as in Job 2".
    other = 9 - header_size(image)
    return head(image).D + sum(other + len(text) for _, _, text in active_messages(image))


def convert(source, target):
    # "The converter puts 1 to both slices, 5 and 6, then 15 if unsound, 20 on narrowing an active message above 16,777,215 bytes, and 13 for
    # a target too small; accepted, it answers 0."
    if not question_1(len(source)) or not question_1(len(target)):
        return (1,)
    number, verdict, _ = check(source)
    if number:
        return (number,)
    if verdict != SOUND:
        return (15,)
    narrows = header_size(source) == 5
    if narrows and any(len(text) > LONGEST_MESSAGE for _, _, text in active_messages(source)):
        return (20,)
    X = converted_end(source)
    if X > len(target):
        return (13,)
    # "Points, texts and each point's slot are equal before and after, as are scramble and header but for version, X and M; .. all other
    # bytes are zero." It carries the image "as the other version (2.0.0 or 1.0.2)".
    h = head(source)
    target[:] = bytes(len(target))
    target[:X_AT] = source[:X_AT]
    target[5:8] = b'\1\0\2' if narrows else b'\2\0\0'
    scramble_end = SCRAMBLE + 4 * (h.E - h.F + 1)
    target[SCRAMBLE:scramble_end] = source[SCRAMBLE:scramble_end]
    for slot, key, _ in taken_slots(source):
        at = slot_at(h, slot)
        target[at:at + h.K] = key
    at = h.D
    for _, slot, text in active_messages(source):
        carried = message(target, b'a', text)
        target[at:at + len(carried)] = carried
        set_offset(target, slot, at)
        at += len(carried)
    put(target, X_AT, X)
    put(target, M_AT, last_page(X, h.D))
    return (0,)


# ---- Job 13: plates that are half legible ----

def select(image, lowest, highest, slot_list):
    # Job 13: "For each of K positions they give a lowest and highest byte, and the call lists all taken slots whose every key byte lies in
    # its range, each exactly once, by rising slot, and answers how many".
    number = opening(image)
    if number:
        return number, 0
    h = head(image)
    # "A wrong number of ranges or a lowest above its highest is answered 22, after 6, and a list that can't hold N slot numbers of 4
    # bytes is answered 16, here after 22."
    if len(lowest) != h.K or len(highest) != h.K or any(low > high for low, high in zip(lowest, highest)):
        return 22, 0
    if len(slot_list) < 4 * h.N:
        return 16, 0
    found = [slot for slot, key, _ in taken_slots(image)
             if all(low <= c <= high for low, c, high in zip(lowest, key, highest))]
    slot_list[:4 * len(found)] = b''.join(struct.pack('>I', slot) for slot in found)
    return 0, len(found)


# ---- Job 14: epochs of monitoring prisms ----

def at_epoch(image, name, epoch):
    # Job 14: "The last 4 key bytes become an epoch number, most significant byte first. A new call takes a name of K − 4 bytes and an epoch
    # t, and shows epoch and message of the entry of that name with the largest epoch at most t (the lowest slot if two), or 14 when none
    # has one."
    number = opening(image)
    if number:
        return number, 0, 0, 0
    # "A file with K below 5 is answered 23, after 6, then a name without K − 4 bytes 7, and the entry's message meets 11 last."
    K = head(image).K
    if K < 5:
        return 23, 0, 0, 0
    if len(name) != K - 4:
        return 7, 0, 0, 0
    best = None
    for _, key, offset in taken_slots(image):
        when = get(key, K - 4)
        if key[:K - 4] == name and when <= epoch and (best is None or when > best[0]):
            best = when, offset
    if best is None:
        return 14, 0, 0, 0
    when, offset = best
    if not message_passes(image, offset):
        return 11, 0, 0, 0
    return 0, when, *shown(image, offset)
