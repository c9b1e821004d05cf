"""Job 12 of the second model: a bigger table without a pause, on a pair of images of any bytes.

A call on the pair has the name that the C header gives it without "bhtf_". It takes the old image and the new one, then the plain call's
arguments, changes them in place, and returns a tuple as the calls of image.py do.

The named point's move and the call are made on copies, and the call's own questions are put to what that move left there; only an accepted
call's copies become the images.

Readings, where the documents are open:

 1. "version" of "1, 5, 6, version or K" is the start's "major version".
 2. U of a call's own 13, and both C of its 10, are those of the pair as the named point's move leaves it: that move stands "before the
    call's other questions".
 3. A move's 9 is asked of a point without a message too: 01's move is an add "in mode 1", and mode 3 with empty data is only how an add
    leaves it "without an offset" (Job 4).
 4. What is not asked later may be otherwise: the new image's N smaller, its points not those of the old one.
"""

from image import (C_AT, MET, SOUND, active_messages, add, at_epoch, check, delete, delete_slot, head, header_size, lookup, message_passes,
                   offset_in, opening, put, read_columns, search, select, slot_at, store_columns, taken_slots, text_at)

MOVES = 8  # "moves the point in the old one's lowest taken slot, 8 times or until none is left"


def same_kind(old, new):
    # "of the same major version, with the same K"
    return old[5] == new[5] and head(old).K == head(new).K


def active_space(image):
    # "header and length of each active message in the old that passes 11"
    return sum(header_size(image) + len(text_at(image, offset)) for _, _, offset in taken_slots(image)
               if message_passes(image, offset) and text_at(image, offset) is not None)


def grow(old, new):
    # "Growth takes a sound image and a second sound one with C = 0 and X = D, of the same major version, with the same K and a larger N,
    # answers 0 and writes nothing." "A second image that fails these conditions, or whose R is below the compacted U, is answered 21, after
    # 15".
    number, verdict, _ = check(old)
    if number:
        return (number,)
    if verdict != SOUND:
        return (15,)
    if check(new)[:2] != (0, SOUND):
        return (21,)
    h = head(new)
    fits = (h.C == 0 and h.X == h.D and same_kind(old, new) and h.N > head(old).N
            and len(new) - h.D >= sum(header_size(old) + len(text) for _, _, text in active_messages(old)))
    return (0,) if fits else (21,)


def opening_of_pair(old, new):
    # "later one that fails 1, 5, 6, version or K, directly after 6, before any other number put there"
    number = opening(old)
    if number:
        return number
    return 0 if opening(new) == 0 and same_kind(old, new) else 21


def opening_with_name(old, new, key):
    number = opening_of_pair(old, new)
    if number == 0 and (len(key) != head(old).K or not any(key)):
        return 7
    return number


def move(old, new, slot):
    # 01: "To move a point to a second image is to add it there in mode 1 with its active message, or without an offset if it has none, and to
    # delete its slot here. The move is refused, changing nothing, with 11 if its message or the C here fails delete's question 11, else as
    # that add alone would be by 9, 10, 12 and 13."
    offset = offset_in(old, slot)
    if not message_passes(old, offset) or head(old).C < 1:
        return 11
    h = head(old)
    key = bytes(old[slot_at(h, slot):slot_at(h, slot) + h.K])
    if search(new, key)[0] == MET:
        return 9
    text = text_at(old, offset)
    number = add(new, key, b'', 3)[0] if text is None else add(new, key, text, 1)[0]
    if number == 0:
        delete_slot(old, slot)
    return number


def move_lowest(old, new):
    # "then moves the point in the old one's lowest taken slot, 8 times or until none is left"; "A refused move ends the moves".
    for _ in range(MOVES):
        lowest = next(taken_slots(old), None)
        if lowest is None or move(old, new, lowest[0]) != 0:
            return


def own_question(old, new, key, trial_number, trial, mode):
    # The call's own number on the pair as it is now, given what the call on a copy of the new image alone answered and made of it. "a call's
    # own 10 reckons with both C, its 13 with U, in the file the new X − D plus header and length of each active message in the old that
    # passes 11".
    h = head(new)
    if search(new, key)[0] != MET and mode != 4 and head(old).C + h.C >= h.N:
        return 10
    if trial_number == 0 and head(trial).X != h.X and head(trial).X + active_space(old) > len(new):
        return 13
    return trial_number


def change(old, new, key, mode, call):
    # "Each following accepted add or delete first moves (as 01 says) the point it names, if still in the old image, then acts on the new one,
    # then moves ..". "the named point's is tried after 7, 8 and storing's 19, before the call's other questions, and its number refuses the
    # call". "a refused call .. move[s] none".
    was_old, was_new = old, new
    old, new = bytearray(old), bytearray(new)
    how, slot, _ = search(old, key)
    if how == MET:
        number = move(old, new, slot)
        if number:
            return (number,)
    trial = bytearray(new)
    number = call(trial)[0]
    if mode is not None:
        number = own_question(old, new, key, number, trial, mode)
    if number:
        return (number,)
    move_lowest(old, trial)
    was_old[:], was_new[:] = old, trial
    return (0,)


def grow_add(old, new, key, data, mode):
    number = opening_with_name(old, new, key)
    if number == 0 and mode not in (1, 2, 3, 4):
        number = 8
    if number:
        return (number,)
    return change(old, new, key, mode, lambda trial: add(trial, key, data, mode))


def grow_delete(old, new, key):
    number = opening_with_name(old, new, key)
    if number:
        return (number,)
    return change(old, new, key, None, lambda trial: delete(trial, key))


def grow_store_columns(old, new, key, records, width):
    # Job 10: 19 stands "after 7 when storing".
    number = opening_with_name(old, new, key)
    if number == 0 and (not 1 <= width <= 64 or len(records) % width != 0):
        number = 19
    if number:
        return (number,)
    return change(old, new, key, 2, lambda trial: store_columns(trial, key, records, width))


def holds(old, key):
    # "Lookups search old, then new"
    return search(old, key)[0] == MET


def grow_lookup(old, new, key):
    number = opening_with_name(old, new, key)
    if number:
        return number, 0, 0, 0
    number, at, length = lookup(old if holds(old, key) else new, key)
    return number, int(at != 0 and not holds(old, key)), at, length


def grow_count(old, new):
    # "count answers both C together"
    number = opening_of_pair(old, new)
    return (number, 0) if number else (0, head(old).C + head(new).C)


def grow_read_columns(old, new, key, out):
    number = opening_with_name(old, new, key)
    return (number, 0) if number else read_columns(old if holds(old, key) else new, key, out)


def grow_select(old, new, lowest, highest, slot_list):
    # Job 13: "In growth the old image's come first, and each image's number is answered." "a list that can't hold N slot numbers of 4 bytes
    # (both N added during growth) is answered 16, here after 22".
    number = opening_of_pair(old, new)
    if number:
        return number, 0, 0
    N_old, N_new = head(old).N, head(new).N
    first, second = bytearray(4 * N_old), bytearray(4 * N_new)
    number, found = select(old, lowest, highest, first)
    if number == 0 and len(slot_list) < 4 * (N_old + N_new):
        number = 16
    if number:
        return number, 0, 0
    _, more = select(new, lowest, highest, second)
    slot_list[:4 * (found + more)] = first[:4 * found] + second[:4 * more]
    return 0, found, more


def grow_at_epoch(old, new, name, epoch):
    # Job 14: "In growth both images are searched, the old first at a tie."
    number = opening_of_pair(old, new)
    if number:
        return number, 0, 0, 0, 0
    K = head(old).K
    if K < 5:
        return 23, 0, 0, 0, 0
    if len(name) != K - 4:
        return 7, 0, 0, 0, 0

    def latest(image):
        return max((int.from_bytes(key[-4:], 'big') for _, key, _ in taken_slots(image)
                    if key[:-4] == name and int.from_bytes(key[-4:], 'big') <= epoch), default=-1)
    in_new = latest(new) > latest(old)
    number, when, at, length = at_epoch(new if in_new else old, name, epoch)
    return number, when, int(in_new and at != 0), at, length
