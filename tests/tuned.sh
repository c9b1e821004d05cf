#!/bin/sh
# Tuned C in the library's place: every answer and image byte is compared with
# plain C and the book. Then each fault below, one edit of a copy of tuned.c,
# must be found. Ends with "N passed, M failed".
#
# Usage: ./tuned.sh [seed]        CALLS may be set.

cd "$(dirname "$0")" || exit 2
. ./tally.sh
. ./edited.sh
SEED=${1:-1}
CALLS=${CALLS:-2000000}
OUT=build/tuned
COPY=$OUT/faulty.c

# differs SOURCE: 1 if differential finds a difference, 0 if not.
differs() {
    make -s "$OUT/tuned-differential" OUT="$OUT" TUNED="$1" || return 2
    timeout 300 "$OUT/tuned-differential" --strict --seed "$SEED" \
        --calls "$CALLS" --quiet >"$OUT/report"
}

# finds OLD NEW: the edit of tuned.c is found.
finds() {
    edited "$1" "$2" reference/tuned.c >"$COPY" || { echo "the edit does not apply exactly once"; return 1; }
    differs "$COPY"
    [ $? -eq 1 ]
}

mkdir -p "$OUT" || exit 2
echo "seed $SEED"
test_that "tuned C is as plain C" differs reference/tuned.c
test_that "found: the first word alone decides" \
    finds 'word == wanted && same_rest(f.at, key, v->key_size, width)' \
    'word == wanted'
test_that "found: a slot whose first word is zero taken for empty" \
    finds 'word == 0 && zero_rest(f.at, v->key_size, width)' 'word == 0'
test_that "found: the key's last word not compared" \
    finds 'return word64(a + length - 8) == word64(b + length - 8);' \
    'return 1;'
test_that "found: the search does not wrap" \
    finds 'f.at = v->table;' 'return f;'
test_that "found: the last scrambled character left out" \
    finds 'if (LIKELY(c <= span))' 'if (LIKELY(c < span))'
test_that "found: an entry stays one slot too far" \
    finds 'if (from_hole - 1 < far)' 'if (from_hole - 1 <= far)'
test_that "found: a slot's last word not moved" \
    finds 'memcpy(to + length - 8, &word, 8);' '(void)word;'
test_that "found: slots read not counted round the table's end" \
    finds '(slot < f.home ? v->slots : 0) + slot - f.home' 'slot - f.home'
test_that "found: slots read of an exhausted search" \
    finds 'if (f.ending == EXHAUSTED)' 'if (f.ending == EMPTY)'
test_that "found: a message of length 0 is damaged" \
    finds 'return m->length <= v->next - offset - v->header_size;' \
    'return m->length - 1 < v->next - offset - v->header_size;'
test_that "found: the version's last byte may be 3" \
    finds 'version - VERSION_1 > 2 &&' 'version - VERSION_1 > 3 &&'
test_that "found: a note in place leaves the version" \
    finds 'mark_note(image, v, length);' ''
test_that "found: a note is written at offset 0" \
    finds 'mode == MODE_REPLACE && old.offset != 0 && data_len' \
    'mode == MODE_REPLACE && data_len'
test_that "found: messages that touch move as one too many" \
    finds 'i < count && moves[i].from == end; i++' \
    'i < count && moves[i].from <= end + 1; i++'
test_that "found: a digit of the places is not sorted by" \
    finds 'shift < 32; shift += 11' 'shift < 11; shift += 11'
test_that "found: a note makes 2.0.0 another version" \
    finds 'if (data_len == 0 && v->header_size == MESSAGE_HEADER)' \
    'if (data_len == 0 && v->header_size > 0)'
test_that "found: the length of 2.0.0 without its top byte" \
    finds "version == VERSION_2 ? 0xFFFFFFFFu : MESSAGE_MAX;" 'MESSAGE_MAX;'
test_that "found: the length of 2.0.0 beginning with the letter" \
    finds 'get32(at + v->header_size - 4)' 'get32(at)'
test_that "found: messages that share bytes are carried" \
    finds 'if (moves[i].from < end)' 'if (moves[i].from + 1 < end)'
test_that "found: a conversion does not count the points" \
    finds 'return taken == v->count ? found : v->slots + 1;' 'return found;'
test_that "found: 20 asked on widening alone" \
    finds 'header_size == MESSAGE_HEADER && text > MESSAGE_MAX' \
    'header_size != MESSAGE_HEADER && text > MESSAGE_MAX'
test_that "found: an empty slot's offset is carried" \
    finds 'put32(to + v->key_size, 0);' 'if (to[0] != 0) put32(to + v->key_size, 0);'
test_that "found: the target's bytes behind its table are left" \
    finds 'memset(target + table_end, 0, v->data - table_end);' \
    '(void)table_end;'
test_that "found: the target's bytes behind its scramble are left" \
    finds 'memset(target + scramble_end, 0, TABLE - scramble_end);' ''
test_that "found: the target's bytes behind its messages are left" \
    finds 'memset(target + end, 0, target_len - end);' ''
test_that "found: a column of each group left out" \
    finds 'if (c < wanted)' 'if (c + 1 < wanted)'
test_that "found: narrow records written beyond the last one" \
    finds 'size_t spare = width < GROUP ? GROUP : 0;' \
    'size_t spare = width < 2 ? GROUP : 0;'
test_that "found: columns in place leave the rest of the old bytes" \
    finds 'memset(to + v.header_size + 1 + size, 0, old.length - 1 - size);' \
    ''
test_that "found: columns in place one byte too long" \
    finds 'if (records_len < old.length) {' \
    'if (records_len <= old.length && old.length > 0) {'
test_that "found: a slice one byte too short for the records" \
    finds '|| out_len < size)' '|| out_len + 1 < size)'
test_that "found: empty slots where zeros lie in the ranges" \
    finds 'r->takes_zeros = all_zero(low, KEY_MAX);' 'r->takes_zeros = 0;'
test_that "found: a long name's rest not held against its ranges" \
    finds 'if (inside(r, 1, rest) != 0xFFFF)' 'if (inside(r, 1, rest) == 77)'
test_that "found: slots at the image's end passed over" \
    finds 'select_last(v, &r, &to, slot);' '(void)slot, (void)select_last;'
test_that "found: a list one byte too short for N slot numbers" \
    finds 'if (list_len / 4 < v.slots)' 'if ((list_len + 1) / 4 < v.slots)'
test_that "found: the name's first word alone decides on epochs" \
    finds 'wanted || !same_rest(at, name, size, width))' 'wanted)'
test_that "found: the highest slot of two with one epoch" \
    finds 'if (found <= best ||' 'if (found < best ||'
test_that "found: an empty slot of epoch 0" \
    finds '(zero && found == 1))' '(zero && found == 0))'
test_that "found: no epoch is at most the largest number" \
    finds 'found > (uint64_t)epoch + 1 ||' 'found > epoch + 1u ||'
test_that "found: an empty slot's message is in the sum" \
    finds 'if (length > last - offset || all_zero(at, v->key_size))' \
    'if (length > last - offset)'
test_that "found: the named point's message is in the sum again" \
    finds 'gone = n->offset;' ''
test_that "found: the sum of a message at the last place" \
    finds 'if (offset - v->data > last - v->data)' 'if (offset - v->data >= last - v->data)'
test_that "found: the letter that a move changes is read in the sum" \
    finds 'if (gone - offset < v->header_size) {' 'if (gone - offset < 1) {'
test_that "found: 13 where the sum is just what is left" \
    finds 'return active_space(&p->old, gone, left) > left' \
    'return active_space(&p->old, gone, left) >= left'
test_that "found: the named point's message is not in the new X" \
    finds 'left -= p->new.header_size + n->length;' ''
test_that "found: the view of the new image is left as it was" \
    finds 'p->new.next += p->new.header_size + t->m.length;' ''
test_that "found: the new X is not read again after the add" \
    finds 'p->new.next = get32(new + AT_NEXT);' ''
test_that "found: the search for points goes on behind the slot" \
    finds 'travel(p, old, new, &t);' 'travel(p, old, new, &t), at += p->old.stride;'
test_that "found: a refused move is passed over" \
    finds 'while (at != p->old.table_end && all_zero(at, p->old.key_size))' \
    'while (at != p->old.table_end && (all_zero(at, p->old.key_size) || ask_travel(p, at, &t) != ACCEPTED))'
test_that "found: a withdrawn message of the named point is written over" \
    finds 'if (m.letter != ACTIVE)' 'if (m.letter == 0)'
test_that "found: an entry in the new image at a tie" \
    finds 'if (chosen_epoch(&p.new, there) > chosen_epoch(&p.old, at)) {' \
    'if (chosen_epoch(&p.new, there) >= chosen_epoch(&p.old, at)) {'
test_that "found: a run that begins inside a word" \
    finds 'while (at < length && old[at] == new[at])' \
    'while (at < length && at % 8 == 0 && old[at] == new[at])'
test_that "found: a list one pair too short" \
    finds 'if (most-- == 0)' 'if (most-- <= 1)'
test_that "found: a journal without room for its pairs" \
    finds 'size += PAIR + (r.end - r.at);' 'size += r.end - r.at;'
tally
