#!/bin/sh
# The test of the test: each fault below is one edit of a copy of plain.c.
# The copy stands in the library's place, and differential must find it within
# CALLS calls; of what only a cut call shows, cut must. Ends with
# "N passed, 0 failed", each fault being one.
#
# Usage: ./faults.sh [seed]        CC, CALLS and OUT may be set.

cd "$(dirname "$0")" || exit 2
. ./edited.sh
CC=${CC:-gcc}
CALLS=${CALLS:-2000000}
OUT=${OUT:-build/faults}
SEED=${1:-1}
FLAGS="-std=c99 -O2 -Ireference -DHANG_SECONDS=15"
FAULTY="$FLAGS -O1 -w" # compiled once for each fault
RENAME=$(grep -oE -- '-Dplain_[a-z_]+=bhtf_[a-z_]+' as-library.mk)
passed=0
failed=0

rm -rf "$OUT/right"
for file in differential.c differential/*.c subject.c \
    reference/plain.c reference/book.c; do
    object=$OUT/right/${file%.c}.o
    mkdir -p "$(dirname "$object")" &&
        $CC $FLAGS -Wall -Wextra -Werror -c "$file" -o "$object" || exit 2
done
$CC $FLAGS -Wall -Wextra -Werror -c cut.c -o "$OUT/cut.o" || exit 2

# build SOURCE: a differential with that source as the library.
build() {
    $CC $FAULTY $RENAME -c "$1" -o "$OUT/faulty.o" &&
        $CC "$OUT"/right/*.o "$OUT"/right/*/*.o "$OUT/faulty.o" -o "$OUT/faulty"
}

run() {
    timeout 300 "$OUT/faulty" --seed "$SEED" --calls "$CALLS" --quiet
}

fail() {
    failed=$((failed + 1))
    echo "FAILED  $1: $2"
}

# fault NAME OLD NEW: OLD must stand in plain.c exactly once, in one line.
fault() {
    edited "$2" "$3" reference/plain.c >"$OUT/faulty.c" ||
        { fail "$1" "the edit does not apply exactly once"; return; }
    build "$OUT/faulty.c" || { fail "$1" "does not build"; return; }
    judge "$1"
}

# judge NAME: the program that was built must find a difference.
judge() {
    report=$(run)
    if [ $? -eq 1 ]; then
        passed=$((passed + 1))
        echo "found   $1: $(echo "$report" |
            sed -n 's/^DIFFERENCE: seed [0-9]*, \(call [0-9]*\).*/\1/p')"
    else
        fail "$1" "not found in $CALLS calls"
    fi
}

# misbook NAME OLD NEW: the same for an edit of book.c, beside plain.c in the library's place.
misbook() {
    edited "$2" "$3" reference/book.c >"$OUT/misbook.c" ||
        { fail "$1" "the edit does not apply exactly once"; return; }
    $CC $FAULTY $RENAME -c reference/plain.c -o "$OUT/faulty.o" &&
        $CC $FAULTY -c "$OUT/misbook.c" -o "$OUT/misbook.o" &&
        $CC "$OUT"/right/*.o "$OUT"/right/differential/*.o \
            "$OUT"/right/reference/plain.o "$OUT/misbook.o" "$OUT/faulty.o" \
            -o "$OUT/faulty" || { fail "$1" "does not build"; return; }
    judge "$1"
}

# build_cut SOURCE: a cut with that source as the library.
build_cut() {
    $CC $FAULTY $RENAME -c "$1" -o "$OUT/faulty.o" &&
        $CC "$OUT/cut.o" "$OUT/right/subject.o" "$OUT/faulty.o" -o "$OUT/cut"
}

# at_a_cut NAME OLD NEW: an edit of plain.c that cut must find; a call that is not cut leaves the same bytes.
at_a_cut() {
    edited "$2" "$3" reference/plain.c >"$OUT/faulty.c" ||
        { fail "$1" "the edit does not apply exactly once"; return; }
    build_cut "$OUT/faulty.c" || { fail "$1" "does not build"; return; }
    report=$("$OUT/cut" --seed "$SEED" --calls 100)
    if [ $? -eq 1 ]; then
        passed=$((passed + 1))
        echo "found   $1: $(echo "$report" | sed -n 's/^FAILED: \([^:]*\):.*, \(call [0-9]*\),.*/\2, \1/p' | head -n 1)"
    else
        fail "$1" "not found in 100 calls"
    fi
}

# Without a fault nothing may be found.
build reference/plain.c && run || fail "no fault" "a difference was found"
build_cut reference/plain.c && "$OUT/cut" --seed "$SEED" --calls 100 || fail "no fault" "cut found something"

# Delete.
fault "delete only empties the slot" \
    'close_hole(image, &v, slot);' '(void)close_hole;'
fault "delete leaves a mark" \
    'zero_slot(image, &v, slot);' \
    'memset(image + slot_at(&v, slot), 0xFF, v.key_size); return ACCEPTED;'
fault "delete limited to one round" \
    'while (is_taken(v, slot)) {' \
    'for (uint32_t i = 1; i < v->slots && is_taken(v, slot); i++) {'
fault "delete limited to two rounds" \
    'while (is_taken(v, slot)) {' \
    'for (uint32_t i = 1; i < 2 * v->slots && is_taken(v, slot); i++) {'
fault "hole keeps its offset bytes" \
    'memset(image + slot_at(v, slot), 0, v->stride);' \
    'memset(image + slot_at(v, slot), 0, v->key_size);'
fault "delete forgets that the hole may be the home" \
    'return home != hole && steps' 'return steps'
fault "delete compares slots without wrapping" \
    'return home != hole && steps(v, hole, home) <= steps(v, hole, slot);' \
    'return home > hole && home <= slot;'
fault "delete moves entries that are at home" \
    'steps(v, hole, home) <= steps(v, hole, slot)' \
    'steps(v, hole, home) < steps(v, hole, slot)'
fault "delete leaves the message active" \
    'retire(image, &old);' ''
fault "delete leaves C" \
    'put32(image + AT_COUNT, v.count - 1);' ''
fault "delete accepts C = 0" \
    ' || v.count < 1' ''
fault "delete does not look at the message" \
    'if (!read_message(&v, message_in(&v, slot), &old) || v.count < 1)' \
    'if ((read_message(&v, message_in(&v, slot), &old), v.count < 1))'

# Messages.
fault "replace does not zero the rest" \
    'memset(to + text.length, 0, old->length - text.length);' ''
fault "replace by as many bytes takes new space" \
    'if (old->offset != 0 && text.length <= old->length) {' \
    'if (old->offset != 0 && text.length < old->length) {'
fault "replace of an inactive message takes new space" \
    'if (old->offset != 0 && text.length <= old->length) {' \
    'if (old->active && text.length <= old->length) {'
fault "replace in place leaves the message inactive" \
    'write_active(image + old->offset, v->header_size, (uint32_t)text.length);' \
    'write_active(image + old->offset, v->header_size, (uint32_t)text.length); if (!old->active) retire(image, old);'
fault "replace in place keeps the old length" \
    'write_active(image + old->offset, v->header_size, (uint32_t)text.length);' \
    'write_active(image + old->offset, v->header_size, old->length);'
fault "longer replace keeps the old header active" \
    'return renew(image, v, slot, old, none, text);' \
    'return renew(image, v, slot, &(struct message){ 0, 0, 0 }, none, text);'
fault "append keeps the old header active" \
    'return renew(image, v, slot, old, kept, text);' \
    'return renew(image, v, slot, &(struct message){ 0, 0, 0 }, kept, text);'
fault "append to an inactive message keeps its bytes" \
    'if (old->active) {' 'if (old->offset != 0) {'
fault "refused replace or append makes the message inactive" \
    'uint32_t answer = ask_room(v, (uint32_t)kept.length, text.length);' \
    'uint32_t answer = (retire(image, old), ask_room(v, (uint32_t)kept.length, text.length));'
fault "X grows by 3 + m" \
    'offset + v->header_size + length;' 'offset + v->header_size - 1 + length;'
fault "M one too high at 4,096" \
    '(next - data - 1) / PAGE' '(next - data) / PAGE'
fault "M rewritten though X stays" \
    'put32(image + AT_COUNT, v->count + 1);' \
    'put32(image + AT_COUNT, v->count + 1); if (offset == 0) put32(image + AT_LAST_PAGE, last_page(v->data, v->next));'

# Add.
fault "only the first point is stored" \
    'write_slot(image, v, f.slot, key, offset);' \
    'if (v->count == 0) write_slot(image, v, f.slot, key, offset);'
fault "add leaves old offset bytes in the slot" \
    'put32(to + v->key_size, offset);' \
    'if (offset != 0) put32(to + v->key_size, offset);'
fault "10 ignores C" \
    'f.ending == EXHAUSTED || v->count >= v->slots' 'f.ending == EXHAUSTED'
fault "10 ignores the table" \
    'f.ending == EXHAUSTED || v->count >= v->slots' 'v->count >= v->slots'
fault "11 before 9" \
    'if (mode == MODE_NEW)' \
    'if (mode == MODE_NEW && read_message(v, message_in(v, slot), &old))'
fault "8 before 7" \
    'if (!key_fits(&v, key, key_len))' \
    'if (mode - 1 < 4 && !key_fits(&v, key, key_len))'
fault "mode 0 accepted" \
    'mode < MODE_NEW || mode > MODE_WITHDRAW' 'mode > MODE_WITHDRAW'
fault "mode 5 accepted" \
    'mode < MODE_NEW || mode > MODE_WITHDRAW' 'mode < MODE_NEW || mode > 5'
fault "mode cut to 8 bits" \
    'mode < MODE_NEW || mode > MODE_WITHDRAW' \
    '(uint8_t)mode < MODE_NEW || (uint8_t)mode > MODE_WITHDRAW'
fault "12 not asked" \
    'if (m > v->message_max || kept + m > v->message_max)' 'if (0)'
fault "12 looks at the new bytes only" \
    'm > v->message_max || kept + m > v->message_max' 'm > v->message_max'
fault "12 one byte early" \
    'm > v->message_max || kept + m > v->message_max' \
    'm >= v->message_max || kept + m >= v->message_max'
fault "13 one byte early" \
    'if (v->header_size + kept + m > v->length' \
    'if (v->header_size + kept + m >= v->length'
fault "13 one byte late" \
    'if (v->header_size + kept + m > v->length' \
    'if (v->header_size - 1 + kept + m > v->length'
fault "13 forgets the old bytes" \
    'if (v->header_size + kept + m > v->length' \
    'if (v->header_size + m > v->length'
fault "image length cut to 32 bits" \
    'return length % PAGE == 0 && length >= PAGE && length <= IMAGE_MAX;' \
    'length = (uint32_t)length; return length % PAGE == 0 && length >= PAGE && length <= IMAGE_MAX;'
fault "data length cut to 32 bits" \
    '{ data, data_len };' '{ data, (uint32_t)data_len };'

# Names, hash and search.
fault "key length cut to 32 bits" \
    'length == v->key_size &&' '(uint32_t)length == v->key_size &&'
fault "longer keys accepted" \
    'length == v->key_size &&' 'length >= v->key_size &&'
fault "key of zeros accepted" \
    'length == v->key_size && !all_zero(key, v->key_size)' \
    'length == v->key_size'
fault "search compares only up to a zero byte" \
    'memcmp(key_in(v, slot), key, v->key_size)' \
    'strncmp((const char *)key_in(v, slot), (const char *)key, v->key_size)'
fault "search leaves out the last key byte" \
    'memcmp(key_in(v, slot), key, v->key_size)' \
    'memcmp(key_in(v, slot), key, v->key_size - (v->key_size > 1))'
fault "search does not wrap" \
    'f.slot = after(v, f.slot);' \
    'f.slot += f.slot + 1 < v->slots;'
fault "search reads N - 1 slots" \
    'while (f.read < v->slots) {' 'while (f.read + 1 < v->slots) {'
fault "a slot is empty when its first key byte is" \
    'return !all_zero(key_in(v, slot), v->key_size);' \
    'return *key_in(v, slot) != 0;'
fault "last scrambled character left out" \
    'c <= v->last)' 'c < v->last)'
fault "first scrambled character left out" \
    'v->first <= c &&' 'v->first < c &&'
fault "scramble indexed by c" \
    '4 * (c - v->first)' '4 * c'
fault "FNV-1a instead of FNV-1" \
    'uint32_t hash = v->start;' \
    'uint32_t hash = v->start ^ (v->first <= key[0] && key[0] <= v->last ? get32(scramble + 4 * (key[0] - v->first)) : 0);'

# Slots read.
fault "the slot where the key is met is not counted" \
    'f.ending = MET;' 'f.ending = MET; f.read--;'
fault "the empty slot is not counted" \
    'f.ending = EMPTY;' 'f.ending = EMPTY; f.read--;'
fault "an exhausted search reports 0" \
    'f.slot = after(v, f.slot);' \
    'f.slot = after(v, f.slot); if (f.read == v->slots) return f.read = 0, f;'
fault "an exhausted search reports N + 1" \
    'f.slot = after(v, f.slot);' \
    'f.slot = after(v, f.slot); if (f.read == v->slots) return f.read++, f;'
fault "add reports slots on 7" \
    'if (!key_fits(&v, key, key_len))' \
    'if (key_len == v.key_size) *slots_read = search(&v, key).read; if (!key_fits(&v, key, key_len))'
fault "lookup and delete report slots on 7" \
    'if (!key_fits(v, key, key_len))' \
    'if (key_len == v->key_size) *slots_read = search(v, key).read; if (!key_fits(v, key, key_len))'
fault "add reports slots on 8" \
    'if (!mode_fits(mode))' \
    'f = search(&v, key); *slots_read = f.read; if (!mode_fits(mode))'
fault "9 reports 0" \
    'if (f.ending == MET)' \
    'if (f.ending == MET && mode == MODE_NEW) *slots_read = 0; if (f.ending == MET)'
fault "add of an absent name reports 0" \
    'answer = add_absent(image, &v, f, key, text, mode);' \
    'answer = add_absent(image, &v, f, key, text, mode), *slots_read = 0;'
fault "10, 12 and 13 report 0" \
    'answer = add_absent(image, &v, f, key, text, mode);' \
    'answer = add_absent(image, &v, f, key, text, mode), *slots_read *= answer == ACCEPTED;'
fault "14 reports 0" \
    'return f.ending == MET ? ACCEPTED : 14;' \
    'if (f.ending != MET) *slots_read = 0; return f.ending == MET ? ACCEPTED : 14;'
fault "delete's 11 reports 0" \
    'if (!read_message(&v, message_in(&v, slot), &old) || v.count < 1)' \
    'uint32_t was = *slots_read; *slots_read = 0; if (!read_message(&v, message_in(&v, slot), &old) || v.count < 1) return 11; *slots_read = was; if (0)'
fault "slots read are the distance from home, not wrapped" \
    'return f.ending == MET ? ACCEPTED : 14;' \
    'if (f.ending != EXHAUSTED) *slots_read = f.slot - home_of(v, key) + 1; return f.ending == MET ? ACCEPTED : 14;'
fault "delete counts the slots of its walk" \
    'close_hole(image, &v, slot);' \
    '*slots_read += is_taken(&v, after(&v, slot)); close_hole(image, &v, slot);'

# Create.
fault "create leaves old bytes" \
    'memset(image, 0, image_len);' \
    'memset(image, 0, data_offset(key_size, slots));'
fault "D rounded down" \
    '(end + PAGE - 1) / PAGE * PAGE' 'end / PAGE * PAGE'
fault "D rounded up once too often" \
    '(end + PAGE - 1) / PAGE * PAGE' '(end + PAGE) / PAGE * PAGE'
fault "scramble begins one step late" \
    'put32(image + SCRAMBLE + 4 * i, state);' \
    'put32(image + SCRAMBLE + 4 * i, state * 1664525u + 1013904223u);'
fault "scramble one number short" \
    'LAST_CHARACTER - FIRST_CHARACTER + 1' 'LAST_CHARACTER - FIRST_CHARACTER'
fault "N of 0 is another number" \
    'slots = SLOTS_DEFAULT;' 'slots = 5503;'
fault "K of 33 accepted" \
    'if (key_size < 1 || key_size > KEY_MAX)' \
    'if (key_size < 1 || key_size > 33)'
fault "N of 1,048,577 accepted" \
    'if (slots > SLOTS_MAX)' 'if (slots > SLOTS_MAX + 1)'
fault "image that ends with its table refused" \
    'data_offset(key_size, slots) > image_len' \
    'data_offset(key_size, slots) >= image_len'

# Opening.
fault "length of 1 GiB and a page accepted" \
    'length <= IMAGE_MAX' 'length <= IMAGE_MAX + PAGE'
fault "length of 1 GiB refused" \
    'length <= IMAGE_MAX' 'length < IMAGE_MAX'
fault "question 6 keeps the old limit of slots" \
    'v->slots > SLOTS_MAX' 'v->slots > 65536'
fault "length 0 accepted" \
    'length >= PAGE && ' ''
fault "version 1.0.3 accepted" \
    'image[AT_LAST_VERSION] <= NOTES_VERSION' 'image[AT_LAST_VERSION] <= 3'
fault "version 1.0.2 refused" \
    'image[AT_LAST_VERSION] <= NOTES_VERSION' 'image[AT_LAST_VERSION] <= 1'
fault "version 1.0.1 refused" \
    'image[AT_LAST_VERSION] <= NOTES_VERSION' \
    'image[AT_LAST_VERSION] <= NOTES_VERSION && image[AT_LAST_VERSION] != 1'
fault "version 1.0.0 refused" \
    'image[AT_LAST_VERSION] <= NOTES_VERSION' \
    'image[AT_LAST_VERSION] <= NOTES_VERSION && image[AT_LAST_VERSION] != 0'
fault "C above N accepted" \
    'v->count > v->slots)' 'v->count > v->slots + 1)'
fault "E above 255 accepted" \
    ' || v->last > 255' ''
fault "F above E accepted" \
    'v->first > v->last || ' ''
fault "D not compared with its formula" \
    'v->data != data_offset(v->key_size, v->slots)' \
    'v->data < data_offset(v->key_size, v->slots)'
fault "X below D accepted" \
    'return v->data <= v->next && v->next <= v->length;' \
    'return v->next >= TABLE && v->next <= v->length;'
fault "X above L accepted" \
    'return v->data <= v->next && v->next <= v->length;' \
    'return v->data <= v->next;'
fault "X of L refused" \
    'v->next <= v->length;' 'v->next < v->length;'

# Question 11.
fault "offset below D accepted" \
    'offset < v->data ||' 'offset < TABLE ||'
fault "header across X accepted" \
    'offset > v->next - v->header_size' 'offset > v->next'
fault "any letter accepted" \
    "if (letter != 'a' && letter != 'd')" 'if (letter == 0)'
fault "inactive message refused" \
    "if (letter != 'a' && letter != 'd')" "if (letter != 'a')"
fault "length 0 of a message refused" \
    'return m->length <= v->next' 'return m->length >= 1 && m->length <= v->next'
fault "message's end not asked" \
    'm->length <= v->next - offset - v->header_size' '1'
fault "message's end compared with L" \
    'm->length <= v->next - offset' 'm->length <= v->length - offset'

# Lookup, count, walk, check.
fault "lookup shows an inactive message" \
    'if (m.active) {' 'if (m.offset != 0) {'
fault "lookup shows the header's offset" \
    '*offset = m.offset + v.header_size;' '*offset = m.offset;'
fault "lookup answers 14 behind slot 0" \
    'f.ending == MET ? ACCEPTED : 14' \
    'f.ending == MET && f.slot == 0 ? ACCEPTED : 14'
fault "count made up" \
    '*count = answer == ACCEPTED ? v.count : 0;' \
    '*count = answer == ACCEPTED ? 1 : 0;'
fault "count shown when refused" \
    '*count = answer == ACCEPTED ? v.count : 0;' \
    '*count = answer == 6 ? v.count : answer == ACCEPTED ? v.count : 0;'
fault "walk skips slot i" \
    'for (uint32_t i = from; i' 'for (uint32_t i = from + 1; i'
fault "walk never ends" \
    'for (uint32_t i = from; i' 'for (uint32_t i = from % v.slots; i'
fault "check forgets C" \
    'if (taken != v.count)' 'if (taken > v.slots)'
fault "check names the highest failing slot" \
    'for (*taken = 0; slot < v->slots; slot++) {' \
    'for (*taken = 0, slot = v->slots - 1; slot < v->slots; slot--) {'
fault "check passes a second copy of a key" \
    'if (f.ending != MET || f.slot != slot)' 'if (f.ending != MET)'
fault "check does not look at messages" \
    'return read_message(v, message_in(v, slot), m);' \
    'return m->offset = 0, 1;'
fault "check asks for C of at least 1" \
    'if (taken != v.count)' 'if (taken != v.count || taken == 0)'

# Empty notes.
fault "an empty note is looked up as none" \
    'if (m.active) {' 'if (m.active && m.length > 0) {'
fault "empty data in mode 1 takes no space" \
    'int placed = text.length > 0 || mode != MODE_APPEND;' \
    'int placed = text.length > 0 || mode == MODE_REPLACE;'
fault "empty data of an absent name in mode 2 takes no space" \
    'int placed = text.length > 0 || mode != MODE_APPEND;' \
    'int placed = text.length > 0 || mode == MODE_NEW;'
fault "nothing appended to an absent name is a note" \
    'int placed = text.length > 0 || mode != MODE_APPEND;' 'int placed = 1;'
fault "nothing appended to a name without an offset is a note" \
    'if (text.length == 0)' 'if (text.length == 0 && old->offset != 0)'
fault "nothing appended to a withdrawn message wakes it" \
    'if (text.length == 0)' \
    'if (text.length == 0 && !old->active && old->offset != 0) return overwrite(image, v, old, text), ACCEPTED; if (text.length == 0)'
fault "empty data in mode 2 withdraws" \
    'if (mode == MODE_REPLACE)' \
    'if (mode == MODE_REPLACE && text.length == 0) return retire(image, &old), ACCEPTED; if (mode == MODE_REPLACE)'
fault "empty data in mode 2 is written at offset 0" \
    'if (old->offset != 0 && text.length <= old->length) {' \
    'if (text.length <= old->length) {'
fault "empty data in mode 2 takes new space" \
    'if (old->offset != 0 && text.length <= old->length) {' \
    'if (text.length > 0 && text.length <= old->length) {'
fault "empty data in mode 2 leaves a withdrawn message" \
    'if (old->offset != 0 && text.length <= old->length) {' \
    'if (text.length == 0 && old->offset != 0 && !old->active) return ACCEPTED; if (old->offset != 0 && text.length <= old->length) {'
fault "an empty note in place keeps the old bytes" \
    'memset(to + text.length, 0, old->length - text.length);' \
    'if (text.length > 0) memset(to + text.length, 0, old->length - text.length);'
fault "13 not asked for empty data" \
    'if (v->header_size + kept + m > v->length' \
    'if (m > 0 && v->header_size + kept + m > v->length'
fault "an empty note takes a byte more than its header" \
    'offset + v->header_size + length;' \
    'offset + v->header_size + length + (length == 0 && offset + v->header_size < v->length);'
fault "mode 4 enters an absent name" \
    'if (mode == MODE_WITHDRAW)' 'if (0)'
fault "mode 4 accepts an absent name" \
    'if (mode == MODE_WITHDRAW)' 'if (mode == MODE_WITHDRAW) return ACCEPTED; if (0)'
fault "mode 4 puts 10 before 14" \
    'if (mode == MODE_WITHDRAW)' \
    'if (mode == MODE_WITHDRAW && f.ending != EXHAUSTED && v->count < v->slots)'
fault "mode 4 puts 12 for its data" \
    'return withdraw(image, &old);' \
    'return text.length > v->message_max ? 12 : withdraw(image, &old);'
fault "mode 4 puts 13 for its data" \
    'return withdraw(image, &old);' \
    'return text.length > v->length - v->next ? 13 : withdraw(image, &old);'
fault "mode 4 does not look at the message" \
    'if (!read_message(v, message_in(v, slot), &old))' \
    'if (!read_message(v, message_in(v, slot), &old) && mode != MODE_WITHDRAW)'
fault "mode 4 leaves the message active" \
    'return withdraw(image, &old);' 'return ACCEPTED;'
fault "mode 4 zeroes the message" \
    'return withdraw(image, &old);' \
    'return memset(image + old.offset + v->header_size, 0, old.length), withdraw(image, &old);'
fault "mode 4 drops the offset" \
    'return withdraw(image, &old);' \
    'return write_offset(image, v, slot, 0), withdraw(image, &old);'
fault "mode 4 replaces when it has data" \
    'if (mode == MODE_REPLACE)' \
    'if (mode == MODE_REPLACE || (mode == MODE_WITHDRAW && text.length > 0))'
fault "create writes version 1.0.1" \
    '"BHTFv\1\0\2"' '"BHTFv\1\0\1"'
fault "a note leaves the version" \
    'image[AT_LAST_VERSION] = NOTES_VERSION;' ';'
fault "only a note in mode 1 sets the version" \
    'if (text.length == 0 && (mode == MODE_NEW || mode == MODE_REPLACE))' \
    'if (text.length == 0 && mode == MODE_NEW)'
fault "nothing appended sets the version" \
    'if (text.length == 0 && (mode == MODE_NEW || mode == MODE_REPLACE))' \
    'if (text.length == 0 && mode != MODE_WITHDRAW)'
fault "a withdrawal sets the version" \
    'if (text.length == 0 && (mode == MODE_NEW || mode == MODE_REPLACE))' \
    'if (text.length == 0 && mode != MODE_APPEND)'
fault "any text sets the version" \
    'if (text.length == 0 && (mode == MODE_NEW || mode == MODE_REPLACE))' \
    'if (mode == MODE_NEW || mode == MODE_REPLACE)'
fault "a refused note sets the version" \
    'answer = add_absent(image, &v, f, key, text, mode);' \
    'answer = add_absent(image, &v, f, key, text, mode), answer == 13 ? mark_note(image, text, mode) : (void)0;'
fault "delete sets the version" \
    'put32(image + AT_COUNT, v.count - 1);' \
    'put32(image + AT_COUNT, v.count - 1); image[AT_LAST_VERSION] = NOTES_VERSION;'
misbook "the book: U without the header of a note" \
    'b->used += b->header + (uint64_t)e->length;' \
    'b->used += e->length == 0 ? 0 : b->header + (uint64_t)e->length;'
misbook "the book: a note takes no space where there is no offset" \
    'if (m == 0 ? e->placed : m <= e->held) {' 'if (m <= e->held) {'
misbook "the book: a note in place keeps held" \
    'e->held = (uint32_t)m;' 'if (m > 0) e->held = (uint32_t)m;'
misbook "the book: mode 4 forgets held" \
    'e->noted = 0;' 'e->noted = 0, e->held = 0;'
misbook "the book: mode 4 forgets the offset" \
    'e->noted = 0;' 'e->noted = 0, e->placed = 0;'
misbook "the book: mode 4 leaves an empty text" \
    'e->noted = 0;' ''
misbook "the book: 14 of mode 4 after 10" \
    'if (e == NULL && mode == 4)' \
    'if (e == NULL && mode == 4 && b->count < b->slots)'
misbook "the book: nothing appended is a note" \
    'if (m == 0 && mode == 3) {' 'if (0) {'
misbook "the book read off: an empty message is none" \
    "if (at[0] == 'a')" "if (at[0] == 'a' && e->held > 0)"

# Compaction.
fault "15 not asked" \
    'uint32_t answer = ask_sound(image, image_len);' \
    'uint32_t answer = open_image(&v, image, image_len);'
fault "15 of a slot only" \
    'return verdict == 0 ? ACCEPTED : 15;' 'return verdict != 1 ? ACCEPTED : 15;'
fault "15 writes behind X" \
    'uint32_t answer = ask_sound(image, image_len);' \
    'uint32_t answer = ask_sound(image, image_len); if (answer == 15 && open_image(&v, image, image_len) == ACCEPTED) memset(image + v.next, 0, v.length - v.next);'
fault "a dead message comes back" \
    'if (old.active)' 'if (old.offset != 0)'
fault "an inactive message keeps its offset" \
    'write_offset(image, v, slot, 0);' '(void)image;'
fault "an inactive message keeps its offset where nothing moves" \
    'write_offset(image, v, slot, 0);' \
    'if (v->next - v->data > 40) write_offset(image, v, slot, 0);'
fault "offsets of empty slots are zeroed" \
    'if (is_taken(v, slot))' 'if (1)'
fault "messages are moved in the order of slots" \
    'qsort(s, active, sizeof *s, by_start);' ';'
fault "the last message is not moved" \
    'for (uint32_t i = 0; i < active; i++) {' \
    'for (uint32_t i = 0; i + 1 < active || (i == 0 && active == 1); i++) {'
fault "a message is moved in front of D" \
    'uint32_t to = v->data;' 'uint32_t to = v->data - (active > 0);'
fault "messages stay one byte apart" \
    'to += size;' 'to += size + (to + size < s[i].start);'
fault "the first gap stays" \
    'uint32_t to = v->data;' \
    'uint32_t to = active > 0 ? s[0].start : v->data;'
fault "the text is moved without its last byte" \
    'memmove(image + to, image + s[i].start, size);' \
    'memmove(image + to, image + s[i].start, size - 1);'
fault "the copy begins at the end" \
    'memmove(image + to, image + s[i].start, size);' \
    'for (uint32_t k = size; k > 0; k--) image[to + k - 1] = image[s[i].start + k - 1];'
fault "a slot is not rewritten" \
    'write_offset(image, v, s[i].slot, to);' \
    'if (i != 1) write_offset(image, v, s[i].slot, to);'
fault "an empty note is dropped" \
    'if (old.active)' 'if (old.active && old.length > 0)'
fault "zeros up to the old X only" \
    'memset(image + end, 0, v.length - end);' \
    'memset(image + end, 0, v.next - end);'
fault "no zeros" \
    'memset(image + end, 0, v.length - end);' ''
fault "no zeros where X stays" \
    'memset(image + end, 0, v.length - end);' \
    'if (end != v.next) memset(image + end, 0, v.length - end);'
fault "X stays" \
    'put32(image + AT_NEXT, end);' ''
fault "M stays" \
    'put32(image + AT_LAST_PAGE, last_page(v.data, end));' ''
fault "M is written though X stays" \
    'if (end != v.next) {' 'if (1) {'
fault "compaction sets the version" \
    'memset(image + end, 0, v.length - end);' \
    'memset(image + end, 0, v.length - end); image[AT_LAST_VERSION] = NOTES_VERSION;'
fault "compaction counts points anew" \
    'memset(image + end, 0, v.length - end);' \
    'memset(image + end, 0, v.length - end); if (end == v.data) put32(image + AT_COUNT, 0);'
misbook "the book: compaction keeps held" \
    'e->held = e->noted ? e->length : 0;' ''
misbook "the book: compaction keeps U" \
    'b->used = 0;' ''
misbook "the book: compaction keeps offsets" \
    'e->placed = e->noted;' ''
misbook "the book: U does not count an empty text" \
    'if (e->noted)' 'if (e->length > 0)'
misbook "the book: U counts a header for no text" \
    'if (e->noted)' 'if (1)'

# Version 2.0.0.
fault "version 2.0.0 refused" \
    'if (is_version_2(image)) /* no later one of it */' 'if (0)'
fault "version 2.0.1 taken" \
    'memcmp(image + AT_VERSION, version_2, VERSION_SIZE) == 0;' \
    'image[AT_VERSION] == 2 && image[AT_VERSION + 1] == 0 && image[AT_LAST_VERSION] < 2;'
fault "version 2.0.2 taken" \
    'memcmp(image + AT_VERSION, version_2, VERSION_SIZE) == 0;' \
    'image[AT_VERSION] == 2 && image[AT_VERSION + 1] == 0 && image[AT_LAST_VERSION] <= 2;'
fault "version 2.1.0 taken" \
    'memcmp(image + AT_VERSION, version_2, VERSION_SIZE) == 0;' \
    'image[AT_VERSION] == 2 && image[AT_VERSION + 1] < 2 && image[AT_LAST_VERSION] == 0;'
fault "version 3.0.0 taken" \
    'memcmp(image + AT_VERSION, version_2, VERSION_SIZE) == 0;' \
    '(image[AT_VERSION] == 2 || image[AT_VERSION] == 3) && image[AT_VERSION + 1] == 0 && image[AT_LAST_VERSION] == 0;'
fault "version 2.0.0 with other letters taken" \
    'if (memcmp(image, "BHTFv", AT_VERSION) != 0)' \
    'if (memcmp(image, "BHTFv", AT_VERSION - (image[AT_VERSION] == 2)) != 0)'
fault "headers of 5 bytes in version 1" \
    'v->header_size = is_2 ? LONG_MESSAGE_HEADER : MESSAGE_HEADER;' \
    'v->header_size = LONG_MESSAGE_HEADER;'
fault "headers of 4 bytes in version 2.0.0" \
    'v->header_size = is_2 ? LONG_MESSAGE_HEADER : MESSAGE_HEADER;' \
    'v->header_size = MESSAGE_HEADER;'
fault "headers of 5 bytes by the last version byte" \
    'v->header_size = is_2 ? LONG_MESSAGE_HEADER : MESSAGE_HEADER;' \
    'v->header_size = v->image[AT_LAST_VERSION] == 0 ? LONG_MESSAGE_HEADER : MESSAGE_HEADER;'
fault "12 at 16 MiB in version 2.0.0" \
    'v->message_max = is_2 ? LONG_MESSAGE_MAX : MESSAGE_MAX;' \
    'v->message_max = MESSAGE_MAX;'
fault "12 at 4 GiB in version 2.0.0" \
    'v->message_max = is_2 ? LONG_MESSAGE_MAX : MESSAGE_MAX;' \
    'v->message_max = is_2 ? 0xFFFFFFFFu : MESSAGE_MAX;'
fault "12 one byte early in version 2.0.0" \
    'v->message_max = is_2 ? LONG_MESSAGE_MAX : MESSAGE_MAX;' \
    'v->message_max = is_2 ? LONG_MESSAGE_MAX - 1 : MESSAGE_MAX;'
fault "12 one byte late in version 2.0.0" \
    'v->message_max = is_2 ? LONG_MESSAGE_MAX : MESSAGE_MAX;' \
    'v->message_max = is_2 ? LONG_MESSAGE_MAX + 1 : MESSAGE_MAX;'
fault "the length's top byte not read" \
    'for (uint32_t i = 1; i < header_size; i++)' \
    'for (uint32_t i = header_size - 3; i < header_size; i++)'
fault "the length's top bit not read" \
    'length = length << 8 | header[i];' \
    'length = length << 8 | (header_size == 5 && i == 1 ? header[i] & 127 : header[i]);'
fault "the length read one byte early" \
    'for (uint32_t i = 1; i < header_size; i++)' \
    'for (uint32_t i = 1; i < MESSAGE_HEADER; i++)'
fault "the length's top byte not written" \
    'for (uint32_t i = header_size - 1; i > 0; i--, length >>= 8)' \
    'for (uint32_t i = header_size - 1; i > header_size - 4; i--, length >>= 8)'
fault "the length written one byte early" \
    'for (uint32_t i = header_size - 1; i > 0; i--, length >>= 8)' \
    'for (uint32_t i = 3; i > 0; i--, length >>= 8)'
fault "an empty note makes 2.0.0 another version" \
    'if (is_version_2(image)) /* never changes */' 'if (0)'
misbook "the book read off: the header's size of version 1" \
    'b->header = image[5] == 2 ? 5 : 4;' 'b->header = 4;'
misbook "the book read off: the longest text of version 1" \
    'b->longest = image[5] == 2 ? LONGEST_OF_2 : LONGEST;' \
    'b->longest = LONGEST;'

# The converter.
fault "the source's 1 not asked" \
    'if (!length_fits(source_len) || !length_fits(target_len))' \
    'source_len &= ~(size_t)4095; if (!length_fits(target_len))'
fault "the target's 1 not asked" \
    'if (!length_fits(source_len) || !length_fits(target_len))' \
    'if (!length_fits(source_len))'
fault "the target's length cut to 32 bits" \
    'if (!length_fits(source_len) || !length_fits(target_len))' \
    'if (!length_fits(source_len) || !length_fits((uint32_t)target_len))'
fault "the target's 1 after the source's numbers" \
    'if (!length_fits(source_len) || !length_fits(target_len))' \
    'if (!length_fits(source_len) || (!length_fits(target_len) && ask_sound(source, source_len) == ACCEPTED))'
fault "15 not asked before a conversion" \
    'answer = ask_sound(source, source_len);' \
    'answer = open_image(&v, source, source_len);'
fault "15 after 13" \
    'answer = ask_sound(source, source_len);' \
    'answer = ask_sound(source, source_len); if (answer == 15 && open_image(&v, source, source_len) == ACCEPTED && v.data > target_len) return 13;'
fault "20 not asked" \
    'if (narrows && !texts_fit(v, s, count))' 'if (0)'
fault "20 one byte early" \
    'if (text_length(v, &s[i]) > MESSAGE_MAX)' \
    'if (text_length(v, &s[i]) >= MESSAGE_MAX)'
fault "20 one byte late" \
    'if (text_length(v, &s[i]) > MESSAGE_MAX)' \
    'if (text_length(v, &s[i]) > MESSAGE_MAX + 1)'
fault "20 asks inactive messages" \
    'if (narrows && !texts_fit(v, s, count))' \
    'uint32_t long_one = 0; for (uint32_t i = 0; i < v->slots; i++) { struct message m = { 0, 0, 0 }; if (is_taken(v, i) && read_message(v, message_in(v, i), &m)) long_one |= m.length > MESSAGE_MAX; } if (narrows && long_one)'
fault "20 after 13" \
    'if (narrows && !texts_fit(v, s, count))' \
    'if (narrows && !texts_fit(v, s, count) && target_fits(v, s, count, header_size, target_len))'
fault "13 not asked of a conversion" \
    'return needed <= target_len;' 'return v->data <= target_len;'
fault "13 by the room above the table" \
    'return needed <= target_len;' \
    'return needed - v->data <= (target_len > v->data ? target_len - v->data : 0);'
fault "13 one byte early in a target" \
    'return needed <= target_len;' 'return needed < target_len;'
fault "13 one byte late in a target" \
    'return needed <= target_len;' 'return needed <= target_len + 1;'
fault "13 without the headers" \
    'needed += header_size + (uint64_t)text_length(v, &s[i]);' \
    'needed += text_length(v, &s[i]);'
fault "13 with the source's headers" \
    'needed += header_size + (uint64_t)text_length(v, &s[i]);' \
    'needed += v->header_size + (uint64_t)text_length(v, &s[i]);'
fault "13 with the source's length" \
    'return needed <= target_len;' 'return needed <= v->length;'
fault "13 with the source's X" \
    'return needed <= target_len;' 'return v->next <= target_len && needed <= target_len;'
fault "a refused conversion clears the target" \
    'if (!target_fits(v, s, count, header_size, target_len))' \
    'if (!target_fits(v, s, count, header_size, target_len) && memset(target, 0, target_len))'
fault "the target keeps its own bytes" \
    'memset(target, 0, target_len);' 'memset(target, 0, v->data);'
fault "the target keeps its own bytes before the table" \
    'memset(target, 0, target_len);' \
    'memset(target + TABLE, 0, target_len - TABLE);'
fault "the version is kept" \
    'memcpy(target + AT_VERSION, narrows ? version_1 : version_2, VERSION_SIZE);' ''
fault "the last version byte is kept" \
    'memcpy(target + AT_VERSION, narrows ? version_1 : version_2, VERSION_SIZE);' \
    'target[AT_VERSION] = narrows ? 1 : 2;'
fault "narrowed to 1.0.0" \
    'memcpy(target + AT_VERSION, narrows ? version_1 : version_2, VERSION_SIZE);' \
    'memcpy(target + AT_VERSION, narrows ? (const uint8_t *)"\1\0\0" : version_2, VERSION_SIZE);'
fault "narrowed to 1.0.1" \
    'memcpy(target + AT_VERSION, narrows ? version_1 : version_2, VERSION_SIZE);' \
    'memcpy(target + AT_VERSION, narrows ? (const uint8_t *)"\1\0\1" : version_2, VERSION_SIZE);'
fault "the serial is lost" \
    'memcpy(target, v->image, AT_NEXT);' \
    'memcpy(target, v->image, AT_NEXT); put32(target + 8, 0);'
fault "C becomes the number of messages" \
    'end = carry_messages(target, v, s, count, header_size);' \
    'end = carry_messages(target, v, s, count, header_size); put32(target + AT_COUNT, count);'
fault "the source's X is kept" \
    'put32(target + AT_NEXT, end);' 'put32(target + AT_NEXT, v->next);'
fault "the source's M is kept" \
    'put32(target + AT_LAST_PAGE, last_page(v->data, end));' \
    'memcpy(target + AT_LAST_PAGE, v->image + AT_LAST_PAGE, 4);'
fault "bytes behind the header are carried" \
    'memcpy(target, v->image, AT_NEXT);' 'memcpy(target, v->image, SCRAMBLE);'
fault "bytes behind the scramble are carried" \
    'memcpy(target + SCRAMBLE, v->image + SCRAMBLE, 4 * numbers);' \
    'memcpy(target + SCRAMBLE, v->image + SCRAMBLE, TABLE - SCRAMBLE);'
fault "the scramble is carried one number short" \
    'memcpy(target + SCRAMBLE, v->image + SCRAMBLE, 4 * numbers);' \
    'memcpy(target + SCRAMBLE, v->image + SCRAMBLE, 4 * (numbers - 1));'
fault "the scramble is carried as create has it" \
    'size_t numbers = v->last - v->first + 1;' \
    'size_t numbers = v->last - v->first + 1; if (numbers > 95) numbers = 95;'
fault "bytes behind the table are carried" \
    'memcpy(target + SCRAMBLE, v->image + SCRAMBLE, 4 * numbers);' \
    'memcpy(target + SCRAMBLE, v->image + SCRAMBLE, 4 * numbers); memcpy(target + slot_at(v, v->slots), v->image + slot_at(v, v->slots), v->data - slot_at(v, v->slots));'
fault "offsets of empty slots are carried" \
    'if (is_taken(v, i))' \
    'if (!is_taken(v, i)) write_offset(target, v, i, message_in(v, i)); else'
fault "offsets of inactive messages are carried" \
    'write_slot(target, v, i, key_in(v, i), 0);' \
    'write_slot(target, v, i, key_in(v, i), message_in(v, i));'
fault "the last slot is not carried" \
    'if (is_taken(v, i))' 'if (is_taken(v, i) && (i + 1 < v->slots || i == 0))'
fault "points without a message are not carried" \
    'if (is_taken(v, i))' 'if (is_taken(v, i) && message_in(v, i) != 0)'
fault "headers of the source's size" \
    'write_active(target + at, header_size, length);' \
    'write_active(target + at, v->header_size, length);'
fault "the text is carried from the header's old end" \
    'const uint8_t *text = v->image + s[i].start + v->header_size;' \
    'const uint8_t *text = v->image + s[i].start + header_size;'
fault "the text is carried without its last byte" \
    'memcpy(target + at + header_size, text, length);' \
    'memcpy(target + at + header_size, text, length - (length > 0));'
fault "an offset leads to the text" \
    'write_offset(target, v, s[i].slot, at);' \
    'write_offset(target, v, s[i].slot, at + header_size);'
fault "an offset leads behind the message" \
    'write_offset(target, v, s[i].slot, at);' \
    'write_offset(target, v, s[i].slot, at + header_size + length);'
fault "empty notes are not carried" \
    'const uint8_t *text = v->image + s[i].start + v->header_size;' \
    'const uint8_t *text = v->image + s[i].start + v->header_size; if (text_length(v, &s[i]) == 0) continue;'
fault "the last message is not carried" \
    'end = carry_messages(target, v, s, count, header_size);' \
    'end = carry_messages(target, v, s, count - (count > 1), header_size);'
fault "messages are carried one byte apart" \
    'at += header_size + length;' \
    'at += header_size + length + (i == 0 && count > 1);'
fault "inactive messages are carried" \
    'uint32_t count = collect(v, s), end;' \
    'uint32_t count = 0, end; for (uint32_t i = 0; i < v->slots; i++) { struct message m; if (is_taken(v, i) && read_message(v, message_in(v, i), &m) && m.offset != 0) note(&s[count++], v, i, &m); } if (count > 0) qsort(s, count, sizeof *s, by_start);'
fault "messages are carried in the order of slots" \
    'uint32_t count = collect(v, s), end;' \
    'uint32_t count = 0, end; for (uint32_t i = 0; i < v->slots; i++) { struct message m; if (is_taken(v, i) && read_message(v, message_in(v, i), &m) && m.active) note(&s[count++], v, i, &m); }'
fault "the source becomes inactive" \
    'write_offset(target, v, s[i].slot, at);' \
    'write_offset(target, v, s[i].slot, at); ((uint8_t *)v->image)[s[i].start] = 100;'
misbook "the book: a conversion keeps the header's size" \
    'b->header = header;' ''
misbook "the book: a conversion keeps the longest text" \
    'b->longest = longest;' ''
misbook "the book: a conversion keeps R" \
    'b->room = target_len - data_offset(b);' ''
misbook "the book: a conversion is no compaction" \
    'book_compact(b);' ''
misbook "the book: a conversion keeps U" \
    'book_compact(b);' 'uint64_t used = b->used; book_compact(b); b->used = used;'
misbook "the book: 1 of the target not put" \
    'if (target_len % 4096 != 0 || target_len < 4096 ||' \
    'if (target_len < 4096 ||'
misbook "the book: 20 not put" \
    'if (e->noted && e->length > longest)' 'if (0)'
misbook "the book: 20 one byte early" \
    'if (e->noted && e->length > longest)' 'if (e->noted && e->length >= longest)'
misbook "the book: 13 of the target not put" \
    'return end > target_len ? 13 : 0;' 'return 0;'
misbook "the book: 13 of the target by the old headers" \
    'end += e->noted ? header + (uint64_t)e->length : 0;' \
    'end += e->noted ? b->header + (uint64_t)e->length : 0;'
misbook "the book: 13 of the target by what is held" \
    'end += e->noted ? header + (uint64_t)e->length : 0;' \
    'end += e->placed ? header + (uint64_t)e->held : 0;'
misbook "the book: a refused conversion changes the header's size" \
    'answer = ask_target(b, target_len, header, longest);' \
    'answer = ask_target(b, target_len, header, longest); b->header = header;'
misbook "the book: a refused conversion changes R" \
    'answer = ask_target(b, target_len, header, longest);' \
    'answer = ask_target(b, target_len, header, longest); if (answer == 13) b->room += 4096;'

# Two points on one message.
fault "check does not ask whether messages share bytes" \
    'return first_meeting(s, noted, slot);' \
    'return first_meeting(s, noted, slot), slot;'
fault "a stretch begins behind its header" \
    's->start = m->offset;' 's->start = m->offset + v->header_size;'
fault "a stretch is as long as its text" \
    's->end = m->offset + v->header_size + m->length;' \
    's->end = m->offset + m->length;'
fault "messages that touch share bytes" \
    'if (s[i].start < end)' 'if (s[i].start <= end)'
fault "one byte may be shared" \
    'if (s[i].start < end)' 'if (s[i].start + 1 < end)'
fault "only equal offsets share bytes" \
    'if (s[i].start < end)' 'if (i > 0 && s[i].start == s[i - 1].start)'
fault "only neighbours among the offsets are compared" \
    'if (s[i].slot >= slot)' 'if (s[i].slot >= slot && (end = 0, 1))'
fault "a stretch is compared with the slot before it only" \
    'return first_meeting(s, noted, slot);' \
    'for (uint32_t i = 1; i < noted; i++) if (s[i].start < s[i - 1].end && s[i - 1].start < s[i].end) return s[i].slot; return slot;'
fault "only active messages share bytes" \
    'if (m.offset != 0)' 'if (m.active)'
fault "the lower slot of two is named" \
    'return apart;' \
    'for (uint32_t i = 0, j = 0;; j++) { while (s[i].slot != apart) i++; if (s[j].slot < apart && s[j].start < s[i].end && s[i].start < s[j].end) return s[j].slot; }'
fault "shared bytes are asked for only where every slot is good" \
    'return first_meeting(s, noted, slot);' \
    'return slot < v->slots ? slot : first_meeting(s, noted, slot);'
fault "shared bytes are asked for only where C is right" \
    'return first_meeting(s, noted, slot);' \
    'return *taken == v->count ? first_meeting(s, noted, slot) : slot;'
fault "shared bytes behind 2 MiB are passed over" \
    'if (m.offset != 0)' \
    'if (m.offset != 0 && m.offset < v->data + 2097152)'

# Readings by column.
fault "a width of 0 is taken" \
    'return width >= 1 && width <= WIDTH_MAX && size % width == 0;' \
    'return width <= WIDTH_MAX && (width == 0 || size % width == 0);'
fault "a width of 65 is taken" \
    'width <= WIDTH_MAX && size % width == 0;' \
    'width <= WIDTH_MAX + 1 && size % width == 0;'
fault "a width of 64 is refused" \
    'width <= WIDTH_MAX && size % width == 0;' \
    'width < WIDTH_MAX && size % width == 0;'
fault "a width of 257 is 1" \
    'if (!columns_fit(width, records_len))' \
    'width = (uint8_t)width; if (!columns_fit(width, records_len))'
fault "record bytes that are no multiple are cut" \
    'if (!columns_fit(width, records_len))' \
    'if (width - 1 < WIDTH_MAX) records_len -= records_len % width; if (!columns_fit(width, records_len))'
fault "no record is refused" \
    'if (!columns_fit(width, records_len))' \
    'if (records_len == 0 || !columns_fit(width, records_len))'
fault "the last record is dropped" \
    'if (!columns_fit(width, records_len))' \
    'if (columns_fit(width, records_len) && records_len > 0) records_len -= width; if (!columns_fit(width, records_len))'
fault "the records' length cut to 32 bits" \
    'if (!columns_fit(width, records_len))' \
    'records_len = (uint32_t)records_len; if (!columns_fit(width, records_len))'
fault "rows are stored for columns" \
    'stored[column_place(c, i, count)] = records[i * width + c];' \
    'stored[1 + i * width + c] = records[i * width + c];'
fault "rows are read for columns" \
    'records[i * width + c] = stored[column_place(c, i, count)];' \
    'records[i * width + c] = stored[1 + i * width + c];'
fault "columns stand the other way round, stored and read alike" \
    'return 1 + c * records + i;' 'return 1 + c * records + records - 1 - i;'
fault "records are appended" \
    '1 + records_len, MODE_REPLACE);' '1 + records_len, MODE_APPEND);'
fault "records are stored for a new name only" \
    '1 + records_len, MODE_REPLACE);' '1 + records_len, MODE_NEW);'
fault "no record is an empty note" \
    '1 + records_len, MODE_REPLACE);' \
    'records_len == 0 ? 0 : 1 + records_len, MODE_REPLACE);'
fault "12 looks at the record bytes only" \
    '1 + records_len, MODE_REPLACE);' \
    '1 + records_len - (records_len == MESSAGE_MAX), MODE_REPLACE);'
fault "columns set the version" \
    'free(stored);' \
    'free(stored); if (answer == ACCEPTED) image[AT_LAST_VERSION] = NOTES_VERSION;'
fault "19 before 1 when storing" \
    'uint8_t *stored;' \
    'uint8_t *stored; if (!columns_fit(width, records_len)) return 19;'
fault "19 before 7 when storing" \
    'if (answer == ACCEPTED && !key_fits(&v, key, key_len))' \
    'if (answer == ACCEPTED && !columns_fit(width, records_len)) return 19; if (answer == ACCEPTED && !key_fits(&v, key, key_len))'
fault "19 after 10 when storing" \
    'if (!columns_fit(width, records_len))' \
    'if (search(&v, key).ending != MET && v.count >= v.slots) return 10; if (!columns_fit(width, records_len))'
fault "19 after 11 when storing" \
    'if (!columns_fit(width, records_len))' \
    'struct found f = search(&v, key); struct message m; if (f.ending == MET && !read_message(&v, message_in(&v, f.slot), &m)) return 11; if (!columns_fit(width, records_len))'
fault "no message is read as no record" \
    'width = length == 0 ? 0 : image[offset];' \
    'width = length == 0 ? 1 : image[offset];'
fault "a width above 64 is read" \
    'if (!columns_fit(width, size) || out_len < size)' \
    'if (width == 0 || size % width != 0 || out_len < size)'
fault "columns that are not as long are read" \
    'if (!columns_fit(width, size) || out_len < size)' \
    'if (!columns_fit(width, 0) || out_len < size)'
fault "a slice one byte too short is taken" \
    '|| out_len < size)' '|| out_len + 1 < size)'
fault "a slice that the records fill is refused" \
    '|| out_len < size)' '|| out_len <= size)'
fault "the slice's length cut to 32 bits" \
    '|| out_len < size)' '|| (uint32_t)out_len < size)'
fault "19 before 11 when reading" \
    '*bytes = 0;' '*bytes = 0; if (answer == 11) return 19;'
fault "19 before 14 when reading" \
    '*bytes = 0;' '*bytes = 0; if (answer == 14 && out_len == 0) return 19;'
fault "a refused reading answers bytes" \
    '*bytes = 0;' '*bytes = length == 0 ? 0 : length - 1;'
fault "a refused reading fills what fits" \
    'if (!columns_fit(width, size) || out_len < size)' \
    'if (columns_fit(width, size) && out_len < size && out_len > 0) out[0] = image[offset + 1]; if (!columns_fit(width, size) || out_len < size)'
fault "the bytes behind the records are zeroed" \
    '*bytes = size;' '*bytes = size; memset(out + size, 0, (uint32_t)out_len - size > 9 ? 9 : 0);'
misbook "the book: 19 not put for the width" \
    'return 1 <= width && width <= 64 && size % width == 0;' \
    'return 1 <= width && size % width == 0;'
misbook "the book: 19 not put for the lent slice" \
    '|| size > room)' ')'
misbook "the book: rows for columns" \
    'records[k % count * width + k / count];' 'records[k];'
misbook "the book: the width is not among the stored bytes" \
    'b->scratch[0] = (uint8_t)width;' 'b->scratch[0] = 0;'

# Names in ranges.
fault "the lowest byte is excluded" \
    'if (key[i] < lowest[i] || key[i] > highest[i])' \
    'if (key[i] <= lowest[i] || key[i] > highest[i])'
fault "the highest byte is excluded" \
    'if (key[i] < lowest[i] || key[i] > highest[i])' \
    'if (key[i] < lowest[i] || key[i] >= highest[i])'
fault "bytes are compared with a sign" \
    'if (key[i] < lowest[i] || key[i] > highest[i])' \
    'if ((int8_t)key[i] < (int8_t)lowest[i] || (int8_t)key[i] > (int8_t)highest[i])'
fault "the last key byte may be any" \
    'if (key[i] < lowest[i] || key[i] > highest[i])' \
    'if ((key[i] < lowest[i] || key[i] > highest[i]) && i + 1 < v->key_size)'
fault "empty slots are listed" \
    'if (!is_taken(&v, slot) || !in_ranges(&v, slot, lowest, highest))' \
    'if (!in_ranges(&v, slot, lowest, highest))'
fault "the last slot is missed" \
    'for (uint32_t slot = 0; slot < v.slots; slot++) {' \
    'for (uint32_t slot = 0; slot + 1 < v.slots; slot++) {'
fault "slots are listed falling" \
    'for (uint32_t slot = 0; slot < v.slots; slot++) {' \
    'for (uint32_t slot = v.slots; slot-- > 0;) {'
fault "no more slots than C are listed" \
    'for (uint32_t slot = 0; slot < v.slots; slot++) {' \
    'for (uint32_t slot = 0; slot < v.slots && *found < v.count; slot++) {'
fault "slot numbers stand the least significant byte first" \
    'put32(list + SLOT_NUMBER * (size_t)*found, slot);' \
    'put32(list + SLOT_NUMBER * (size_t)*found, __builtin_bswap32(slot));'
fault "the list is written behind the answer" \
    'if (!is_taken(&v, slot) || !in_ranges(&v, slot, lowest, highest))' \
    'put32(list + SLOT_NUMBER * (size_t)*found, slot); if (!is_taken(&v, slot) || !in_ranges(&v, slot, lowest, highest))'
fault "16 before 1" \
    '*found = 0;' '*found = 0; if (list_len == 0) return 16;'
fault "16 before 22" \
    'if (!ranges_fit(&v, lowest, lowest_len, highest, highest_len))' \
    'if (list_len < SLOT_NUMBER * (size_t)v.slots) return 16; if (!ranges_fit(&v, lowest, lowest_len, highest, highest_len))'
fault "a list one byte too short is taken" \
    'if (list_len < SLOT_NUMBER * (size_t)v.slots)' \
    'if (list_len + 1 < SLOT_NUMBER * (size_t)v.slots)'
fault "a list that N slot numbers fill is refused" \
    'if (list_len < SLOT_NUMBER * (size_t)v.slots)' \
    'if (list_len <= SLOT_NUMBER * (size_t)v.slots)'
fault "a list for C slot numbers is taken" \
    'if (list_len < SLOT_NUMBER * (size_t)v.slots)' \
    'if (list_len < SLOT_NUMBER * (size_t)v.count)'
fault "the length of select's list cut to 32 bits" \
    'if (list_len < SLOT_NUMBER * (size_t)v.slots)' \
    'if ((uint32_t)list_len < SLOT_NUMBER * (size_t)v.slots)'
fault "equal bounds are refused" \
    'if (lowest[i] > highest[i])' 'if (lowest[i] >= highest[i])'
fault "a lowest byte above its highest is taken" \
    'if (lowest[i] > highest[i])' 'if (0)'
fault "more ranges than K are taken" \
    'if (lowest_len != v->key_size || highest_len != v->key_size)' \
    'if (lowest_len < v->key_size || highest_len < v->key_size)'
fault "the highest bytes are not counted" \
    'if (lowest_len != v->key_size || highest_len != v->key_size)' \
    'if (lowest_len != v->key_size || highest_len == 0)'
fault "the number of ranges cut to 32 bits" \
    'highest_len != v->key_size)' '(uint32_t)highest_len != v->key_size)'
fault "22 answers slots" \
    'if (!ranges_fit(&v, lowest, lowest_len, highest, highest_len))' \
    'if (!ranges_fit(&v, lowest, lowest_len, highest, highest_len) && (*found = v.count, 1))'
misbook "the book: 22 not put" \
    '!lies_in(lowest, lowest, highest, b->key_size))' '0)'
misbook "the book: 16 of select not put" \
    'if (list_len < 4 * (uint64_t)slots)' 'if (0)'
misbook "the book: the highest byte is excluded" \
    'highest[size] < name[size])' 'highest[size] <= name[size])'

# Epochs.
fault "the epoch stands the least significant byte first" \
    'return get32(key_in(v, slot) + v->key_size - EPOCH_SIZE);' \
    'return __builtin_bswap32(get32(key_in(v, slot) + v->key_size - EPOCH_SIZE));'
fault "the epoch t is too late" \
    'epoch_in(v, slot) <= epoch;' 'epoch_in(v, slot) < epoch;'
fault "only the epoch t is looked for" \
    'epoch_in(v, slot) <= epoch;' 'epoch_in(v, slot) == epoch;'
fault "epochs are compared with a sign" \
    'epoch_in(v, slot) <= epoch;' \
    '(int32_t)epoch_in(v, slot) <= (int32_t)epoch;'
fault "the smallest epoch is chosen" \
    'epoch_in(v, i) > epoch_in(v, chosen))' \
    'epoch_in(v, i) < epoch_in(v, chosen))'
fault "the highest slot of two is chosen" \
    'epoch_in(v, i) > epoch_in(v, chosen))' \
    'epoch_in(v, i) >= epoch_in(v, chosen))'
fault "the lowest slot of that name is chosen" \
    'epoch_in(v, i) > epoch_in(v, chosen))' '0)'
fault "epoch 0 is none" \
    'if (chosen == v->slots || epoch_in(v, i) > epoch_in(v, chosen))' \
    'if (epoch_in(v, i) > (chosen == v->slots ? 0 : epoch_in(v, chosen)))'
fault "the name is compared over K bytes" \
    'memcmp(key_in(v, slot), name, size) == 0' \
    'memcmp(key_in(v, slot), name, v->key_size) == 0'
fault "the name's last byte is not compared" \
    'memcmp(key_in(v, slot), name, size) == 0' \
    'memcmp(key_in(v, slot), name, size - 1) == 0'
fault "an empty slot is an entry of epoch 0" \
    'return is_taken(v, slot) && memcmp' 'return memcmp'
fault "the last slot has no entry" \
    'if (!is_candidate(v, i, name, epoch))' \
    'if (i + 1 == v->slots || !is_candidate(v, i, name, epoch))'
fault "an entry without a message is passed over" \
    'if (!is_candidate(v, i, name, epoch))' \
    'if (message_in(v, i) == 0 || !is_candidate(v, i, name, epoch))'
fault "an entry whose message is bad is passed over" \
    'if (!is_candidate(v, i, name, epoch))' \
    'struct message m; if (!read_message(v, message_in(v, i), &m) || !is_candidate(v, i, name, epoch))'
fault "a bad message of another epoch is 11" \
    'if (!is_candidate(v, i, name, epoch))' \
    'struct message m; if (is_candidate(v, i, name, epoch) && !read_message(v, message_in(v, i), &m)) return i; if (!is_candidate(v, i, name, epoch))'
fault "11 not put for the chosen entry" \
    'if (!read_message(&v, message_in(&v, chosen), &m))' \
    'if (!read_message(&v, message_in(&v, chosen), &m) && (m.active = 0))'
fault "11 shows the epoch" \
    'if (!read_message(&v, message_in(&v, chosen), &m))' \
    '*shown = epoch_in(&v, chosen); if (!read_message(&v, message_in(&v, chosen), &m))'
fault "14 shows t" \
    'if (chosen == v.slots)' 'if (chosen == v.slots && (*shown = epoch, 1))'
fault "t is shown" \
    '*shown = epoch_in(&v, chosen);' '*shown = epoch;'
fault "an entry's inactive message is shown" \
    '*shown = epoch_in(&v, chosen);' \
    '*shown = epoch_in(&v, chosen); m.active = m.offset != 0;'
fault "an entry's empty message is shown as none" \
    '*shown = epoch_in(&v, chosen);' \
    '*shown = epoch_in(&v, chosen); m.active = m.active && m.length > 0;'
fault "K = 4 is taken" \
    'if (v->key_size <= EPOCH_SIZE)' 'if (v->key_size < EPOCH_SIZE)'
fault "K = 5 is refused" \
    'if (v->key_size <= EPOCH_SIZE)' 'if (v->key_size <= EPOCH_SIZE + 1)'
fault "7 before 23" \
    'if (v->key_size <= EPOCH_SIZE)' \
    'if (v->key_size <= EPOCH_SIZE && name_len > 0) return 7; if (v->key_size <= EPOCH_SIZE)'
fault "23 before 6" \
    '*shown = 0;' \
    '*shown = *offset = *length = 0; if (answer == 6 && v.key_size <= EPOCH_SIZE) return 23;'
fault "a longer name is taken" \
    'return name_len == v->key_size - EPOCH_SIZE' \
    'return name_len >= v->key_size - EPOCH_SIZE'
fault "a name of zeros is refused" \
    'answer = ask_name(&v, name_len);' \
    'answer = ask_name(&v, name_len); if (answer == ACCEPTED && all_zero(name, v.key_size - EPOCH_SIZE)) answer = 7;'
fault "the name's length cut to 32 bits" \
    'return name_len == v->key_size - EPOCH_SIZE' \
    'return (uint32_t)name_len == v->key_size - EPOCH_SIZE'
misbook "the book: the epoch t is too late" \
    '|| its > epoch)' '|| its >= epoch)'
misbook "the book: the smallest epoch is chosen" \
    'if (*entry != NULL && its < *shown)' 'if (*entry != NULL && its > *shown)'
misbook "the book: 23 not put" \
    'if (b->key_size < 5)' 'if (b->key_size < 4)'

# The list of what changed.
fault "runs with a byte between them are one pair" \
    'to = write_pair(to, at, end - at);' \
    'if (length - end > 1 && old[end + 1] != new[end + 1]) end = run_end(old, new, end + 1, length); to = write_pair(to, at, end - at);'
fault "a run cut short" \
    'to = write_pair(to, at, end - at);' \
    'to = write_pair(to, at, end - at - (end - at > 4));'
fault "a run is two pairs where a page begins" \
    'to = write_pair(to, at, end - at);' \
    'if (end / PAGE > at / PAGE) end = (at / PAGE + 1) * PAGE; to = write_pair(to, at, end - at);'
fault "a run of more than 3,000 bytes is two pairs" \
    'while (at < length && old[at] != new[at])' \
    'for (size_t most = at + 3000; at < length && at < most && old[at] != new[at];)'
# so long a run is rare: with this seed it comes early
SEED=8 fault "a run of more than 65,536 bytes is two pairs" \
    'while (at < length && old[at] != new[at])' \
    'for (size_t most = at + 65536; at < length && at < most && old[at] != new[at];)'
fault "a byte that kept its value is listed, behind a run" \
    'to = write_pair(to, at, end - at);' \
    'to = write_pair(to, at, end - at + (end < length));'
fault "a byte that kept its value is listed, before a run" \
    'to = write_pair(to, at, end - at);' \
    'to = write_pair(to, at - (at % 4 == 3), end - at + (at % 4 == 3));'
fault "pairs are offset and end" \
    'to = write_pair(to, at, end - at);' 'to = write_pair(to, at, end);'
fault "the pairs stand the other way round" \
    'to = write_pair(to, at, end - at);' \
    'write_pair(to + PAIR * (count_runs(old, new, length) - 2 * count_runs(old, new, at) - 1), at, end - at); to += PAIR;'
fault "the list is written behind the pairs" \
    'write_runs(list, old, new, length);' \
    'write_runs(list, old, new, length); if (list_len / PAIR > runs) write_pair(list + PAIR * runs, 0, 0);'
fault "what remains of a list is zeroed" \
    'write_runs(list, old, new, length);' \
    'write_runs(list, old, new, length); memset(list + PAIR * runs, 0, list_len % PAIR);'
fault "the overflow is found after pairs were written" \
    'write_pair(list, 0, length);' \
    'if (list_len >= 2 * PAIR) write_pair(list + PAIR, 0, 1); write_pair(list, 0, length);'
fault "the overflow answers no pair" \
    'write_pair(list, 0, length);' 'return write_pair(list, 0, length), 0;'
fault "the overflow leaves the pairs that fit" \
    'write_pair(list, 0, length);' \
    'uint8_t *all = malloc(PAIR * runs); write_runs(all, old, new, length); memcpy(list, all, list_len / PAIR * PAIR); free(all); return (uint32_t)(list_len / PAIR);'
fault "a list that the pairs fill is too short" \
    'if (runs > list_len / PAIR) {' 'if (runs >= list_len / PAIR && runs > 1) {'
fault "a list is as long as its last pair begins" \
    'if (runs > list_len / PAIR) {' 'if (runs > (list_len + PAIR - 1) / PAIR) {'
fault "no pair where nothing changed is one of no bytes" \
    'write_runs(list, old, new, length);' \
    'write_runs(list, old, new, length); if (runs == 0) return write_pair(list, 0, 0), 1;'
fault "the next run is looked for from 0 on" \
    'size_t start = from < shorter ? from : shorter;' 'size_t start = 0;'
fault "the next run is looked for behind the place" \
    'size_t start = from < shorter ? from : shorter;' 'size_t start = from < shorter ? from + 1 : shorter;'
fault "the next run goes up to the end of the longer" \
    'size_t shorter = before_len < after_len ? before_len : after_len;' \
    'size_t shorter = before_len < after_len ? after_len : before_len;'
fault "the next run is as long as its first byte" \
    '*size = run_end(before, after, first, shorter) - first;' '*size = first < shorter;'
fault "the next run's last byte is missed at the end" \
    '*size = run_end(before, after, first, shorter) - first;' \
    '*size = run_end(before, after, first, shorter) - first; if (*size > 1 && first + *size == shorter) --*size;'
fault "where no run is left, the place that was asked for is told" \
    '    return first;' '    return *size > 0 ? first : from;'
fault "16 after 1" \
    'if (list_len < PAIR || work_len < image_len)' \
    'if (!length_fits(image_len)) return 1; if (list_len < PAIR || work_len < image_len)'
fault "16 after 6" \
    'if (list_len < PAIR || work_len < image_len)' \
    'struct view v; uint32_t answer = open_image(&v, image, image_len); if (answer != ACCEPTED) return answer; if (list_len < PAIR || work_len < image_len)'
fault "a list of 7 bytes is taken" \
    'if (list_len < PAIR ||' 'if (list_len < PAIR - 1 ||'
fault "a list of 8 bytes is refused" \
    'if (list_len < PAIR ||' 'if (list_len <= PAIR ||'
fault "a working slice of L - 1 bytes is taken" \
    '|| work_len < image_len)' '|| work_len + 1 < image_len)'
fault "a working slice of L bytes is refused" \
    '|| work_len < image_len)' '|| work_len <= image_len)'
fault "the list's length cut to 32 bits" \
    'if (list_len < PAIR ||' 'if ((uint32_t)list_len < PAIR ||'
fault "the working slice's length cut to 32 bits" \
    '|| work_len < image_len)' '|| (uint32_t)work_len < image_len)'
fault "a refused call answers a pair" \
    '*pairs = 0;' '*pairs = 1;'
fault "the working slice is taken to hold what it held" \
    'copy(work, image, image_len);' 'copy(work, image, image_len / 2);'
fault "a byte behind the working slice is written" \
    'copy(work, image, image_len);' \
    'copy(work, image, image_len); if (work_len > image_len) work[work_len] = 0;'
misbook "the book: 16 not put for the list" \
    'return work_len < image_len || list_len < 8 ? 16 : 0;' \
    'return work_len < image_len ? 16 : 0;'
misbook "the book: 16 not put for the working slice" \
    'return work_len < image_len || list_len < 8 ? 16 : 0;' \
    'return list_len < 8 ? 16 : 0;'

# The journal, and recovery.
fault "the last stretch is not written" \
    'for (uint32_t i = 0; i < count; i++, pair += PAIR) {' \
    'for (uint32_t i = 0; i + 1 < count; i++, pair += PAIR) {'
fault "a stretch's last byte is not written" \
    'copy(image + get32(pair), from, get32(pair + 4));' \
    'copy(image + get32(pair), from, get32(pair + 4) - (get32(pair + 4) > 3));'
fault "the journal has the old bytes" \
    'copy(to, new + at, end - at);' 'copy(to, old + at, end - at);'
fault "the journal has no bytes" \
    'write_new_bytes(journal + PAIR_COUNT + PAIR * runs, old, new, length);' \
    ''
fault "the count is that of the bytes" \
    'put32(journal, (uint32_t)runs);' \
    'put32(journal, (uint32_t)(content_size(old, new, length) - PAIR_COUNT - PAIR * runs));'
fault "the mark stays" \
    '*mark = 0;' ''
fault "the mark becomes another" \
    '*mark = 0;' '*mark = 0x5A;'
fault "what remains of the journal is zeroed" \
    '*mark = MARK;' \
    'for (uint8_t *at = mark; at > journal + content_size(image, work, image_len); at--) at[-1] = 0; *mark = MARK;'
fault "17 after the first write" \
    'if (journal_len <= content_size(image, work, image_len) ||' \
    'if (journal_len > content_size(image, work, image_len)) write_content(journal, image, work, image_len); if (journal_len <= content_size(image, work, image_len) ||'
fault "17 after the image is written" \
    'if (journal_len <= content_size(image, work, image_len) ||' \
    'if (journal_len <= content_size(image, work, image_len)) return memcpy(image, work, image_len), 17; if (journal_len == 0 ||'
fault "17 before the other questions" \
    'uint8_t *mark;' \
    'uint8_t *mark; if (answer != 16 && journal_len > 0 && journal[journal_len - 1] != 0) return 17;'
fault "17 before 16" \
    'uint8_t *mark;' \
    'uint8_t *mark; if (answer == 16 && journal_len == 0) return 17;'
fault "a journal without room for the mark is taken" \
    'if (journal_len <= content_size(image, work, image_len) ||' \
    'if (journal_len < content_size(image, work, image_len) ||'
fault "a journal that content and mark fill is refused" \
    'if (journal_len <= content_size(image, work, image_len) ||' \
    'if (journal_len <= 1 + content_size(image, work, image_len) ||'
fault "a call that changes nothing needs no journal" \
    'if (journal_len <= content_size(image, work, image_len) ||' \
    'if (count_runs(image, work, image_len) == 0) return ACCEPTED; if (journal_len <= content_size(image, work, image_len) ||'
fault "any mark is taken" \
    'journal[journal_len - 1] != 0)' 'journal[journal_len - 1] == 300)'
fault "any mark but 0xA5 is taken" \
    'journal[journal_len - 1] != 0)' 'journal[journal_len - 1] == MARK)'
fault "the journal's length cut to 32 bits" \
    'if (journal_len <= content_size(image, work, image_len) ||' \
    'if ((uint32_t)journal_len <= content_size(image, work, image_len) ||'
fault "the journaled form puts 16 after 1" \
    'if (work_len < image_len)' \
    'if (!length_fits(image_len)) return 1; if (work_len < image_len)'
fault "the journaled form takes a working slice of L - 1 bytes" \
    'if (work_len < image_len)' 'if (work_len + 1 < image_len)'
fault "recovery ignores the mark" \
    'if (journal[mark] == MARK)' 'if (content_fits(journal, mark, image_len))'
fault "recovery takes any mark but 0" \
    'if (journal[mark] == MARK)' \
    'if (journal[mark] != 0 && content_fits(journal, mark, image_len))'
fault "recovery writes nothing" \
    'if (journal[mark] == MARK)' 'if (0)'
fault "recovery clears other bytes" \
    'journal[mark] = 0;' 'memset(journal + mark / 2, 0, mark - mark / 2 + 1);'
fault "recovery clears the count" \
    'journal[mark] = 0;' \
    'if (journal[mark] == MARK) put32(journal, 0); journal[mark] = 0;'
fault "recovery leaves a mark that is not 0xA5" \
    'journal[mark] = 0;' 'if (journal[mark] == MARK) journal[mark] = 0;'
fault "recovery leaves the mark" \
    'journal[mark] = 0;' 'if (journal[mark] != MARK) journal[mark] = 0;'
fault "recovery's mark by a length cut to 32 bits" \
    'journal[mark] = 0;' 'journal[(uint32_t)journal_len - 1] = 0;'
fault "recovery of an empty journal is accepted" \
    'if (journal_len == 0)' 'if (journal_len == 0) return ACCEPTED; if (0)'
fault "18 clears the mark" \
    'if (journal[mark] == MARK && !content_fits(journal, mark, image_len))' \
    'if (journal[mark] == MARK && !content_fits(journal, mark, image_len) && (journal[mark] = 0, 1))'
fault "recovery puts 1" \
    'if (journal_len == 0)' \
    'if (!length_fits(image_len)) return 1; if (journal_len == 0)'
fault "recovery trusts the count" \
    'if (size > mark)' 'if (size > mark && count > 1000)'
fault "recovery multiplies the count in 32 bits" \
    'size += (uint64_t)count * PAIR;' 'size += count * PAIR;'
fault "recovery trusts the lengths" \
    'return size <= mark;' 'return 1;'
fault "content may reach the mark" \
    'return size <= mark;' 'return size <= mark + 1;'
fault "content may not end at the mark" \
    'return size <= mark;' 'return size < mark;'
fault "a journal of less than a count is taken" \
    'if (mark < PAIR_COUNT)' 'if (mark + 2 < PAIR_COUNT)'
fault "a pair may leave the image by a byte" \
    'length > image_len - at)' 'length > image_len - at + 1)'
fault "a pair may not end with the image" \
    'length > image_len - at)' 'length >= image_len - at)'
fault "a pair may begin anywhere" \
    'at > image_len ||' ''
fault "pairs may overlap" \
    'if (at < end ||' 'if (at + 1 < end ||'
fault "pairs may stand in any order" \
    'if (at < end ||' 'if ('
fault "pairs may not touch" \
    'if (at < end ||' 'if ((at <= end && i > 0) ||'
fault "a pair of no bytes is refused" \
    'if (at < end ||' 'if (length == 0 || at < end ||'
misbook "the book: 16 not put for the journaled form" \
    'return work_len < image_len ? 16 : 0;' 'return 0;'

# Growth: the start.
fault "a start takes an image that is not sound" \
    'uint32_t answer = ask_sound(old, old_len);' \
    'struct view v; uint32_t answer = open_image(&v, old, old_len);'
fault "21 before 15" \
    'uint32_t answer = ask_sound(old, old_len);' \
    'struct view o, v; if (open_image(&o, old, old_len) == ACCEPTED && open_image(&v, new, new_len) != ACCEPTED) return 21; uint32_t answer = ask_sound(old, old_len);'
fault "a start does not ask whether the second image is sound" \
    '!= ACCEPTED || verdict != 0)' '!= ACCEPTED)'
fault "a start takes a second image with points" \
    'return p->new.count == 0 &&' 'return'
fault "a start takes a second image with messages" \
    'p->new.next == p->new.data &&' ''
fault "a start takes as many slots" \
    'p->new.slots > p->old.slots &&' 'p->new.slots >= p->old.slots &&'
fault "a start does not ask R" \
    'needed <= p->new.length - p->new.data;' '1;'
fault "a start refuses R = U" \
    'needed <= p->new.length - p->new.data;' \
    'needed < p->new.length - p->new.data;'
fault "the pair's major versions may differ" \
    'return is_version_2(p->old.image) == is_version_2(p->new.image) &&' \
    'return'
fault "the pair's versions must be equal" \
    'return is_version_2(p->old.image) == is_version_2(p->new.image) &&' \
    'return memcmp(p->old.image, p->new.image, 8) == 0 &&'
fault "the pair's K may differ" \
    'p->old.key_size == p->new.key_size;' '1;'
misbook "the book: a start keeps N" 'b->slots = terms.slots;' ''
misbook "the book: a start keeps R" 'b->room = terms.room;' ''
misbook "the book: a start takes as many slots" \
    'terms.slots <= b->slots ||' 'terms.slots < b->slots ||'
misbook "the book: a start does not ask R" 'terms.room < needed)' '0)'
misbook "the book: a start takes a second image with messages" \
    'number_at(image + 52) != data_offset(t))' '0)'

# Growth: what every call asks first.
fault "21 before 6" \
    'uint32_t answer = open_image(&p->old, old, old_len);' \
    'uint32_t answer = open_image(&p->new, new, new_len) != ACCEPTED ? 21 : open_image(&p->old, old, old_len);'
fault "21 after 7" \
    'if (answer == ACCEPTED && !mode_fits(mode))' \
    'if (answer == 21 && !key_fits(&p.old, key, key_len)) answer = 7; if (answer == ACCEPTED && !mode_fits(mode))'
fault "21 asks for more slots later too" \
    'if (open_image(&p->new, new, new_len) != ACCEPTED || !same_kind(p))' \
    'if (open_image(&p->new, new, new_len) != ACCEPTED || !same_kind(p) || p->new.slots <= p->old.slots)'
fault "21 is the second image's own number" \
    'if (open_image(&p->new, new, new_len) != ACCEPTED || !same_kind(p))' \
    'answer = open_image(&p->new, new, new_len); if (answer != ACCEPTED) return answer; if (!same_kind(p))'

# Growth: a move.
fault "a move does not look at C here" \
    'p->old.count < 1)' '0)'
fault "a move does not look at the message" \
    'if (!read_message(&p->old, message_in(&p->old, slot), &t->message) ||' \
    'if ((read_message(&p->old, message_in(&p->old, slot), &t->message), 0) ||'
fault "a name in both images is written over" \
    'if (t->there.ending == MET)' 'if (0)'
fault "a name in both images is 9 only for a point with a message" \
    'if (t->there.ending == MET)' \
    'if (t->there.ending == MET && t->message.active)'
fault "9 before 11 of a move" \
    't->slot = slot;' \
    't->slot = slot; if (search(&p->new, key_in(&p->old, slot)).ending == MET) return 9;'
fault "a move does not look at C there" \
    'if (t->there.ending == EXHAUSTED || p->new.count >= p->new.slots)' \
    'if (t->there.ending == EXHAUSTED)'
fault "a move's 10 with both C" \
    'if (t->there.ending == EXHAUSTED || p->new.count >= p->new.slots)' \
    'if (t->there.ending == EXHAUSTED || p->old.count + p->new.count > p->new.slots)'
fault "a move does not ask for room" \
    'return ask_room(&p->new, 0, t->message.length);' 'return ACCEPTED;'
fault "an inactive message moves as an active one" \
    'if (t->message.active) {' 'if (t->message.offset != 0) {'
fault "a point without a message moves as an empty note" \
    'if (t->message.active) {' \
    'if (t->message.active || t->message.offset == 0) {'
fault "an empty note moves as none" \
    'if (t->message.active) {' \
    'if (t->message.active && t->message.length > 0) {'
fault "a moved note leaves the version" \
    'mark_note(new, text, MODE_NEW);' ''
fault "a moved message stays active" \
    'retire(old, &t->message);' ''
fault "C here stays" \
    'put32(old + AT_COUNT, p->old.count - 1);' ''
fault "the slot here is emptied alone" \
    'close_hole(old, &p->old, t->slot);' ''
fault "the slot here is deleted before the point is added there" \
    'struct text text = { NULL, t->message.length };' \
    'struct text text = { NULL, t->message.length }; zero_slot(old, &p->old, t->slot); close_hole(old, &p->old, t->slot);'

# Growth: the moves of a call.
fault "7 moves" \
    'for (uint32_t i = 0; i < MOVES; i++) {' \
    'for (uint32_t i = 0; i < 7; i++) {'
fault "9 moves" \
    'for (uint32_t i = 0; i < MOVES; i++) {' \
    'for (uint32_t i = 0; i < 9; i++) {'
fault "a refused move is passed over" \
    'if (slot == p->old.slots || ask_move(p, slot, &t) != ACCEPTED)' \
    'while (slot < p->old.slots && (!is_taken(&p->old, slot) || ask_move(p, slot, &t) != ACCEPTED)) slot++; if (slot == p->old.slots)'
fault "the moves go on behind the last slot" \
    'uint32_t slot = lowest_taken(&p->old);' \
    'static uint32_t at; uint32_t slot = i == 0 ? 0 : at; while (slot < p->old.slots && !is_taken(&p->old, slot)) slot++; at = slot + 1;'
fault "the highest slot's point moves" \
    'uint32_t slot = lowest_taken(&p->old);' \
    'uint32_t slot = p->old.slots; while (slot > 0 && !is_taken(&p->old, slot - 1)) slot--; slot = slot == 0 ? p->old.slots : slot - 1;'
fault "the named point is one of the 8" \
    'move_some(p, old, new);' \
    'struct traveller t; read_header(&p->new); for (uint32_t i = n->moves; i < MOVES; i++) { uint32_t slot = lowest_taken(&p->old); if (slot == p->old.slots || ask_move(p, slot, &t) != ACCEPTED) return; move_point(p, old, new, &t); }'
fault "a refused call moves" \
    'answer = ask_pair_add(&p, key, data_len, mode, &n);' \
    'answer = ask_pair_add(&p, key, data_len, mode, &n); if (answer == 9) move_some(&p, old, new);'
fault "a refused call moves the point it names" \
    'answer = ask_pair_add(&p, key, data_len, mode, &n);' \
    'if ((answer = ask_pair_add(&p, key, data_len, mode, &n)) == 13 && n.moves) move_point(&p, old, new, &n.traveller);'
fault "an accepted call that changes nothing moves none" \
    'add_to_pair(&p, old, new, &n, key, text, mode);' \
    'if (n.moves || mode != MODE_APPEND || data_len > 0) add_to_pair(&p, old, new, &n, key, text, mode);'

# Growth: the named point, and the call's own questions.
fault "the named point does not move" \
    'move_point(p, old, new, &n->traveller);' ';'
fault "the named point is deleted where it is" \
    'move_point(&p, old, new, &n.traveller);' \
    'return plain_delete(old, old_len, key, key_len);'
fault "the call's own 9 before the named point's number" \
    'uint32_t answer = ask_named(p, key, n);' \
    'uint32_t answer = ask_named(p, key, n); if (n->moves && mode == 1) return 9;'
fault "the named point's number does not refuse" \
    'uint32_t answer = ask_named(p, key, n);' \
    'uint32_t answer = ask_named(p, key, n) == 10 ? 10 : 0;'
fault "the named point's number before 8" \
    'if (answer == ACCEPTED && !mode_fits(mode))' \
    'if (answer == ACCEPTED) answer = ask_named(&p, key, &n); if (answer == ACCEPTED && !mode_fits(mode))'
fault "the named point's number before 19" \
    'answer = columns_fit(width, records_len) ? ACCEPTED : 19;' \
    'if ((answer = ask_named(&p, key, &n)) == ACCEPTED) answer = columns_fit(width, records_len) ? ACCEPTED : 19;'
fault "the named point's withdrawn message is written over" \
    'if (n->traveller.message.active)' \
    'if (n->traveller.message.offset != 0)'
fault "the call's own 10 with the new C alone" \
    'uint64_t points = (uint64_t)p->old.count + p->new.count;' \
    'uint64_t points = p->new.count;'
fault "the call's own 10 with C alone" \
    'if (n->found.ending == EXHAUSTED || points >= p->new.slots)' \
    'if (points >= p->new.slots)'
fault "the call's own 13 with X alone" \
    'return used_by_both(p, n) + needed > room ? 13 : ACCEPTED;' \
    'return p->new.next - p->new.data + needed > room ? 13 : ACCEPTED;'
fault "13 where U, header and length fill R" \
    'return used_by_both(p, n) + needed > room ? 13 : ACCEPTED;' \
    'return used_by_both(p, n) + needed >= room ? 13 : ACCEPTED;'
fault "U as it is before the named point's move" \
    'if (!n->moves)' 'if (1)'
fault "U without the named point's message" \
    'used += p->new.header_size + (uint64_t)t->message.length;' ';'
fault "the named point's message is counted twice" \
    'return used + active_space(&p->old, t->slot, t->message.offset);' \
    'return used + active_space(&p->old, p->old.slots, 0);'
fault "the letter that the move changes is read in its own header alone" \
    'if (gone >= offset && gone - offset < v->header_size)' \
    'if (gone == offset)'
fault "the letter that the move changes is read as it is" \
    'if (gone >= offset && gone - offset < v->header_size)' 'if (0)'
fault "the sum has no headers" \
    'return v->header_size + (uint64_t)length;' 'return length;'
fault "the sum has inactive messages" \
    "if (header[0] != 'a' || length" \
    "if ((header[0] != 'a' && header[0] != 'd') || length"
fault "the sum has messages that fail 11" \
    '|| length > last - offset)' ')'
fault "the sum has messages of empty slots" \
    'if (i != but && is_taken(v, i))' 'if (i != but)'
fault "the sum has not the last slot" \
    'if (i != but && is_taken(v, i))' \
    'if (i + 1 != v->slots && i != but && is_taken(v, i))'
fault "delete's C of the new image is not asked" \
    'if (!n.moves && (!n.message_fits || p.new.count < 1))' \
    'if (!n.moves && !n.message_fits)'

# Growth: the calls that read.
fault "lookups search new, then old" \
    'if (search(&p.old, key).ending == MET)' \
    'if (search(&p.new, key).ending != MET && search(&p.old, key).ending == MET)'
fault "11 of the old image is not put at lookup" \
    'return plain_lookup(old, old_len, key, key_len, offset, length);' \
    'return plain_lookup(old, old_len, key, key_len, offset, length), ACCEPTED;'
fault "a point without a message is said to be in the new image" \
    '*in_new = *offset != 0;' '*in_new = answer == ACCEPTED;'
fault "count of the new image alone" \
    'p.old.count + p.new.count : 0;' 'p.new.count : 0;'
fault "records of the new image alone" \
    'return fill_records(answer, in_new ? new : old, offset, length, out,' \
    'return fill_records(answer, new, offset, length, out,'
fault "16 with the new N alone" \
    'slots = (size_t)p.old.slots + p.new.slots;' 'slots = p.new.slots;'
fault "the new image's slots stand first" \
    '*new_found = list_slots(&p.new, lowest, highest,' \
    '*new_found = list_slots(&p.new, lowest, highest, list); list_slots(&p.old, lowest, highest, list + SLOT_NUMBER * (size_t)*new_found); return ACCEPTED; list_slots(&p.new, lowest, highest,'
fault "the new image's entry at a tie" \
    'epoch_in(&p->new, there) > epoch_in(&p->old, here);' \
    'epoch_in(&p->new, there) >= epoch_in(&p->old, here);'
fault "the old image's entry wherever it has one" \
    'epoch_in(&p->new, there) > epoch_in(&p->old, here);' '0;'

# The order of the writes, and what a cut leaves.
at_a_cut "the mark is written before the content" \
    'write_content(journal, image, work, image_len);' \
    '*mark = MARK; write_content(journal, image, work, image_len);'
at_a_cut "the image is written before the mark" \
    '*mark = MARK;' 'write_back(image, journal); *mark = MARK;'
at_a_cut "the image is written before the content" \
    'mark = journal + journal_len - 1;' \
    'uint8_t *old = malloc(image_len); memcpy(old, image, image_len); memcpy(image, work, image_len); image = old; mark = journal + journal_len - 1;'
at_a_cut "the call is made on the image itself, and the old bytes are put back" \
    'mark = journal + journal_len - 1;' \
    'uint8_t *old = malloc(image_len); memcpy(old, image, image_len); memcpy(image, work, image_len); memcpy(image, old, image_len); free(old); mark = journal + journal_len - 1;'
at_a_cut "the mark is cleared before the image is written" \
    '*mark = MARK;' '*mark = MARK; write_back(image, journal); *mark = 0;'
at_a_cut "recovery clears the mark before the image is written" \
    'if (journal[mark] == MARK)' \
    'if (journal[mark] == MARK && (journal[mark] = 0, 1))'
at_a_cut "recovery writes 0 where it is 0 already" \
    'if (journal[mark] != 0)' 'if (journal[mark] < 256)'
at_a_cut "a stretch is taken for written where its first byte is" \
    'copy(image + get32(pair), from, get32(pair + 4));' \
    'if (get32(pair + 4) > 0 && image[get32(pair)] != *from) copy(image + get32(pair), from, get32(pair + 4));'

echo "$passed passed, $failed failed"
[ "$failed" -eq 0 ]
