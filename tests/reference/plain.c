/* The control point file of 01-scope.md, in plain C on one image, with what
 * 02-change-requests.md changed; a build may set 01's limits. */
#include "plain.h"

#include <stdlib.h>
#include <string.h>

#define PAGE 4096u
#ifndef IMAGE_MAX
#define IMAGE_MAX 1073741824u
#endif
#ifndef SLOTS_MAX
#define SLOTS_MAX 1048576u
#endif
#define KEY_MAX 32u
#define SLOTS_DEFAULT 5507u
#define MESSAGE_MAX 16777215u
#define LONG_MESSAGE_MAX 1073741823u /* of version 2.0.0 */
#define MESSAGE_HEADER 4u /* a letter and the length */
#define LONG_MESSAGE_HEADER 5u
#define OFFSET_SIZE 4u
#define PAIR 8u /* a stretch's offset and length */
#define PAIR_COUNT 4u /* bytes of it, at a journal's start */
#define MARK 0xA5u
#define WIDTH_MAX 64u /* bytes of a record */
#define SLOT_NUMBER 4u /* bytes of it, in a list */
#define EPOCH_SIZE 4u /* bytes of it, at a key's end */
#define MOVES 8u /* of an accepted call in growth, beside the named point's */
#define SCRAMBLE 512u
#define TABLE 2048u
#define FIRST_CHARACTER 32u
#define LAST_CHARACTER 126u
#define MULTIPLIER 0x01000193u
#define START_VALUE 0x811C9DC5u

/* Where the header's numbers stand. */
enum {
    AT_VERSION = 5,
    AT_LAST_VERSION = 7,
    AT_KEY_SIZE = 12,
    AT_SLOTS = 16,
    AT_COUNT = 20,
    AT_MULTIPLIER = 24,
    AT_START = 28,
    AT_FIRST = 32,
    AT_LAST = 36,
    AT_SCRAMBLE = 40,
    AT_TABLE = 44,
    AT_DATA = 48,
    AT_NEXT = 52,
    AT_LAST_PAGE = 56
};

enum { ACCEPTED = 0 };
enum { MODE_NEW = 1, MODE_REPLACE = 2, MODE_APPEND = 3, MODE_WITHDRAW = 4 };
enum { NOTES_VERSION = 2 }; /* from 1.0.2 on an empty note is a note */

#define VERSION_SIZE 3u
static const uint8_t version_1[] = { 1, 0, NOTES_VERSION };
static const uint8_t version_2[] = { 2, 0, 0 };

/* An opened image: the header's numbers, and L; what its version makes of a
 * message's header and its longest text. */
struct view {
    const uint8_t *image;
    uint32_t length;
    uint32_t header_size;
    uint32_t message_max;
    uint32_t key_size;
    uint32_t slots;
    uint32_t count;
    uint32_t multiplier;
    uint32_t start;
    uint32_t first;
    uint32_t last;
    uint32_t data;
    uint32_t next;
    uint32_t stride;
};

enum ending { MET, EMPTY, EXHAUSTED };

struct found {
    enum ending ending;
    uint32_t slot;
    uint32_t read; /* slots */
};

/* Offset 0: no message; length 0 then too. */
struct message {
    uint32_t offset;
    uint32_t length;
    int active;
};

struct text {
    const uint8_t *bytes;
    size_t length;
};

/* ---- numbers and bytes ---- */

static uint32_t get32(const uint8_t *at)
{
    return (uint32_t)at[0] << 24 | (uint32_t)at[1] << 16 |
           (uint32_t)at[2] << 8 | (uint32_t)at[3];
}

static void put32(uint8_t *at, uint32_t value)
{
    at[0] = (uint8_t)(value >> 24);
    at[1] = (uint8_t)(value >> 16);
    at[2] = (uint8_t)(value >> 8);
    at[3] = (uint8_t)value;
}

static int all_zero(const uint8_t *bytes, uint32_t length)
{
    for (uint32_t i = 0; i < length; i++)
        if (bytes[i] != 0)
            return 0;
    return 1;
}

/* memcpy that takes a null pointer for no bytes. */
static void copy(uint8_t *to, const uint8_t *from, size_t length)
{
    if (length > 0)
        memcpy(to, from, length);
}

/* ---- the header ---- */

/* D, for K and N in range. */
static uint32_t data_offset(uint32_t key_size, uint32_t slots)
{
    uint32_t end = TABLE + slots * (key_size + OFFSET_SIZE);

    return (end + PAGE - 1) / PAGE * PAGE;
}

/* M, as stored. */
static uint32_t last_page(uint32_t data, uint32_t next)
{
    return next == data ? 0xFFFFFFFFu : (next - data - 1) / PAGE;
}

/* Question 1. */
static int length_fits(size_t length)
{
    return length % PAGE == 0 && length >= PAGE && length <= IMAGE_MAX;
}

static int is_version_2(const uint8_t *image)
{
    return memcmp(image + AT_VERSION, version_2, VERSION_SIZE) == 0;
}

/* Question 5. */
static int version_fits(const uint8_t *image)
{
    if (memcmp(image, "BHTFv", AT_VERSION) != 0)
        return 0;
    if (is_version_2(image)) /* no later one of it */
        return 1;
    return image[AT_VERSION] == 1 && image[AT_VERSION + 1] == 0 &&
           image[AT_LAST_VERSION] <= NOTES_VERSION;
}

/* Question 6. As unsigned numbers, fields with the top bit set fail too. */
static int header_fits(const struct view *v)
{
    if (v->key_size < 1 || v->key_size > KEY_MAX)
        return 0;
    if (v->slots < 1 || v->slots > SLOTS_MAX)
        return 0;
    if (v->count > v->slots)
        return 0;
    if (v->first > v->last || v->last > 255)
        return 0;
    if (get32(v->image + AT_SCRAMBLE) != SCRAMBLE)
        return 0;
    if (get32(v->image + AT_TABLE) != TABLE)
        return 0;
    if (v->data != data_offset(v->key_size, v->slots))
        return 0;
    return v->data <= v->next && v->next <= v->length;
}

static void read_header(struct view *v)
{
    int is_2 = is_version_2(v->image);

    v->header_size = is_2 ? LONG_MESSAGE_HEADER : MESSAGE_HEADER;
    v->message_max = is_2 ? LONG_MESSAGE_MAX : MESSAGE_MAX;
    v->key_size = get32(v->image + AT_KEY_SIZE);
    v->slots = get32(v->image + AT_SLOTS);
    v->count = get32(v->image + AT_COUNT);
    v->multiplier = get32(v->image + AT_MULTIPLIER);
    v->start = get32(v->image + AT_START);
    v->first = get32(v->image + AT_FIRST);
    v->last = get32(v->image + AT_LAST);
    v->data = get32(v->image + AT_DATA);
    v->next = get32(v->image + AT_NEXT);
    v->stride = v->key_size + OFFSET_SIZE;
}

/* Questions 1, 5 and 6. */
static uint32_t open_image(struct view *v, const uint8_t *image, size_t length)
{
    if (!length_fits(length))
        return 1;
    if (!version_fits(image))
        return 5;
    v->image = image;
    v->length = (uint32_t)length;
    read_header(v);
    return header_fits(v) ? ACCEPTED : 6;
}

/* ---- create ---- */

static void write_scramble(uint8_t *image, uint32_t seed)
{
    uint32_t numbers = LAST_CHARACTER - FIRST_CHARACTER + 1;
    uint32_t state = seed;

    for (uint32_t i = 0; i < numbers; i++) {
        state = state * 1664525u + 1013904223u;
        put32(image + SCRAMBLE + 4 * i, state);
    }
}

static void write_header(uint8_t *image, uint32_t key_size, uint32_t slots)
{
    uint32_t data = data_offset(key_size, slots);

    memcpy(image, "BHTFv\1\0\2", 8);
    put32(image + AT_KEY_SIZE, key_size);
    put32(image + AT_SLOTS, slots);
    put32(image + AT_MULTIPLIER, MULTIPLIER);
    put32(image + AT_START, START_VALUE);
    put32(image + AT_FIRST, FIRST_CHARACTER);
    put32(image + AT_LAST, LAST_CHARACTER);
    put32(image + AT_SCRAMBLE, SCRAMBLE);
    put32(image + AT_TABLE, TABLE);
    put32(image + AT_DATA, data);
    put32(image + AT_NEXT, data);
    put32(image + AT_LAST_PAGE, last_page(data, data));
}

uint32_t plain_create(uint8_t *image, size_t image_len, uint32_t key_size,
                      uint32_t slots, uint32_t seed)
{
    if (!length_fits(image_len))
        return 1;
    if (key_size < 1 || key_size > KEY_MAX)
        return 2;
    if (slots > SLOTS_MAX)
        return 3;
    if (slots == 0)
        slots = SLOTS_DEFAULT;
    if (data_offset(key_size, slots) > image_len)
        return 4;
    memset(image, 0, image_len);
    write_header(image, key_size, slots);
    write_scramble(image, seed);
    return ACCEPTED;
}

/* ---- from name to slot ---- */

static uint32_t hash_of(const struct view *v, const uint8_t *key)
{
    const uint8_t *scramble = v->image + SCRAMBLE;
    uint32_t hash = v->start;

    for (uint32_t i = 0; i < v->key_size; i++) {
        uint32_t c = key[i];

        hash *= v->multiplier;
        if (v->first <= c && c <= v->last)
            hash ^= get32(scramble + 4 * (c - v->first));
    }
    return hash;
}

static uint32_t home_of(const struct view *v, const uint8_t *key)
{
    return hash_of(v, key) % v->slots;
}

static uint32_t after(const struct view *v, uint32_t slot)
{
    return slot + 1 == v->slots ? 0 : slot + 1;
}

/* Where a slot's key stands; its message offset stands K bytes on. */
static uint32_t slot_at(const struct view *v, uint32_t slot)
{
    return TABLE + slot * v->stride;
}

static const uint8_t *key_in(const struct view *v, uint32_t slot)
{
    return v->image + slot_at(v, slot);
}

static uint32_t message_in(const struct view *v, uint32_t slot)
{
    return get32(key_in(v, slot) + v->key_size);
}

static int is_taken(const struct view *v, uint32_t slot)
{
    return !all_zero(key_in(v, slot), v->key_size);
}

static int same_key(const struct view *v, uint32_t slot, const uint8_t *key)
{
    return memcmp(key_in(v, slot), key, v->key_size) == 0;
}

static struct found search(const struct view *v, const uint8_t *key)
{
    struct found f = { EXHAUSTED, home_of(v, key), 0 };

    while (f.read < v->slots) {
        f.read++;
        if (same_key(v, f.slot, key)) {
            f.ending = MET;
            return f;
        }
        if (!is_taken(v, f.slot)) {
            f.ending = EMPTY;
            return f;
        }
        f.slot = after(v, f.slot);
    }
    return f;
}

/* Question 7. */
static int key_fits(const struct view *v, const uint8_t *key, size_t length)
{
    return length == v->key_size && !all_zero(key, v->key_size);
}

/* ---- messages ---- */

/* The length in a header of that size, behind its letter. */
static uint32_t get_length(const uint8_t *header, uint32_t header_size)
{
    uint32_t length = 0;

    for (uint32_t i = 1; i < header_size; i++)
        length = length << 8 | header[i];
    return length;
}

static void write_active(uint8_t *header, uint32_t header_size,
                         uint32_t length)
{
    header[0] = 'a';
    for (uint32_t i = header_size - 1; i > 0; i--, length >>= 8)
        header[i] = (uint8_t)length;
}

/* Question 11, the message's part: no message, or a good one. */
static int read_message(const struct view *v, uint32_t offset,
                        struct message *m)
{
    uint8_t letter;

    m->offset = offset;
    m->length = 0;
    m->active = 0;
    if (offset == 0)
        return 1;
    if (offset < v->data || offset > v->next - v->header_size)
        return 0;
    letter = v->image[offset];
    if (letter != 'a' && letter != 'd')
        return 0;
    m->length = get_length(v->image + offset, v->header_size);
    m->active = letter == 'a';
    return m->length <= v->next - offset - v->header_size;
}

/* An old header, if there is one, becomes inactive. */
static void retire(uint8_t *image, const struct message *m)
{
    if (m->offset != 0)
        image[m->offset] = 'd';
}

/* Questions 12 and 13 for kept old bytes and m new ones. */
static uint32_t ask_room(const struct view *v, uint32_t kept, size_t m)
{
    if (m > v->message_max || kept + m > v->message_max)
        return 12;
    if (v->header_size + kept + m > v->length - v->next)
        return 13;
    return ACCEPTED;
}

/* Takes new space at X for kept old bytes and the new ones behind them. */
static uint32_t place(uint8_t *image, const struct view *v, struct text kept,
                      struct text fresh)
{
    uint32_t offset = v->next;
    uint32_t length = (uint32_t)(kept.length + fresh.length);
    uint32_t next = offset + v->header_size + length;
    uint8_t *to = image + offset + v->header_size;

    write_active(image + offset, v->header_size, length);
    copy(to, kept.bytes, kept.length);
    copy(to + kept.length, fresh.bytes, fresh.length);
    put32(image + AT_NEXT, next);
    put32(image + AT_LAST_PAGE, last_page(v->data, next));
    return offset;
}

/* Writes a text that fits over the old message. */
static void overwrite(uint8_t *image, const struct view *v,
                      const struct message *old, struct text text)
{
    uint8_t *to = image + old->offset + v->header_size;

    write_active(image + old->offset, v->header_size, (uint32_t)text.length);
    copy(to, text.bytes, text.length);
    memset(to + text.length, 0, old->length - text.length);
}

/* ---- add ---- */

static void write_slot(uint8_t *image, const struct view *v, uint32_t slot,
                       const uint8_t *key, uint32_t offset)
{
    uint8_t *to = image + slot_at(v, slot);

    memcpy(to, key, v->key_size);
    put32(to + v->key_size, offset);
}

static void write_offset(uint8_t *image, const struct view *v, uint32_t slot,
                         uint32_t offset)
{
    put32(image + slot_at(v, slot) + v->key_size, offset);
}

/* A name's message: appending nothing is none, other empty data a note. */
static uint32_t add_absent(uint8_t *image, const struct view *v,
                           struct found f, const uint8_t *key,
                           struct text text, uint32_t mode)
{
    const struct text none = { NULL, 0 };
    int placed = text.length > 0 || mode != MODE_APPEND;
    uint32_t answer = ACCEPTED;
    uint32_t offset = 0;

    if (mode == MODE_WITHDRAW)
        return 14;
    if (f.ending == EXHAUSTED || v->count >= v->slots)
        return 10;
    if (placed)
        answer = ask_room(v, 0, text.length);
    if (answer != ACCEPTED)
        return answer;
    if (placed)
        offset = place(image, v, none, text);
    write_slot(image, v, f.slot, key, offset);
    put32(image + AT_COUNT, v->count + 1);
    return ACCEPTED;
}

/* New space for the slot's message, the old one inactive. */
static uint32_t renew(uint8_t *image, const struct view *v, uint32_t slot,
                      const struct message *old, struct text kept,
                      struct text text)
{
    uint32_t answer = ask_room(v, (uint32_t)kept.length, text.length);

    if (answer != ACCEPTED)
        return answer;
    retire(image, old);
    write_offset(image, v, slot, place(image, v, kept, text));
    return ACCEPTED;
}

static uint32_t replace(uint8_t *image, const struct view *v, uint32_t slot,
                        const struct message *old, struct text text)
{
    const struct text none = { NULL, 0 };

    if (old->offset != 0 && text.length <= old->length) {
        overwrite(image, v, old, text);
        return ACCEPTED;
    }
    return renew(image, v, slot, old, none, text);
}

static uint32_t append(uint8_t *image, const struct view *v, uint32_t slot,
                       const struct message *old, struct text text)
{
    struct text kept = { NULL, 0 };

    if (text.length == 0)
        return ACCEPTED;
    if (old->active) {
        kept.bytes = v->image + old->offset + v->header_size;
        kept.length = old->length;
    }
    return renew(image, v, slot, old, kept, text);
}

static uint32_t withdraw(uint8_t *image, const struct message *old)
{
    retire(image, old);
    return ACCEPTED;
}

static uint32_t add_present(uint8_t *image, const struct view *v,
                            uint32_t slot, struct text text, uint32_t mode)
{
    struct message old;

    if (mode == MODE_NEW)
        return 9;
    if (!read_message(v, message_in(v, slot), &old))
        return 11;
    if (mode == MODE_REPLACE)
        return replace(image, v, slot, &old, text);
    if (mode == MODE_APPEND)
        return append(image, v, slot, &old, text);
    return withdraw(image, &old);
}

/* Question 8. */
static int mode_fits(uint32_t mode)
{
    if (mode < MODE_NEW || mode > MODE_WITHDRAW)
        return 0;
    return 1;
}

/* A file that holds an empty note is of version 1.0.2, or 2.0.0. */
static void mark_note(uint8_t *image, struct text text, uint32_t mode)
{
    if (is_version_2(image)) /* never changes */
        return;
    if (text.length == 0 && (mode == MODE_NEW || mode == MODE_REPLACE))
        image[AT_LAST_VERSION] = NOTES_VERSION;
}

uint32_t plain_add_slots(uint8_t *image, size_t image_len, const uint8_t *key,
                         size_t key_len, const uint8_t *data, size_t data_len,
                         uint32_t mode, uint32_t *slots_read)
{
    const struct text text = { data, data_len };
    struct view v;
    struct found f;
    uint32_t answer = open_image(&v, image, image_len);

    *slots_read = 0;
    if (answer != ACCEPTED)
        return answer;
    if (!key_fits(&v, key, key_len))
        return 7;
    if (!mode_fits(mode))
        return 8;
    f = search(&v, key);
    *slots_read = f.read;
    if (f.ending == MET)
        answer = add_present(image, &v, f.slot, text, mode);
    else
        answer = add_absent(image, &v, f, key, text, mode);
    if (answer == ACCEPTED)
        mark_note(image, text, mode);
    return answer;
}

uint32_t plain_add(uint8_t *image, size_t image_len, const uint8_t *key,
                   size_t key_len, const uint8_t *data, size_t data_len,
                   uint32_t mode)
{
    uint32_t unasked;

    return plain_add_slots(image, image_len, key, key_len, data, data_len,
                           mode, &unasked);
}

/* ---- delete ---- */

static void zero_slot(uint8_t *image, const struct view *v, uint32_t slot)
{
    memset(image + slot_at(v, slot), 0, v->stride);
}

static void move_slot(uint8_t *image, const struct view *v, uint32_t from,
                      uint32_t to)
{
    memcpy(image + slot_at(v, to), image + slot_at(v, from), v->stride);
    zero_slot(image, v, from);
}

/* Steps upwards from a to b, wrapping. */
static uint32_t steps(const struct view *v, uint32_t a, uint32_t b)
{
    return b >= a ? b - a : b + v->slots - a;
}

/* Is the entry's home among the slots after the hole up to its own? */
static int may_stay(const struct view *v, uint32_t hole, uint32_t slot)
{
    uint32_t home = home_of(v, key_in(v, slot));

    return home != hole && steps(v, hole, home) <= steps(v, hole, slot);
}

/* Moves entries into the hole until an empty slot is met. On a full table
 * with entries far from home this can take up to N * N - N + 1 steps. */
static void close_hole(uint8_t *image, const struct view *v, uint32_t hole)
{
    uint32_t slot = after(v, hole);

    while (is_taken(v, slot)) {
        if (!may_stay(v, hole, slot)) {
            move_slot(image, v, slot, hole);
            hole = slot;
        }
        slot = after(v, slot);
    }
}

/* Questions 7 and 14, for lookup and delete. */
static uint32_t ask_present(const struct view *v, const uint8_t *key,
                            size_t key_len, uint32_t *slot,
                            uint32_t *slots_read)
{
    struct found f;

    if (!key_fits(v, key, key_len))
        return 7;
    f = search(v, key);
    *slot = f.slot;
    *slots_read = f.read;
    return f.ending == MET ? ACCEPTED : 14;
}

uint32_t plain_delete_slots(uint8_t *image, size_t image_len,
                            const uint8_t *key, size_t key_len,
                            uint32_t *slots_read)
{
    struct view v;
    struct message old;
    uint32_t slot;
    uint32_t answer = open_image(&v, image, image_len);

    *slots_read = 0;
    if (answer == ACCEPTED)
        answer = ask_present(&v, key, key_len, &slot, slots_read);
    if (answer != ACCEPTED)
        return answer;
    if (!read_message(&v, message_in(&v, slot), &old) || v.count < 1)
        return 11;
    retire(image, &old);
    put32(image + AT_COUNT, v.count - 1);
    zero_slot(image, &v, slot);
    close_hole(image, &v, slot);
    return ACCEPTED;
}

uint32_t plain_delete(uint8_t *image, size_t image_len, const uint8_t *key,
                      size_t key_len)
{
    uint32_t unasked;

    return plain_delete_slots(image, image_len, key, key_len, &unasked);
}

/* ---- lookup, count, walk, check ---- */

uint32_t plain_lookup_slots(const uint8_t *image, size_t image_len,
                            const uint8_t *key, size_t key_len,
                            uint32_t *offset, uint32_t *length,
                            uint32_t *slots_read)
{
    struct view v;
    struct message m;
    uint32_t slot;
    uint32_t answer = open_image(&v, image, image_len);

    *offset = 0;
    *length = 0;
    *slots_read = 0;
    if (answer == ACCEPTED)
        answer = ask_present(&v, key, key_len, &slot, slots_read);
    if (answer != ACCEPTED)
        return answer;
    if (!read_message(&v, message_in(&v, slot), &m))
        return 11;
    if (m.active) {
        *offset = m.offset + v.header_size;
        *length = m.length;
    }
    return ACCEPTED;
}

uint32_t plain_lookup(const uint8_t *image, size_t image_len,
                      const uint8_t *key, size_t key_len, uint32_t *offset,
                      uint32_t *length)
{
    uint32_t unasked;

    return plain_lookup_slots(image, image_len, key, key_len, offset, length,
                              &unasked);
}

uint32_t plain_count(const uint8_t *image, size_t image_len, uint32_t *count)
{
    struct view v;
    uint32_t answer = open_image(&v, image, image_len);

    *count = answer == ACCEPTED ? v.count : 0;
    return answer;
}

uint32_t plain_walk(const uint8_t *image, size_t image_len, uint32_t from,
                    uint32_t *slot, uint32_t *key_offset)
{
    struct view v;
    uint32_t answer = open_image(&v, image, image_len);

    *slot = 0;
    *key_offset = 0;
    if (answer != ACCEPTED)
        return answer;
    for (uint32_t i = from; i < v.slots; i++)
        if (is_taken(&v, i)) {
            *slot = i;
            *key_offset = slot_at(&v, i);
            break;
        }
    return ACCEPTED;
}

/* A taken slot is good by itself when its key's search ends there and its
 * message passes question 11. */
static int slot_is_good(const struct view *v, uint32_t slot, struct message *m)
{
    struct found f = search(v, key_in(v, slot));

    if (f.ending != MET || f.slot != slot)
        return 0;
    return read_message(v, message_in(v, slot), m);
}

/* From a message's header to its end, and whose it is. */
struct stretch {
    uint32_t start;
    uint32_t end;
    uint32_t slot;
};

/* Room for as many messages as there are slots. */
static struct stretch *new_stretches(const struct view *v)
{
    struct stretch *s = malloc(v->slots * sizeof *s);

    if (s == NULL)
        abort();
    return s;
}

static void note(struct stretch *s, const struct view *v, uint32_t slot,
                 const struct message *m)
{
    s->start = m->offset;
    s->end = m->offset + v->header_size + m->length;
    s->slot = slot;
}

static int by_start(const void *a, const void *b)
{
    uint32_t one = ((const struct stretch *)a)->start;
    uint32_t other = ((const struct stretch *)b)->start;

    return (one > other) - (one < other);
}

/* Of the stretches in the order of their starts: do those of the slots below
 * that one not meet? Then none begins before the last one's end. */
static int are_apart(const struct stretch *s, uint32_t count, uint32_t slot)
{
    uint32_t end = 0;

    for (uint32_t i = 0; i < count; i++) {
        if (s[i].slot >= slot)
            continue;
        if (s[i].start < end)
            return 0;
        end = s[i].end;
    }
    return 1;
}

/* The lowest slot below limit whose stretch meets that of a lower one, or
 * limit: the slots up to it are no longer apart, and those before it are; so
 * it is found by halving. */
static uint32_t first_meeting(struct stretch *s, uint32_t count,
                              uint32_t limit)
{
    uint32_t apart = 0, meeting = limit;

    if (count > 0)
        qsort(s, count, sizeof *s, by_start);
    if (are_apart(s, count, limit))
        return limit;
    while (meeting - apart > 1) {
        uint32_t middle = apart + (meeting - apart) / 2;

        if (are_apart(s, count, middle))
            apart = middle;
        else
            meeting = middle;
    }
    return apart;
}

/* The lowest slot that fails, or N; counts the taken slots before it. */
static uint32_t first_failing(const struct view *v, struct stretch *s,
                              uint32_t *taken)
{
    struct message m;
    uint32_t noted = 0, slot = 0;

    for (*taken = 0; slot < v->slots; slot++) {
        if (!is_taken(v, slot))
            continue;
        if (!slot_is_good(v, slot, &m))
            break;
        ++*taken;
        if (m.offset != 0)
            note(&s[noted++], v, slot, &m);
    }
    return first_meeting(s, noted, slot);
}

uint32_t plain_check(const uint8_t *image, size_t image_len,
                     uint32_t *verdict, uint32_t *slot)
{
    struct view v;
    struct stretch *s;
    uint32_t taken, failing;
    uint32_t answer = open_image(&v, image, image_len);

    *verdict = 0;
    *slot = 0;
    if (answer != ACCEPTED)
        return answer;
    s = new_stretches(&v);
    failing = first_failing(&v, s, &taken);
    free(s);
    if (failing < v.slots) {
        *verdict = 1;
        *slot = failing;
    } else if (taken != v.count) {
        *verdict = 2;
    }
    return ACCEPTED;
}

/* ---- compaction ---- */

/* Questions 1, 5 and 6, then 15. */
static uint32_t ask_sound(const uint8_t *image, size_t image_len)
{
    uint32_t verdict, slot;
    uint32_t answer = plain_check(image, image_len, &verdict, &slot);

    if (answer != ACCEPTED)
        return answer;
    return verdict == 0 ? ACCEPTED : 15;
}

/* The active messages of taken slots, in the order of their offsets. */
static uint32_t collect(const struct view *v, struct stretch *s)
{
    struct message old;
    uint32_t active = 0;

    for (uint32_t slot = 0; slot < v->slots; slot++) {
        if (!is_taken(v, slot))
            continue;
        read_message(v, message_in(v, slot), &old);
        if (old.active)
            note(&s[active++], v, slot, &old);
    }
    if (active > 0)
        qsort(s, active, sizeof *s, by_start);
    return active;
}

/* The offsets of taken slots become 0. */
static void forget_offsets(uint8_t *image, const struct view *v)
{
    for (uint32_t slot = 0; slot < v->slots; slot++)
        if (is_taken(v, slot))
            write_offset(image, v, slot, 0);
}

/* Moves them down; answers the end. */
static uint32_t move_down(uint8_t *image, const struct view *v,
                          const struct stretch *s, uint32_t active)
{
    uint32_t to = v->data;

    for (uint32_t i = 0; i < active; i++) {
        uint32_t size = s[i].end - s[i].start;

        memmove(image + to, image + s[i].start, size);
        write_offset(image, v, s[i].slot, to);
        to += size;
    }
    return to;
}

uint32_t plain_compact(uint8_t *image, size_t image_len)
{
    struct view v;
    struct stretch *s;
    uint32_t active, end;
    uint32_t answer = ask_sound(image, image_len);

    if (answer != ACCEPTED)
        return answer;
    open_image(&v, image, image_len);
    s = new_stretches(&v);
    active = collect(&v, s);
    forget_offsets(image, &v);
    end = move_down(image, &v, s, active);
    free(s);
    memset(image + end, 0, v.length - end);
    if (end != v.next) {
        put32(image + AT_NEXT, end);
        put32(image + AT_LAST_PAGE, last_page(v.data, end));
    }
    return ACCEPTED;
}

/* ---- the converter ---- */

static uint32_t text_length(const struct view *v, const struct stretch *s)
{
    return s->end - s->start - v->header_size;
}

/* Question 20, of messages that become narrower. */
static int texts_fit(const struct view *v, const struct stretch *s,
                     uint32_t count)
{
    for (uint32_t i = 0; i < count; i++)
        if (text_length(v, &s[i]) > MESSAGE_MAX)
            return 0;
    return 1;
}

/* Question 13: the table and the messages with their other headers. */
static int target_fits(const struct view *v, const struct stretch *s,
                       uint32_t count, uint32_t header_size, size_t target_len)
{
    uint64_t needed = v->data;

    for (uint32_t i = 0; i < count; i++)
        needed += header_size + (uint64_t)text_length(v, &s[i]);
    return needed <= target_len;
}

/* The header but for X and M, the scramble, and the keys of taken slots. */
static void carry_table(uint8_t *target, const struct view *v, int narrows)
{
    size_t numbers = v->last - v->first + 1;

    memcpy(target, v->image, AT_NEXT);
    memcpy(target + AT_VERSION, narrows ? version_1 : version_2, VERSION_SIZE);
    memcpy(target + SCRAMBLE, v->image + SCRAMBLE, 4 * numbers);
    for (uint32_t i = 0; i < v->slots; i++)
        if (is_taken(v, i))
            write_slot(target, v, i, key_in(v, i), 0);
}

/* The messages one behind the other; answers the end. */
static uint32_t carry_messages(uint8_t *target, const struct view *v,
                               const struct stretch *s, uint32_t count,
                               uint32_t header_size)
{
    uint32_t at = v->data;

    for (uint32_t i = 0; i < count; i++) {
        const uint8_t *text = v->image + s[i].start + v->header_size;
        uint32_t length = text_length(v, &s[i]);

        write_active(target + at, header_size, length);
        memcpy(target + at + header_size, text, length);
        write_offset(target, v, s[i].slot, at);
        at += header_size + length;
    }
    return at;
}

/* Questions 20 and 13; then the target. */
static uint32_t carry(const struct view *v, struct stretch *s, uint8_t *target,
                      size_t target_len)
{
    int narrows = is_version_2(v->image);
    uint32_t header_size = narrows ? MESSAGE_HEADER : LONG_MESSAGE_HEADER;
    uint32_t count = collect(v, s), end;

    if (narrows && !texts_fit(v, s, count))
        return 20;
    if (!target_fits(v, s, count, header_size, target_len))
        return 13;
    memset(target, 0, target_len);
    carry_table(target, v, narrows);
    end = carry_messages(target, v, s, count, header_size);
    put32(target + AT_NEXT, end);
    put32(target + AT_LAST_PAGE, last_page(v->data, end));
    return ACCEPTED;
}

uint32_t plain_convert(const uint8_t *source, size_t source_len,
                       uint8_t *target, size_t target_len)
{
    struct view v;
    struct stretch *s;
    uint32_t answer;

    if (!length_fits(source_len) || !length_fits(target_len))
        return 1;
    answer = ask_sound(source, source_len);
    if (answer != ACCEPTED)
        return answer;
    open_image(&v, source, source_len);
    s = new_stretches(&v);
    answer = carry(&v, s, target, target_len);
    free(s);
    return answer;
}

/* ---- readings by column ---- */

/* Question 19 of a width and so many record bytes. */
static int columns_fit(uint32_t width, size_t size)
{
    return width >= 1 && width <= WIDTH_MAX && size % width == 0;
}

/* Byte c of record i stands in column c, in place i. */
static size_t column_place(size_t c, size_t i, size_t records)
{
    return 1 + c * records + i;
}

/* The stored form; its first byte is the width. */
static void to_columns(uint8_t *stored, const uint8_t *records, size_t size,
                       uint32_t width)
{
    size_t count = size / width;

    stored[0] = (uint8_t)width;
    for (size_t i = 0; i < count; i++)
        for (size_t c = 0; c < width; c++)
            stored[column_place(c, i, count)] = records[i * width + c];
}

static void to_records(uint8_t *records, const uint8_t *stored, size_t size,
                       uint32_t width)
{
    size_t count = size / width;

    for (size_t i = 0; i < count; i++)
        for (size_t c = 0; c < width; c++)
            records[i * width + c] = stored[column_place(c, i, count)];
}

/* The stored form, to be freed. What is longer than the image is refused before
 * a byte of it is read: NULL. */
static uint8_t *make_columns(const uint8_t *records, size_t records_len,
                             uint32_t width, size_t image_len)
{
    uint8_t *stored = NULL;

    if (records_len < image_len) {
        stored = malloc(1 + records_len);
        if (stored == NULL)
            abort();
        to_columns(stored, records, records_len, width);
    }
    return stored;
}

uint32_t plain_store_columns(uint8_t *image, size_t image_len,
                             const uint8_t *key, size_t key_len,
                             const uint8_t *records, size_t records_len,
                             uint32_t width)
{
    struct view v;
    uint8_t *stored;
    uint32_t answer = open_image(&v, image, image_len);

    if (answer == ACCEPTED && !key_fits(&v, key, key_len))
        answer = 7;
    if (answer != ACCEPTED)
        return answer;
    if (!columns_fit(width, records_len))
        return 19;
    stored = make_columns(records, records_len, width, image_len);
    answer = plain_add(image, image_len, key, key_len, stored,
                       1 + records_len, MODE_REPLACE);
    free(stored);
    return answer;
}

/* The records of the message that a lookup shows which gave that answer. */
static uint32_t fill_records(uint32_t answer, const uint8_t *image,
                             uint32_t offset, uint32_t length, uint8_t *out,
                             size_t out_len, uint32_t *bytes)
{
    uint32_t width = length == 0 ? 0 : image[offset];
    uint32_t size = length == 0 ? 0 : length - 1;

    *bytes = 0;
    if (answer != ACCEPTED)
        return answer;
    if (!columns_fit(width, size) || out_len < size)
        return 19;
    to_records(out, image + offset, size, width);
    *bytes = size;
    return ACCEPTED;
}

uint32_t plain_read_columns(const uint8_t *image, size_t image_len,
                            const uint8_t *key, size_t key_len, uint8_t *out,
                            size_t out_len, uint32_t *bytes)
{
    uint32_t offset, length;
    uint32_t answer = plain_lookup(image, image_len, key, key_len, &offset,
                                   &length);

    return fill_records(answer, image, offset, length, out, out_len, bytes);
}

/* ---- names in ranges ---- */

/* Question 22: as many ranges as a key has bytes, none turned round. */
static int ranges_fit(const struct view *v, const uint8_t *lowest,
                      size_t lowest_len, const uint8_t *highest,
                      size_t highest_len)
{
    if (lowest_len != v->key_size || highest_len != v->key_size)
        return 0;
    for (uint32_t i = 0; i < v->key_size; i++)
        if (lowest[i] > highest[i])
            return 0;
    return 1;
}

static int in_ranges(const struct view *v, uint32_t slot,
                     const uint8_t *lowest, const uint8_t *highest)
{
    const uint8_t *key = key_in(v, slot);

    for (uint32_t i = 0; i < v->key_size; i++)
        if (key[i] < lowest[i] || key[i] > highest[i])
            return 0;
    return 1;
}

uint32_t plain_select(const uint8_t *image, size_t image_len,
                      const uint8_t *lowest, size_t lowest_len,
                      const uint8_t *highest, size_t highest_len,
                      uint8_t *list, size_t list_len, uint32_t *found)
{
    struct view v;
    uint32_t answer = open_image(&v, image, image_len);

    *found = 0;
    if (answer != ACCEPTED)
        return answer;
    if (!ranges_fit(&v, lowest, lowest_len, highest, highest_len))
        return 22;
    if (list_len < SLOT_NUMBER * (size_t)v.slots)
        return 16;
    for (uint32_t slot = 0; slot < v.slots; slot++) {
        if (!is_taken(&v, slot) || !in_ranges(&v, slot, lowest, highest))
            continue;
        put32(list + SLOT_NUMBER * (size_t)*found, slot);
        ++*found;
    }
    return ACCEPTED;
}

/* ---- epochs ---- */

static uint32_t epoch_in(const struct view *v, uint32_t slot)
{
    return get32(key_in(v, slot) + v->key_size - EPOCH_SIZE);
}

/* An entry of that name, from the given epoch or before. */
static int is_candidate(const struct view *v, uint32_t slot,
                        const uint8_t *name, uint32_t epoch)
{
    size_t size = v->key_size - EPOCH_SIZE;

    return is_taken(v, slot) && memcmp(key_in(v, slot), name, size) == 0 &&
           epoch_in(v, slot) <= epoch;
}

/* The candidate with the largest epoch, the lowest slot if two; N for none. */
static uint32_t choose(const struct view *v, const uint8_t *name,
                       uint32_t epoch)
{
    uint32_t chosen = v->slots;

    for (uint32_t i = 0; i < v->slots; i++) {
        if (!is_candidate(v, i, name, epoch))
            continue;
        if (chosen == v->slots || epoch_in(v, i) > epoch_in(v, chosen))
            chosen = i;
    }
    return chosen;
}

/* Questions 23 and 7. */
static uint32_t ask_name(const struct view *v, size_t name_len)
{
    if (v->key_size <= EPOCH_SIZE)
        return 23;
    return name_len == v->key_size - EPOCH_SIZE ? ACCEPTED : 7;
}

uint32_t plain_at_epoch(const uint8_t *image, size_t image_len,
                        const uint8_t *name, size_t name_len, uint32_t epoch,
                        uint32_t *shown, uint32_t *offset, uint32_t *length)
{
    struct view v;
    struct message m;
    uint32_t chosen;
    uint32_t answer = open_image(&v, image, image_len);

    *shown = 0;
    *offset = 0;
    *length = 0;
    if (answer == ACCEPTED)
        answer = ask_name(&v, name_len);
    if (answer != ACCEPTED)
        return answer;
    chosen = choose(&v, name, epoch);
    if (chosen == v.slots)
        return 14;
    if (!read_message(&v, message_in(&v, chosen), &m))
        return 11;
    *shown = epoch_in(&v, chosen);
    if (m.active)
        *offset = m.offset + v.header_size, *length = m.length;
    return ACCEPTED;
}

/* ---- growth ---- */

/* Two images, opened: the points go from the old one to the new one. */
struct pair {
    struct view old;
    struct view new;
};

/* Of one kind: major version and K. */
static int same_kind(const struct pair *p)
{
    return is_version_2(p->old.image) == is_version_2(p->new.image) &&
           p->old.key_size == p->new.key_size;
}

/* Questions 1, 5 and 6 of the old image, then 21. */
static uint32_t open_pair(struct pair *p, const uint8_t *old, size_t old_len,
                          const uint8_t *new, size_t new_len)
{
    uint32_t answer = open_image(&p->old, old, old_len);

    if (answer != ACCEPTED)
        return answer;
    if (open_image(&p->new, new, new_len) != ACCEPTED || !same_kind(p))
        return 21;
    return ACCEPTED;
}

/* Question 21 of a start. */
static int second_fits(struct pair *p, const uint8_t *new, size_t new_len,
                       uint64_t needed)
{
    uint32_t verdict, slot;

    if (plain_check(new, new_len, &verdict, &slot) != ACCEPTED || verdict != 0)
        return 0;
    open_image(&p->new, new, new_len);
    return p->new.count == 0 && p->new.next == p->new.data && same_kind(p) &&
           p->new.slots > p->old.slots &&
           needed <= p->new.length - p->new.data;
}

/* What an active message that passes 11 takes, header and all, or 0. The letter
 * at gone is read as inactive, whatever it is part of. */
static uint64_t active_size(const struct view *v, uint32_t offset,
                            uint32_t gone)
{
    uint8_t header[LONG_MESSAGE_HEADER];
    uint32_t last = v->next - v->header_size;
    uint32_t length;

    if (v->data > offset || offset > last)
        return 0;
    memcpy(header, v->image + offset, v->header_size);
    if (gone >= offset && gone - offset < v->header_size)
        header[gone - offset] = 'd';
    length = get_length(header, v->header_size);
    if (header[0] != 'a' || length > last - offset)
        return 0;
    return v->header_size + (uint64_t)length;
}

/* The sum over the taken slots but one, with a letter read as inactive; N and 0
 * for no such slot and letter. */
static uint64_t active_space(const struct view *v, uint32_t but, uint32_t gone)
{
    uint64_t sum = 0;

    for (uint32_t i = 0; i < v->slots; i++)
        if (i != but && is_taken(v, i))
            sum += active_size(v, message_in(v, i), gone);
    return sum;
}

uint32_t plain_grow(const uint8_t *old, size_t old_len, const uint8_t *new,
                    size_t new_len)
{
    struct pair p;
    uint32_t answer = ask_sound(old, old_len);

    if (answer != ACCEPTED)
        return answer;
    open_image(&p.old, old, old_len);
    if (!second_fits(&p, new, new_len, active_space(&p.old, p.old.slots, 0)))
        return 21;
    return ACCEPTED;
}

/* A point of the old image on its way. */
struct traveller {
    uint32_t slot;
    struct message message;
    struct found there; /* where its search ends in the new image */
};

/* 01's questions of a move: 11, then 9, 10, 12 and 13 of the new image alone. */
static uint32_t ask_move(const struct pair *p, uint32_t slot,
                         struct traveller *t)
{
    t->slot = slot;
    if (!read_message(&p->old, message_in(&p->old, slot), &t->message) ||
        p->old.count < 1)
        return 11;
    t->there = search(&p->new, key_in(&p->old, slot));
    if (t->there.ending == MET)
        return 9;
    if (t->there.ending == EXHAUSTED || p->new.count >= p->new.slots)
        return 10;
    if (!t->message.active)
        return ACCEPTED;
    return ask_room(&p->new, 0, t->message.length);
}

/* Added there, an inactive message as none; its slot here deleted. */
static void move_point(struct pair *p, uint8_t *old, uint8_t *new,
                       const struct traveller *t)
{
    const struct text none = { NULL, 0 };
    struct text text = { NULL, t->message.length };
    uint32_t offset = 0;

    if (t->message.active) {
        text.bytes = old + t->message.offset + p->old.header_size;
        offset = place(new, &p->new, none, text);
        mark_note(new, text, MODE_NEW);
    }
    write_slot(new, &p->new, t->there.slot, key_in(&p->old, t->slot), offset);
    put32(new + AT_COUNT, p->new.count + 1);
    retire(old, &t->message);
    put32(old + AT_COUNT, p->old.count - 1);
    zero_slot(old, &p->old, t->slot);
    close_hole(old, &p->old, t->slot);
    read_header(&p->old);
    read_header(&p->new);
}

static uint32_t lowest_taken(const struct view *v)
{
    uint32_t slot = 0;

    while (slot < v->slots && !is_taken(v, slot))
        slot++;
    return slot;
}

/* So many points, from the lowest taken slot each; a refusal ends it. */
static void move_some(struct pair *p, uint8_t *old, uint8_t *new)
{
    struct traveller t;

    read_header(&p->new);
    for (uint32_t i = 0; i < MOVES; i++) {
        uint32_t slot = lowest_taken(&p->old);

        if (slot == p->old.slots || ask_move(p, slot, &t) != ACCEPTED)
            return;
        move_point(p, old, new, &t);
    }
}

/* The point that a call names, as its other questions find it: moved, if it is
 * in the old image, though nothing is written yet. */
struct named {
    int moves;
    struct traveller traveller;
    struct found found; /* in the new image, if it does not move */
    struct message message; /* in the new image */
    int message_fits;       /* question 11 */
};

/* Where it stands; its move's number, which refuses the call. */
static uint32_t ask_named(const struct pair *p, const uint8_t *key,
                          struct named *n)
{
    struct found here = search(&p->old, key);

    memset(n, 0, sizeof *n);
    n->message_fits = 1;
    n->moves = here.ending == MET;
    if (n->moves) {
        uint32_t answer = ask_move(p, here.slot, &n->traveller);

        if (n->traveller.message.active)
            n->message = n->traveller.message;
        return answer;
    }
    n->found = search(&p->new, key);
    if (n->found.ending == MET)
        n->message_fits = read_message(
            &p->new, message_in(&p->new, n->found.slot), &n->message);
    return ACCEPTED;
}

/* U of the call's own 13: what is in the new image, and in the old one active,
 * as the named point's move leaves both. */
static uint64_t used_by_both(const struct pair *p, const struct named *n)
{
    const struct traveller *t = &n->traveller;
    uint64_t used = p->new.next - p->new.data;

    if (!n->moves)
        return used + active_space(&p->old, p->old.slots, 0);
    if (t->message.active)
        used += p->new.header_size + (uint64_t)t->message.length;
    return used + active_space(&p->old, t->slot, t->message.offset);
}

/* Questions 12 and 13 of both, for kept old bytes and m new ones. */
static uint32_t ask_room_of_both(const struct pair *p, const struct named *n,
                                 uint32_t kept, size_t m)
{
    uint64_t room = p->new.length - p->new.data;
    uint64_t needed = p->new.header_size + (uint64_t)kept + m;

    if (m > p->new.message_max || kept + m > p->new.message_max)
        return 12;
    return used_by_both(p, n) + needed > room ? 13 : ACCEPTED;
}

/* Add's other questions of an absent name: 10 with both C, 12 and 13. */
static uint32_t ask_absent(const struct pair *p, const struct named *n,
                           size_t m, uint32_t mode)
{
    uint64_t points = (uint64_t)p->old.count + p->new.count;

    if (n->found.ending == EXHAUSTED || points >= p->new.slots)
        return 10;
    if (m == 0 && mode == MODE_APPEND)
        return ACCEPTED;
    return ask_room_of_both(p, n, 0, m);
}

/* Of a point that is there, or will be. */
static uint32_t ask_present_in(const struct pair *p, const struct named *n,
                               size_t m, uint32_t mode)
{
    const int is_new = mode == MODE_NEW;

    if (is_new)
        return 9;
    if (!n->message_fits)
        return 11;
    if (mode == MODE_WITHDRAW || (mode == MODE_APPEND && m == 0))
        return ACCEPTED;
    if (mode == MODE_APPEND)
        return ask_room_of_both(p, n, n->message.active ? n->message.length : 0,
                                m);
    if (n->message.offset != 0 && m <= n->message.length)
        return ACCEPTED;
    return ask_room_of_both(p, n, 0, m);
}

/* The named point's move, and the call's other questions. */
static uint32_t ask_pair_add(const struct pair *p, const uint8_t *key,
                             size_t m, uint32_t mode, struct named *n)
{
    uint32_t answer = ask_named(p, key, n);

    if (answer != ACCEPTED)
        return answer;
    if (n->moves || n->found.ending == MET)
        return ask_present_in(p, n, m, mode);
    return mode == MODE_WITHDRAW ? 14 : ask_absent(p, n, m, mode);
}

/* An accepted add: the named point's move, the add, and the other moves. */
static void add_to_pair(struct pair *p, uint8_t *old, uint8_t *new,
                        const struct named *n, const uint8_t *key,
                        struct text text, uint32_t mode)
{
    if (n->moves)
        move_point(p, old, new, &n->traveller);
    plain_add(new, p->new.length, key, p->new.key_size, text.bytes,
              text.length, mode);
    move_some(p, old, new);
}

uint32_t plain_grow_add(uint8_t *old, size_t old_len, uint8_t *new,
                        size_t new_len, const uint8_t *key, size_t key_len,
                        const uint8_t *data, size_t data_len, uint32_t mode)
{
    const struct text text = { .bytes = data, .length = data_len };
    struct pair p;
    struct named n;
    uint32_t answer = open_pair(&p, old, old_len, new, new_len);

    if (answer == ACCEPTED && !key_fits(&p.old, key, key_len))
        answer = 7;
    if (answer == ACCEPTED && !mode_fits(mode))
        answer = 8;
    if (answer == ACCEPTED)
        answer = ask_pair_add(&p, key, data_len, mode, &n);
    if (answer == ACCEPTED)
        add_to_pair(&p, old, new, &n, key, text, mode);
    return answer;
}

/* An add in mode 2 of the stored form, with 19 after 7. */
uint32_t plain_grow_store_columns(uint8_t *old, size_t old_len, uint8_t *new,
                                  size_t new_len, const uint8_t *key,
                                  size_t key_len, const uint8_t *records,
                                  size_t records_len, uint32_t width)
{
    struct text text = { NULL, 1 + records_len };
    struct pair p;
    struct named n;
    uint8_t *columns;
    uint32_t answer = open_pair(&p, old, old_len, new, new_len);

    if (answer == ACCEPTED && !key_fits(&p.old, key, key_len))
        answer = 7;
    if (answer == ACCEPTED)
        answer = columns_fit(width, records_len) ? ACCEPTED : 19;
    if (answer == ACCEPTED)
        answer = ask_pair_add(&p, key, text.length, MODE_REPLACE, &n);
    if (answer != ACCEPTED)
        return answer;
    columns = make_columns(records, records_len, width, new_len);
    text.bytes = columns;
    add_to_pair(&p, old, new, &n, key, text, MODE_REPLACE);
    free(columns);
    return ACCEPTED;
}

uint32_t plain_grow_delete(uint8_t *old, size_t old_len, uint8_t *new,
                           size_t new_len, const uint8_t *key, size_t key_len)
{
    struct pair p;
    struct named n;
    uint32_t answer = open_pair(&p, old, old_len, new, new_len);

    if (answer == ACCEPTED && !key_fits(&p.old, key, key_len))
        answer = 7;
    if (answer == ACCEPTED)
        answer = ask_named(&p, key, &n);
    if (answer != ACCEPTED)
        return answer;
    if (!n.moves && n.found.ending != MET)
        return 14;
    if (!n.moves && (!n.message_fits || p.new.count < 1))
        return 11;
    if (n.moves)
        move_point(&p, old, new, &n.traveller);
    plain_delete(new, new_len, key, key_len);
    move_some(&p, old, new);
    return ACCEPTED;
}

/* In the old image if it is there, else in the new one. */
uint32_t plain_grow_lookup(const uint8_t *old, size_t old_len,
                           const uint8_t *new, size_t new_len,
                           const uint8_t *key, size_t key_len,
                           uint32_t *in_new, uint32_t *offset,
                           uint32_t *length)
{
    struct pair p;
    uint32_t answer = open_pair(&p, old, old_len, new, new_len);

    *in_new = 0;
    *offset = 0;
    *length = 0;
    if (answer == ACCEPTED && !key_fits(&p.old, key, key_len))
        answer = 7;
    if (answer != ACCEPTED)
        return answer;
    if (search(&p.old, key).ending == MET)
        return plain_lookup(old, old_len, key, key_len, offset, length);
    answer = plain_lookup(new, new_len, key, key_len, offset, length);
    *in_new = *offset != 0;
    return answer;
}

uint32_t plain_grow_count(const uint8_t *old, size_t old_len,
                          const uint8_t *new, size_t new_len, uint32_t *count)
{
    struct pair p;
    uint32_t answer = open_pair(&p, old, old_len, new, new_len);

    *count = answer == ACCEPTED ? p.old.count + p.new.count : 0;
    return answer;
}

uint32_t plain_grow_read_columns(const uint8_t *old, size_t old_len,
                                 const uint8_t *new, size_t new_len,
                                 const uint8_t *key, size_t key_len,
                                 uint8_t *out, size_t out_len,
                                 uint32_t *bytes)
{
    uint32_t in_new, offset, length;
    uint32_t answer = plain_grow_lookup(old, old_len, new, new_len, key,
                                        key_len, &in_new, &offset, &length);

    return fill_records(answer, in_new ? new : old, offset, length, out,
                        out_len, bytes);
}

/* Lists an image's slots in the ranges; how many. */
static uint32_t list_slots(const struct view *v, const uint8_t *lowest,
                           const uint8_t *highest, uint8_t *list)
{
    uint32_t listed = 0;

    for (uint32_t i = 0; i < v->slots; i++)
        if (is_taken(v, i) && in_ranges(v, i, lowest, highest))
            put32(list + SLOT_NUMBER * (size_t)listed++, i);
    return listed;
}

/* The old image's first. */
uint32_t plain_grow_select(const uint8_t *old, size_t old_len,
                           const uint8_t *new, size_t new_len,
                           const uint8_t *lowest, size_t lowest_len,
                           const uint8_t *highest, size_t highest_len,
                           uint8_t *list, size_t list_len,
                           uint32_t *old_found, uint32_t *new_found)
{
    struct pair p;
    size_t slots;
    uint32_t answer = open_pair(&p, old, old_len, new, new_len);

    *old_found = 0;
    *new_found = 0;
    if (answer == ACCEPTED &&
        !ranges_fit(&p.old, lowest, lowest_len, highest, highest_len))
        answer = 22;
    if (answer != ACCEPTED)
        return answer;
    slots = (size_t)p.old.slots + p.new.slots;
    if (list_len < SLOT_NUMBER * slots)
        return 16;
    *old_found = list_slots(&p.old, lowest, highest, list);
    *new_found = list_slots(&p.new, lowest, highest,
                            list + SLOT_NUMBER * (size_t)*old_found);
    return ACCEPTED;
}

/* Does the new image have the entry: the old one none, or an earlier one? */
static int later_in_new(const struct pair *p, const uint8_t *name,
                        uint32_t epoch)
{
    uint32_t here = choose(&p->old, name, epoch);
    uint32_t there = choose(&p->new, name, epoch);

    if (there == p->new.slots)
        return 0;
    return here == p->old.slots ||
           epoch_in(&p->new, there) > epoch_in(&p->old, here);
}

uint32_t plain_grow_at_epoch(const uint8_t *old, size_t old_len,
                             const uint8_t *new, size_t new_len,
                             const uint8_t *name, size_t name_len,
                             uint32_t epoch, uint32_t *shown,
                             uint32_t *in_new, uint32_t *offset,
                             uint32_t *length)
{
    struct pair p;
    int there;
    uint32_t answer = open_pair(&p, old, old_len, new, new_len);

    *shown = *in_new = *offset = *length = 0;
    if (answer == ACCEPTED)
        answer = ask_name(&p.old, name_len);
    if (answer != ACCEPTED)
        return answer;
    there = later_in_new(&p, name, epoch);
    answer = plain_at_epoch(there ? new : old, there ? new_len : old_len, name,
                            name_len, epoch, shown, offset, length);
    *in_new = there && *offset != 0;
    return answer;
}

/* ---- what changed ---- */

/* The first place from at on where the bytes differ, or the length. */
static size_t next_change(const uint8_t *old, const uint8_t *new, size_t at,
                          size_t length)
{
    while (length - at >= PAGE && memcmp(old + at, new + at, PAGE) == 0)
        at += PAGE;
    while (at < length && old[at] == new[at])
        at++;
    return at;
}

/* Where the run of changed bytes that begins at a place ends. */
static size_t run_end(const uint8_t *old, const uint8_t *new, size_t at,
                      size_t length)
{
    while (at < length && old[at] != new[at])
        at++;
    return at;
}

/* The next run of any two slices, from a place on. */
size_t plain_next_change(const uint8_t *before, size_t before_len,
                         const uint8_t *after, size_t after_len, size_t from,
                         size_t *size)
{
    size_t shorter = before_len < after_len ? before_len : after_len;
    size_t start = from < shorter ? from : shorter;
    size_t first = next_change(before, after, start, shorter);

    *size = run_end(before, after, first, shorter) - first;
    return first;
}

static size_t count_runs(const uint8_t *old, const uint8_t *new,
                         size_t length)
{
    size_t runs = 0;
    size_t at = next_change(old, new, 0, length);

    while (at < length) {
        runs++;
        at = next_change(old, new, run_end(old, new, at, length), length);
    }
    return runs;
}

static uint8_t *write_pair(uint8_t *to, size_t offset, size_t length)
{
    put32(to, (uint32_t)offset);
    put32(to + 4, (uint32_t)length);
    return to + PAIR;
}

static void write_runs(uint8_t *to, const uint8_t *old, const uint8_t *new,
                       size_t length)
{
    size_t at = next_change(old, new, 0, length);

    while (at < length) {
        size_t end = run_end(old, new, at, length);

        to = write_pair(to, at, end - at);
        at = next_change(old, new, end, length);
    }
}

/* All runs, or, where they do not fit, the whole image; how many pairs. */
static uint32_t write_list(uint8_t *list, size_t list_len, const uint8_t *old,
                           const uint8_t *new, size_t length)
{
    size_t runs = count_runs(old, new, length);

    if (runs > list_len / PAIR) {
        write_pair(list, 0, length);
        return 1;
    }
    write_runs(list, old, new, length);
    return (uint32_t)runs;
}

/* ---- the forms that list what changed ---- */

/* Question 16; then the working slice has the image before the call. */
static uint32_t begin_listed(const uint8_t *image, size_t image_len,
                             uint8_t *work, size_t work_len, size_t list_len,
                             uint32_t *pairs)
{
    *pairs = 0;
    if (list_len < PAIR || work_len < image_len)
        return 16;
    copy(work, image, image_len);
    return ACCEPTED;
}

/* What an accepted call changed. */
static uint32_t end_listed(uint32_t answer, const uint8_t *image,
                           size_t image_len, const uint8_t *work,
                           uint8_t *list, size_t list_len, uint32_t *pairs)
{
    if (answer == ACCEPTED)
        *pairs = write_list(list, list_len, work, image, image_len);
    return answer;
}

uint32_t plain_add_listed(uint8_t *image, size_t image_len,
                          const uint8_t *key, size_t key_len,
                          const uint8_t *data, size_t data_len, uint32_t mode,
                          uint8_t *work, size_t work_len, uint8_t *list,
                          size_t list_len, uint32_t *pairs)
{
    uint32_t answer = begin_listed(image, image_len, work, work_len, list_len,
                                   pairs);

    if (answer == ACCEPTED)
        answer = plain_add(image, image_len, key, key_len, data, data_len,
                           mode);
    return end_listed(answer, image, image_len, work, list, list_len, pairs);
}

uint32_t plain_delete_listed(uint8_t *image, size_t image_len,
                             const uint8_t *key, size_t key_len,
                             uint8_t *work, size_t work_len, uint8_t *list,
                             size_t list_len, uint32_t *pairs)
{
    uint32_t answer = begin_listed(image, image_len, work, work_len, list_len,
                                   pairs);

    if (answer == ACCEPTED)
        answer = plain_delete(image, image_len, key, key_len);
    return end_listed(answer, image, image_len, work, list, list_len, pairs);
}

uint32_t plain_compact_listed(uint8_t *image, size_t image_len, uint8_t *work,
                              size_t work_len, uint8_t *list, size_t list_len,
                              uint32_t *pairs)
{
    uint32_t answer = begin_listed(image, image_len, work, work_len, list_len,
                                   pairs);

    if (answer == ACCEPTED)
        answer = plain_compact(image, image_len);
    return end_listed(answer, image, image_len, work, list, list_len, pairs);
}

/* ---- the forms that a cut does not harm ---- */

/* How long a journal's content is: the count, the pairs, the new bytes. */
static uint64_t content_size(const uint8_t *old, const uint8_t *new,
                             size_t length)
{
    uint64_t size = PAIR_COUNT;
    size_t at = next_change(old, new, 0, length);

    while (at < length) {
        size_t end = run_end(old, new, at, length);

        size += PAIR + (end - at);
        at = next_change(old, new, end, length);
    }
    return size;
}

static void write_new_bytes(uint8_t *to, const uint8_t *old,
                            const uint8_t *new, size_t length)
{
    size_t at = next_change(old, new, 0, length);

    while (at < length) {
        size_t end = run_end(old, new, at, length);

        copy(to, new + at, end - at);
        to += end - at;
        at = next_change(old, new, end, length);
    }
}

static void write_content(uint8_t *journal, const uint8_t *old,
                          const uint8_t *new, size_t length)
{
    size_t runs = count_runs(old, new, length);

    put32(journal, (uint32_t)runs);
    write_runs(journal + PAIR_COUNT, old, new, length);
    write_new_bytes(journal + PAIR_COUNT + PAIR * runs, old, new, length);
}

/* Each stretch, from the journal into the image. */
static void write_back(uint8_t *image, const uint8_t *journal)
{
    uint32_t count = get32(journal);
    const uint8_t *pair = journal + PAIR_COUNT;
    const uint8_t *from = pair + (size_t)count * PAIR;

    for (uint32_t i = 0; i < count; i++, pair += PAIR) {
        copy(image + get32(pair), from, get32(pair + 4));
        from += get32(pair + 4);
    }
}

/* Question 16; then the working slice is a copy on which the call is made. */
static uint32_t begin_journaled(const uint8_t *image, size_t image_len,
                                uint8_t *fresh, size_t work_len)
{
    if (work_len < image_len)
        return 16;
    copy(fresh, image, image_len);
    return ACCEPTED;
}

/* Question 17; then the image becomes what an accepted call left in the working
 * slice. */
static uint32_t end_journaled(uint32_t answer, uint8_t *image,
                              size_t image_len, const uint8_t *work,
                              uint8_t *journal, size_t journal_len)
{
    uint8_t *mark;

    if (answer != ACCEPTED)
        return answer;
    if (journal_len <= content_size(image, work, image_len) ||
        journal[journal_len - 1] != 0)
        return 17;
    mark = journal + journal_len - 1;
    write_content(journal, image, work, image_len);
    *mark = MARK;
    write_back(image, journal);
    *mark = 0;
    return ACCEPTED;
}

uint32_t plain_add_journaled(uint8_t *image, size_t image_len,
                             const uint8_t *key, size_t key_len,
                             const uint8_t *data, size_t data_len,
                             uint32_t mode, uint8_t *work, size_t work_len,
                             uint8_t *journal, size_t journal_len)
{
    uint32_t answer = begin_journaled(image, image_len, work, work_len);

    if (answer == ACCEPTED)
        answer = plain_add(work, image_len, key, key_len, data, data_len,
                           mode);
    return end_journaled(answer, image, image_len, work, journal,
                         journal_len);
}

uint32_t plain_delete_journaled(uint8_t *image, size_t image_len,
                                const uint8_t *key, size_t key_len,
                                uint8_t *work, size_t work_len,
                                uint8_t *journal, size_t journal_len)
{
    uint32_t answer = begin_journaled(image, image_len, work, work_len);

    if (answer == ACCEPTED)
        answer = plain_delete(work, image_len, key, key_len);
    return end_journaled(answer, image, image_len, work, journal,
                         journal_len);
}

uint32_t plain_compact_journaled(uint8_t *image, size_t image_len,
                                 uint8_t *work, size_t work_len,
                                 uint8_t *journal, size_t journal_len)
{
    uint32_t answer = begin_journaled(image, image_len, work, work_len);

    if (answer == ACCEPTED)
        answer = plain_compact(work, image_len);
    return end_journaled(answer, image, image_len, work, journal,
                         journal_len);
}

/* ---- recovery ---- */

/* Question 18 of a marked journal: its content ends before the mark, and each
 * pair stays in the image and begins behind the last one. */
static int content_fits(const uint8_t *journal, size_t mark, size_t image_len)
{
    uint64_t size = PAIR_COUNT;
    size_t end = 0;
    uint32_t count;

    if (mark < PAIR_COUNT)
        return 0;
    count = get32(journal);
    size += (uint64_t)count * PAIR;
    if (size > mark)
        return 0;
    for (uint32_t i = 0; i < count; i++) {
        const uint8_t *pair = journal + PAIR_COUNT + (size_t)i * PAIR;
        size_t at = get32(pair), length = get32(pair + 4);

        if (at < end || at > image_len || length > image_len - at)
            return 0;
        end = at + length;
        size += length;
    }
    return size <= mark;
}

uint32_t plain_recover(uint8_t *image, size_t image_len, uint8_t *journal,
                       size_t journal_len)
{
    size_t mark = journal_len - 1;

    if (journal_len == 0)
        return 18;
    if (journal[mark] == MARK && !content_fits(journal, mark, image_len))
        return 18;
    if (journal[mark] == MARK)
        write_back(image, journal);
    if (journal[mark] != 0)
        journal[mark] = 0;
    return ACCEPTED;
}
