/* Images, keys, data and other slices that end where an unreadable page
 * begins. */
#define _DEFAULT_SOURCE

#include "parts.h"

#include <stdio.h>
#include <stdlib.h>
#include <string.h>
#include <sys/mman.h>

#define ROOM (GIB + 16 * PAGE) /* bytes kept for one image */

struct lent lent;
struct lent older;
struct slice work;
struct slice listing;
struct slice journal;
struct slice filled;
struct slice target;
uint8_t *data_start;
size_t data_size;
uint8_t *even_start;
uint8_t *key_end;
uint8_t *lowest_end;
uint8_t *highest_end;

static void *map(size_t size, int flags)
{
    void *at = mmap(NULL, size, PROT_READ | PROT_WRITE,
                    MAP_PRIVATE | MAP_ANONYMOUS | flags, -1, 0);

    return at == MAP_FAILED ? NULL : at;
}

/* The end of size writable bytes, with an unreadable page behind. Only what is
 * touched takes memory. */
static uint8_t *map_before_wall(size_t size)
{
    uint8_t *at = map(size + PAGE, MAP_NORESERVE);

    if (at == NULL || mprotect(at + size, PAGE, PROT_NONE) != 0) {
        fprintf(stderr, "no memory\n");
        exit(2);
    }
    return at + size;
}

static void fill_random(uint8_t *at, size_t size)
{
    static const uint8_t usual[] = "ad\0\0\1\2 ~";

    for (size_t i = 0; i < size; i++) {
        uint32_t r = random32();

        at[i] = r & 256 ? usual[r & 7] : (uint8_t)r;
    }
}

/* Data is lent from one read-only mapping, over 4 GiB long where the machine
 * allows, so that lengths that do not fit 32 bits can be lent too. */
static void map_data(void)
{
    data_size = (size_t)((uint64_t)POOL + TAIL + (UINT64_C(1) << 32));
    data_start = data_size > POOL ? map(data_size + PAGE, MAP_NORESERVE)
                                  : NULL;
    if (data_start == NULL) {
        data_size = POOL;
        data_start = map(data_size + PAGE, 0);
    }
    if (data_start == NULL)
        exit(2);
    fill_random(data_start, POOL);
    fill_random(data_start + data_size - TAIL, TAIL);
    mprotect(data_start, data_size, PROT_READ);
    mprotect(data_start + data_size, PAGE, PROT_NONE);
}

/* Data of one repeated byte: what it changes is one long run, where random
 * bytes are now and then what was there. */
static void map_even(void)
{
    static const uint8_t bytes[EVENS] = { 'x', 'y', 255 };

    even_start = map_before_wall(EVENS * EVEN) - EVENS * EVEN;
    for (uint32_t i = 0; i < EVENS; i++)
        memset(even_start + i * EVEN, bytes[i], EVEN);
    mprotect(even_start, EVENS * EVEN, PROT_READ);
}

/* Where the machine allows, lengths that do not fit 32 bits can be lent. */
static void map_slice(struct slice *s)
{
    size_t size = ROOM + (data_size > POOL ? data_size - POOL : 0);

    s->library_end = map_before_wall(size);
    s->plain_end = map_before_wall(size);
    s->before = map(SEEN_MOST, MAP_NORESERVE);
}

static void map_image(struct lent *l)
{
    l->library_end = map_before_wall(ROOM);
    l->plain_end = map_before_wall(ROOM);
    l->before = map(ROOM, MAP_NORESERVE);
    l->scratch = map(ROOM, MAP_NORESERVE);
}

void map_all(void)
{
    map_image(&lent);
    map_image(&older);
    key_end = map_before_wall(PAGE);
    lowest_end = map_before_wall(PAGE);
    highest_end = map_before_wall(PAGE);
    map_data();
    map_even();
    map_slice(&work);
    map_slice(&listing);
    map_slice(&journal);
    map_slice(&filled);
    map_slice(&target);
}

static uint32_t choose_shift(void)
{
    static const uint32_t shifts[] = { 0, 0, 0, 1, 2, 7 };

    return PICK(shifts);
}

static void set_guards(uint8_t *at, size_t length, uint32_t shift)
{
    memset(at - GUARD, GUARD_BYTE, GUARD);
    memset(at + length, GUARD_BYTE, shift);
}

static int all_guard(const uint8_t *at, uint32_t size)
{
    for (uint32_t i = 0; i < size; i++)
        if (at[i] != GUARD_BYTE)
            return 0;
    return 1;
}

int guards_hold(const uint8_t *at, size_t length, uint32_t shift)
{
    return all_guard(at - GUARD, GUARD) && all_guard(at + length, shift);
}

static void set_length_of(struct lent *l, uint32_t length)
{
    l->length = length;
    l->shift = choose_shift();
    l->library = l->library_end - l->shift - length;
    l->plain = l->plain_end - l->shift - length;
    set_guards(l->library, length, l->shift);
}

void set_length(uint32_t length)
{
    set_length_of(&lent, length);
}

void set_old_length(uint32_t length)
{
    set_length_of(&older, length);
}

/* A longer slice than the image starts in the bytes before it; one of 4 GiB
 * and more, of which nothing is there and nothing may be read, at the image. */
uint8_t *slice_of(const struct lent *l, uint8_t *image, size_t length)
{
    if (length > UINT32_MAX)
        return image;
    return length > l->length ? image + l->length - length : image;
}

void lend_slice(struct slice *s, size_t length)
{
    s->length = length;
    s->shift = choose_shift();
    s->library = s->library_end - s->shift - length;
    s->plain = s->plain_end - s->shift - length;
    set_guards(s->library, length, s->shift);
}

/* Random bytes, however many. */
static void fill_from_pool(uint8_t *to, size_t size)
{
    size_t piece;

    for (size_t at = 0; at < size; at += piece) {
        piece = size - at < MIB16 ? size - at : MIB16;
        memcpy(to + at, data_start + below((uint32_t)(POOL - piece + 1)),
               piece);
    }
}

size_t seen_of(const struct slice *s)
{
    return s->length < SEEN_MOST ? s->length : SEEN_MOST;
}

void fill_slice(struct slice *s)
{
    size_t seen = seen_of(s);

    fill_from_pool(s->library, seen);
    memcpy(s->plain, s->library, seen);
    memcpy(s->before, s->library, seen);
}

void share_image(void)
{
    memcpy(lent.plain, lent.library, lent.length);
    memcpy(lent.before, lent.library, lent.length);
}

void old_content(void)
{
    fill_from_pool(lent.library, lent.length);
    share_image();
}

void poke(size_t offset, uint8_t value)
{
    if (offset >= lent.length)
        return;
    lent.library[offset] = value;
    lent.plain[offset] = value;
    lent.before[offset] = value;
}

void poke32(size_t offset, uint32_t value)
{
    for (int i = 0; i < 4; i++)
        poke(offset + (size_t)i, (uint8_t)(value >> (24 - 8 * i)));
}

uint32_t get32(const uint8_t *at)
{
    return (uint32_t)at[0] << 24 | (uint32_t)at[1] << 16 |
           (uint32_t)at[2] << 8 | (uint32_t)at[3];
}

uint32_t field(uint32_t offset)
{
    return get32(lent.library + offset);
}

uint32_t header_size_of(const uint8_t *image)
{
    return image[5] == 2 ? 5 : 4;
}

uint32_t header_size(void)
{
    return header_size_of(lent.library);
}

uint32_t length_in(const uint8_t *image, uint32_t at)
{
    return header_size_of(image) == 5 ? get32(image + at + 1)
                                      : get32(image + at) & 0xFFFFFF;
}

void poke_header(uint32_t at, uint32_t letter, uint32_t length)
{
    if (header_size() == 5)
        poke32(at + 1, length);
    else
        poke32(at, length & 0xFFFFFF);
    poke(at, (uint8_t)letter);
}
