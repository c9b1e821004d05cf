/* What a call gets: names, data, shapes; mostly lawful, often at an edge. */
#include "parts.h"

#include <string.h>

/* ---- names ---- */

static void choose_letters(void)
{
    static const uint32_t usual[] = {
        0,   1,   2,   31,  32,  33,  34, 'A', 'a', 'b',
        125, 126, 127, 128, 129, 254, 255
    };

    for (size_t i = 0; i < sizeof list.letters; i++)
        list.letters[i] =
            one_in(6) ? (uint8_t)random32() : (uint8_t)PICK(usual);
    if (list.key_size > 1 && below(3) > 0)
        list.letters[0] = 0;
}

static int is_zero(const uint8_t *name)
{
    for (uint32_t i = 0; i < list.key_size; i++)
        if (name[i] != 0)
            return 0;
    return 1;
}

static void random_name(uint8_t *name)
{
    int few = below(4) > 0;

    for (uint32_t i = 0; i < list.key_size; i++)
        name[i] = few ? list.letters[below(sizeof list.letters)]
                      : (uint8_t)random32();
    if (is_zero(name))
        name[below(list.key_size)] = (uint8_t)(1 + below(255));
}

/* Few names and epochs near each other, so that a name has several. */
static void give_epoch(uint8_t *name)
{
    static const uint32_t edges[] = { 0, 1, 2, 3, 255, 256, 257, 65535, 65536,
                                      0x01000000u, 0x7FFFFFFFu, 0x80000000u,
                                      0xFFFFFFFFu };
    uint32_t k = list.key_size - 4, epoch = PICK(edges);

    if (below(3) > 0)
        memcpy(name, list.name[below(2)], k);
    if (one_in(8))
        epoch = random32();
    for (uint32_t i = 0; i < 4; i++)
        name[k + i] = (uint8_t)(epoch >> (24 - 8 * i));
    if (is_zero(name))
        name[k + below(4)] = 1;
}

/* Names from a number on. */
static void choose_names_from(uint32_t first)
{
    int epochs = list.key_size > 4 && below(4) > 0;

    list.names = list.slots + 1 + below(3);
    if (list.names > NAMES || list.slots > NAMES)
        list.names = NAMES;
    for (uint32_t i = first; i < list.names; i++) {
        random_name(list.name[i]);
        if (epochs)
            give_epoch(list.name[i]);
        list.last_length[i] = 0;
    }
}

void choose_names(void)
{
    choose_letters();
    choose_names_from(0);
}

void choose_more_names(void)
{
    uint32_t names = list.names;

    choose_names_from(names);
    if (list.names < names)
        list.names = names;
}

uint8_t *lend_key(size_t size)
{
    uint8_t *key = key_end - size;

    list.now.key = size == 0 && one_in(2) ? NULL : key;
    list.now.key_len = size;
    return key;
}

static void wrong_key(void)
{
    uint32_t k = list.key_size;
    uint32_t sizes[] = { 0, k - 1, k + 1, 33, 2 * k, 0 };
    size_t size = PICK(sizes);
    uint8_t *key;

    if (one_in(8) && data_size > POOL) {
        list.now.key = data_start;
        list.now.key_len = (size_t)((UINT64_C(1) << 32) + k);
        return;
    }
    key = lend_key(size);
    for (size_t i = 0; i < size; i++)
        key[i] = i < k ? list.name[0][i] : (uint8_t)below(2);
}

uint32_t choose_key(void)
{
    uint32_t style = below(64);
    uint32_t i = below(list.names);

    if (style == 0) {
        memset(lend_key(list.key_size), 0, list.key_size);
        return NAMES;
    }
    if (style == 1) {
        wrong_key();
        return NAMES;
    }
    if (style == 2) {
        random_name(lend_key(list.key_size));
        return NAMES;
    }
    memcpy(lend_key(list.key_size), list.name[i], list.key_size);
    return i;
}

/* ---- data ---- */

/* Bytes from X to L, as far as X makes sense; in growth without what the old
 * image's points will need. */
static uint32_t room_left(void)
{
    uint32_t next = lent.length >= 60 ? get32(lent.plain + 52) : 0;
    uint32_t room = next <= lent.length ? lent.length - next : 0;
    uint64_t needed = 0;
    uint32_t count;

    if (list.growing && plain.count(older.plain, older.length, &count) == 0)
        needed = active_in(older.plain);
    return needed < room ? room - (uint32_t)needed : 0;
}

/* n - 1, n or n + 1; small numbers instead of negative ones. */
static size_t about(int64_t n)
{
    n += (int64_t)below(3) - 1;
    return n < 0 ? below(4) : (size_t)n;
}

/* About the longest text, or that without what the name has already; never less
 * than none, for the name may have had a longer text in a file of 2.0.0. */
static size_t very_long(int64_t last)
{
    int64_t n = MIB16;

    if (one_in(3) && data_size > POOL)
        return (size_t)((UINT64_C(1) << 32) + below(8));
    if (header_size() == 5 && one_in(3) && data_size > POOL)
        n = GIB;
    n -= (int64_t)below(2) + (one_in(2) ? last : 0);
    return n < 0 ? below(4) : (size_t)n;
}

static size_t choose_length(uint32_t name)
{
    int64_t last = name < NAMES ? list.last_length[name] : 0;
    int64_t room = room_left();
    int64_t header = header_size();
    uint32_t style = below(64);

    if (lent.length > MIB16 && one_in(3))
        return very_long(last);
    if (style < 10)
        return 0;
    if (style < 28)
        return 1 + below(8);
    if (style < 36)
        return about(last);
    if (style < 42)
        return below((uint32_t)last + 1);
    if (style < 44)
        return about(room - header);
    if (style < 46)
        return about(room - header - last);
    if (style < 48)
        return about(room / 2);
    if (style < 49)
        return 4086 + below(16);
    if (style < 50)
        return one_in(4) ? very_long(last) : below(600);
    return 1 + below(style < 56 ? 200 : 24);
}

void lend_data(size_t size)
{
    if (size > MIB16 && data_size == POOL)
        size = MIB16;
    list.now.data_len = size;
    list.now.data = data_start + below(POOL - MIB16);
    if (size <= TAIL && one_in(2))
        list.now.data = data_start + data_size - size;
    if (size <= EVEN && one_in(size < 500 ? 16 : 2))
        list.now.data = even_start + below(EVENS) * EVEN;
    if (size == 0 && one_in(2))
        list.now.data = NULL;
}

void lend_about(int64_t size, uint32_t by)
{
    size += (int64_t)below(2 * by + 1) - by;
    lend_data(size < 0 ? 0 : (size_t)size);
}

void choose_data(uint32_t name)
{
    lend_data(choose_length(name));
}

uint32_t choose_mode(void)
{
    static const uint32_t modes[] = { 1, 1, 1, 2, 2, 2, 2, 3, 3, 3, 4 };
    static const uint32_t wrong[] = {
        0,   5,   6,   255, 256,         257,
        258, 259, 260, 261, 0x80000002u, 0xFFFFFFFFu
    };

    return one_in(40) ? PICK(wrong) : PICK(modes);
}

/* ---- shapes ---- */

uint32_t choose_key_size(void)
{
    uint32_t style = below(32);

    if (style < 22)
        return 1 + below(3);
    return style < 30 ? 4 + below(4) : 1 + below(32);
}

uint32_t choose_slots(void)
{
    static const uint32_t edges[] = {
        60, 63, 128, 200, 255, 256, 257, 291, 292, 341, 342, 409, 410
    };
    static const uint32_t large[] = { 0, 0, 5507, 65535, 65536 };
    static const uint32_t largest[] = { 65537, SLOTS_MAX - 1, SLOTS_MAX };
    uint32_t style = below(512);

    if (style < 440)
        return 1 + below(8);
    if (style < 500)
        return 9 + below(32);
    if (style < 510)
        return PICK(edges);
    if (style == 510)
        return 0;
    return one_in(4) && !run.old_limits ? PICK(largest) : PICK(large);
}

void choose_shape(uint32_t *key_size, uint32_t *slots)
{
    static const uint32_t even[] = { 4, 12, 28, 4 };

    *key_size = choose_key_size();
    *slots = choose_slots();
    if (one_in(500)) {
        *key_size = PICK(even);
        *slots = 2048 / (*key_size + 4);
    }
}

uint32_t data_offset(uint32_t key_size, uint32_t slots)
{
    uint32_t n = slots == 0 ? 5507 : slots;

    return (2048 + n * (key_size + 4) + PAGE - 1) / PAGE * PAGE;
}

uint32_t choose_image_length(uint32_t data)
{
    static const uint32_t pages[] = { 0, 1, 1, 1, 1, 1, 2, 2,
                                      2, 2, 3, 3, 3, 3, 5, 5 };

    if (one_in(200))
        return data + PAGE * below(20);
    if (one_in(400))
        return data + PAGE * (20 + below(12));
    return data + PAGE * PICK(pages);
}

size_t wrong_image_length(void)
{
    uint32_t l = lent.length;
    uint32_t lengths[] = { 0,     1,     59,    4095,  4097, l - 1,
                           l + 1, l / 2 + 1, l - 4095, l + 2048 };

    if (one_in(200))
        return GIB + PAGE;
    if (one_in(12) && data_size > POOL) /* 32 bits of it are a lawful length */
        return (size_t)((UINT64_C(1) << 32) + l);
    return PICK(lengths);
}
