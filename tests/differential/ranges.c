/* Names in ranges of bytes: the lowest and highest byte of each position, and
 * the list by its definition. */
#include "parts.h"

#include <string.h>

#define SLOT_NUMBER 4u /* bytes */
#define KEY_MOST 33u

/* What was lent, as it was. */
static uint8_t kept[2][KEY_MOST];

/* ---- arguments ---- */

/* Around a byte, free on one side or both, or beside it. */
static void choose_range(uint8_t byte, uint8_t *lowest, uint8_t *highest)
{
    uint32_t style = below(8);

    *lowest = byte;
    *highest = byte;
    if (style == 0 || style == 1)
        *lowest = 0;
    if (style == 1 || style == 2)
        *highest = 255;
    if (style == 3 && byte > 0)
        *lowest = (uint8_t)(byte - 1);
    if (style == 4 && byte < 255)
        *highest = (uint8_t)(byte + 1);
    if (style == 5 && byte > 0 && one_in(8)) {
        *lowest = 0;
        *highest = (uint8_t)(byte - 1);
    }
    if (style == 6 && byte < 255 && one_in(8)) {
        *lowest = (uint8_t)(byte + 1);
        *highest = 255;
    }
}

/* A range of each position, mostly around a name of the list; all free, all
 * equal, or each for itself. */
static void choose_ranges(uint8_t *lowest, uint8_t *highest, size_t size)
{
    const uint8_t *name = list.name[below(list.names)];
    uint32_t style = below(8);
    int zeros = one_in(16);

    for (size_t i = 0; i < size; i++) {
        uint8_t byte = zeros || i >= list.key_size ? 0 : name[i];

        choose_range(byte, &lowest[i], &highest[i]);
        if (style == 0)
            lowest[i] = 0, highest[i] = 255;
        if (style == 1)
            lowest[i] = byte, highest[i] = byte;
        if (style == 2 && i > 0)
            lowest[i] = 0, highest[i] = 255;
    }
}

/* One position's lowest byte above its highest. */
static void turn_one(uint8_t *lowest, uint8_t *highest, size_t size)
{
    size_t i = below((uint32_t)size);

    if (highest[i] == 255)
        highest[i] = 254;
    lowest[i] = (uint8_t)(highest[i] + 1);
}

static size_t choose_count(void)
{
    uint32_t k = list.key_size;
    uint32_t wrong[] = { 0, k - 1, k + 1, KEY_MOST - 1, KEY_MOST };

    return one_in(24) ? PICK(wrong) : k;
}

static const uint8_t *lend(uint8_t *end, size_t size, uint8_t *copy)
{
    memcpy(copy, end - size, size);
    return size == 0 && one_in(2) ? NULL : end - size;
}

static void lend_ranges(void)
{
    struct call *c = &list.now;
    size_t lowest = choose_count(), highest = choose_count();
    size_t both = lowest < highest ? lowest : highest;

    memset(lowest_end - lowest, 0, lowest);
    memset(highest_end - highest, 255, highest);
    choose_ranges(lowest_end - lowest, highest_end - highest, both);
    if (both > 0 && one_in(24))
        turn_one(lowest_end - lowest, highest_end - highest, both);
    c->lowest = lend(lowest_end, lowest, kept[0]);
    c->lowest_len = lowest;
    c->highest = lend(highest_end, highest, kept[1]);
    c->highest_len = highest;
    if (one_in(100) && data_size > POOL) {
        c->highest = data_start;
        c->highest_len = (size_t)((UINT64_C(1) << 32) + list.key_size);
    }
}

/* Around what N slot numbers need. */
static size_t choose_list_length(void)
{
    uint32_t slots = lent.length < PAGE ? 0 : get32(lent.before + 16);
    uint32_t others = list.now.paired ? get32(older.before + 16) : 0;
    size_t needed = SLOT_NUMBER * (size_t)(slots > SLOTS_MAX ? 8 : slots);
    uint32_t style = below(16);

    needed += SLOT_NUMBER * (size_t)(others > SLOTS_MAX ? 8 : others);
    if (needed > 0 && style == 0)
        return below((uint32_t)needed);
    if (needed > 0 && style == 1)
        return needed - 1 - below(4);
    if (data_size > POOL && one_in(60))
        return (size_t)(below((uint32_t)needed + 1) + (UINT64_C(1) << 32));
    return needed + (style < 6 ? below(9) : 0);
}

void lend_selected(void)
{
    lend_ranges();
    list.now.list_len = choose_list_length();
    lend_slice(&filled, list.now.list_len);
    fill_slice(&filled);
}

void step_select(void)
{
    new_call(SELECT);
    run_call();
}

/* ---- the list by its definition ---- */

static int is_listed(const struct call *c, const uint8_t *key, uint32_t size)
{
    int taken = 0;

    for (uint32_t i = 0; i < size; i++) {
        taken |= key[i] != 0;
        if (key[i] < c->lowest[i] || key[i] > c->highest[i])
            return 0;
    }
    return taken;
}

/* Each slot of an image whose key lies in the ranges, once, rising; and no
 * other. Answers and listing are those of this image. */
static void compare_list(const struct call *c, const uint8_t *image,
                         const uint8_t *listed, uint32_t answered)
{
    uint32_t size = get32(image + 12), slots = get32(image + 16);
    uint32_t found = 0;

    for (uint32_t i = 0; i < slots; i++) {
        const uint8_t *key = image + 2048 + i * (size_t)(size + 4);

        if (!is_listed(c, key, size))
            continue;
        if (found >= answered ||
            get32(listed + SLOT_NUMBER * (size_t)found) != i)
            fail_number("a slot in the ranges is not listed in its place",
                        "slot", i, "place", found);
        found++;
    }
    if (found != answered)
        fail_number("the number of slots", "answered", answered,
                    "in the ranges", found);
}

/* With equal bounds, what lookup finds in a sound file. */
static void compare_equal(const struct call *c, const struct answer *a)
{
    struct call look = *c;
    struct answer b;

    if (memcmp(c->lowest, c->highest, list.key_size) != 0)
        return;
    look.kind = LOOKUP;
    look.form = PLAIN;
    look.key = c->lowest;
    look.key_len = c->lowest_len;
    b = perform_plain(lent.before, &look);
    if (a->found != (b.number == 0))
        fail("equal bounds do not list what lookup finds");
}

/* What was lent is as it was; the list is plain C's. */
static void compare_listing(const struct call *c, const struct answer *a,
                            size_t written)
{
    if ((c->lowest_len < KEY_MOST &&
         memcmp(lowest_end - c->lowest_len, kept[0], c->lowest_len) != 0) ||
        (c->highest_len < KEY_MOST &&
         memcmp(highest_end - c->highest_len, kept[1], c->highest_len) != 0))
        fail("the lent ranges changed");
    if (a->number != 0 && written != 0)
        fail("a refused call answers slots");
    if (written > c->list_len)
        fail("more slots than the list can hold");
    if (memcmp(filled.library, filled.plain, written) != 0)
        fail("the list is not plain C's");
    compare_slice("the list", &filled, written);
}

void compare_selected(const struct call *c, const struct answer *a)
{
    compare_listing(c, a, SLOT_NUMBER * (size_t)a->found);
    if (a->number != 0)
        return;
    compare_list(c, lent.before, filled.library, a->found);
    if (list.with_book)
        compare_equal(c, a);
}

void compare_selected_of_both(const struct call *c, const struct answer *a)
{
    size_t first = SLOT_NUMBER * (size_t)a->found;

    compare_listing(c, a, first + SLOT_NUMBER * (size_t)a->more);
    if (a->number != 0)
        return;
    compare_list(c, older.before, filled.library, a->found);
    compare_list(c, lent.before, filled.library + first, a->more);
}
