/* Epochs: the entry of a name with the largest epoch at most t, by its
 * definition. */
#include "parts.h"

#include <string.h>

#define EPOCH 4u /* bytes, at a key's end */

/* An epoch of the list's names, one beside it, or an edge. */
static uint32_t choose_epoch(void)
{
    static const uint32_t edges[] = { 0, 1, 0x7FFFFFFFu, 0x80000000u,
                                      0xFFFFFFFEu, 0xFFFFFFFFu };
    uint32_t of_a_name, style = below(8);

    if (list.key_size < EPOCH || style == 0)
        return one_in(2) ? random32() : PICK(edges);
    of_a_name = get32(list.name[below(list.names)] + list.key_size - EPOCH);
    return style < 5 ? of_a_name : of_a_name + below(3) - 1;
}

static size_t choose_name_length(void)
{
    uint32_t k = list.key_size;
    uint32_t right = k < EPOCH ? 0 : k - EPOCH;
    uint32_t wrong[] = { 0, k, right + 1, right == 0 ? 1 : right - 1, 28, 32 };

    return one_in(20) ? PICK(wrong) : right;
}

/* A name of the list without its epoch, zeros, or with another last byte. */
static void choose_name(uint8_t *name, size_t size)
{
    const uint8_t *from = list.name[below(list.names)];

    for (size_t i = 0; i < size; i++)
        name[i] = i < list.key_size ? from[i] : 0;
    if (one_in(12))
        memset(name, 0, size);
    if (size > 0 && one_in(24))
        name[size - 1] ^= 1;
}

void lend_name(void)
{
    size_t size = choose_name_length();

    choose_name(lend_key(size), size);
    list.now.epoch = choose_epoch();
    if (one_in(100) && data_size > POOL && list.key_size > EPOCH) {
        list.now.key = data_start;
        list.now.key_len =
            (size_t)((UINT64_C(1) << 32) + list.key_size - EPOCH);
    }
}

void step_epoch(void)
{
    new_call(AT_EPOCH);
    lend_name();
    run_call();
}

/* Slot by slot: is it an entry of that name, and would it have been shown? */
static void compare_slot(const struct call *c, const struct answer *a,
                         const uint8_t *key, uint32_t size)
{
    uint32_t epoch = get32(key + size - EPOCH);
    int taken = 0;

    for (uint32_t i = 0; i < size; i++)
        taken |= key[i] != 0;
    if (!taken || memcmp(key, c->key, size - EPOCH) != 0 || epoch > c->epoch)
        return;
    if (a->number == 14)
        fail("14, and an entry has an epoch at most t");
    if (a->number == 0 && epoch > a->shown)
        fail("an entry has a later epoch that is at most t");
}

void compare_epoch(const struct call *c, const struct answer *a)
{
    uint32_t size, slots;

    if (a->number != 0 && (a->shown != 0 || a->first != 0 || a->second != 0))
        fail("a refused call shows something");
    if (a->number != 0 && a->number != 14)
        return;
    size = get32(lent.before + 12);
    slots = get32(lent.before + 16);
    if (a->number == 0 && a->shown > c->epoch)
        fail("the epoch shown is later than t");
    for (uint32_t i = 0; i < slots; i++)
        compare_slot(c, a, lent.before + 2048 + i * (size_t)(size + 4), size);
}
