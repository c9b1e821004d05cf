/* What a compaction must leave, by its definition, message by message. */
#include "parts.h"

#include <string.h>

#define MOST_SLOTS 600u /* of larger tables plain C alone is compared */

static const uint8_t *before;
static const uint8_t *after;
static uint32_t key_size;

static uint32_t slot_at(uint32_t slot)
{
    return 2048 + slot * (key_size + 4);
}

/* The slot's offset before, if it is taken. */
static uint32_t offset_before(uint32_t slot)
{
    const uint8_t *at = before + slot_at(slot);

    for (uint32_t i = 0; i < key_size; i++)
        if (at[i] != 0)
            return get32(at + key_size);
    return 0;
}

static int was_active(uint32_t slot)
{
    uint32_t at = offset_before(slot);

    return at != 0 && before[at] == 'a';
}

/* Header and text. */
static uint32_t size_before(uint32_t slot)
{
    return header_size_of(before) + length_in(before, offset_before(slot));
}

/* Bytes of the active messages that began below that place. */
static uint32_t active_below(uint32_t place)
{
    uint32_t bytes = 0;

    for (uint32_t i = 0; i < get32(before + 16); i++)
        if (was_active(i) && offset_before(i) < place)
            bytes += size_before(i);
    return bytes;
}

static void compare_slot(uint32_t slot)
{
    uint32_t at = slot_at(slot);
    uint32_t offset = get32(after + at + key_size);
    uint32_t old = offset_before(slot);

    if (memcmp(before + at, after + at, key_size) != 0)
        fail("compaction changed a key");
    if (old == 0)
        return;
    if (!was_active(slot) && offset != 0)
        fail("compaction left the offset of an inactive message");
    if (!was_active(slot))
        return;
    if (offset != get32(before + 48) + active_below(old))
        fail("a message is not behind those that were below it");
    if (memcmp(before + old, after + offset, size_before(slot)) != 0)
        fail("compaction changed a message");
}

static void compare_end(void)
{
    uint32_t end = get32(before + 48) + active_below(0xFFFFFFFFu);

    if (get32(after + 52) != end)
        fail("X is not behind the messages");
    if (end == get32(before + 52) && memcmp(before + 56, after + 56, 4) != 0)
        fail("M changed and X did not");
    for (; end < list.now.image_len; end++)
        if (after[end] != 0)
            fail("compaction left a byte behind X");
}

/* Nothing but X, M, offsets of taken slots, and the data area. */
static void compare_rest(uint32_t slots)
{
    uint32_t table_end = slot_at(slots);

    if (memcmp(before, after, 52) != 0 ||
        memcmp(before + 60, after + 60, 2048 - 60) != 0 ||
        memcmp(before + table_end, after + table_end,
               get32(before + 48) - table_end) != 0)
        fail("compaction changed a byte that is not its own");
    for (uint32_t i = 0; i < slots; i++)
        if (offset_before(i) == 0 &&
            memcmp(before + slot_at(i), after + slot_at(i), key_size + 4))
            fail("compaction changed a slot without a message");
}

void compare_packed(void)
{
    uint32_t slots = get32(lent.before + 16);

    before = lent.before;
    after = lent.library;
    key_size = get32(before + 12);
    if (slots > MOST_SLOTS)
        return;
    for (uint32_t i = 0; i < slots; i++)
        compare_slot(i);
    compare_end();
    compare_rest(slots);
}
