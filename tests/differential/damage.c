/* Damage to an image: fields, bits, messages, slots. */
#include "parts.h"

static void damage_field(void)
{
    static const uint32_t fields[] = { 12, 16, 20, 32, 36, 40,
                                       44, 48, 52, 20, 52 };
    uint32_t at = PICK(fields);
    uint32_t data = field(48);
    uint32_t counts[] = { 0, field(16) - 1, field(16), field(16) + 1 };
    uint32_t ends[] = { data - 1, data, data + 5, lent.length,
                        lent.length + 1, data - 4, data - PAGE };
    uint32_t values[] = {
        0, 1, 2, 31, 32, 33, 126, 255, 256, OLD_SLOTS, SLOTS_MAX,
        OLD_SLOTS + 1, SLOTS_MAX + 1,
        field(at) + 1, field(at) - 1, field(at) ^ 0x80000000u,
        field(at) ^ 1u << below(32), field(16), field(16) - 1,
        data, data - 1, data + 5, data + 20, lent.length,
        lent.length + 1, lent.length - 1, 0x80000000u, 0xFFFFFFFFu,
        random32()
    };

    if (at == 20 && one_in(2))
        poke32(at, PICK(counts));
    else if (at == 52 && one_in(2))
        poke32(at, PICK(ends));
    else
        poke32(at, PICK(values));
}

static void flip(uint32_t offset)
{
    if (offset < lent.length)
        poke(offset, lent.library[offset] ^ (uint8_t)(1u << below(8)));
}

static void damage_message(void)
{
    uint32_t letters[] = { 'a', 'd', 'a', 'd', 0, 'b', 'e', 255 };
    uint32_t widths[] = { 0, 1, 2, 3, 63, 64, 65, 128, 255 };
    uint32_t at = field(48);
    uint32_t header = header_size();
    uint32_t space = field(52) - at - header;

    if (messages.count > 0)
        at = messages.at[below(messages.count)];
    if (at > lent.length - header)
        return;
    if (one_in(4))
        poke(at + header, (uint8_t)PICK(widths));
    else if (one_in(3))
        poke(at, (uint8_t)PICK(letters));
    else if (one_in(2))
        poke_header(at, lent.library[at], make_length(space % 200));
    else
        flip(at + below(header));
}

static void damage_slot(void)
{
    uint32_t slot = below(list.slots);
    uint32_t at = 2048 + slot * (list.key_size + 4);
    uint32_t style = below(4);

    if (style == 0)
        flip(at + below(list.key_size));
    else if (style == 1)
        flip(at + list.key_size + below(4));
    else if (style == 2)
        poke32(at + list.key_size, make_offset());
    else
        make_slot(slot, one_in(3) ? NULL : list.name[below(list.names)]);
}

void damage(void)
{
    static const uint32_t versions[] = { 0, 1, 2, 3, 129, 255 };
    uint32_t style = below(16);

    if (style < 5)
        damage_field();
    else if (style < 6)
        flip(below(60));
    else if (style < 7)
        poke(5 + below(3), (uint8_t)PICK(versions));
    else if (style < 11)
        damage_slot();
    else if (style < 14)
        damage_message();
    else if (style < 15)
        flip(512 + below(1024));
    else
        flip(below(lent.length));
}
