/* The header's numbers, for what the library has no call for. */
#include "image_header.h"

#include "bhtf.h"
#include "command_limits.h"

#include <string.h>

enum { VERSION_AT = 5, SCRAMBLE = 512, TABLE = 2048, OFFSET_SIZE = 4 };

uint32_t read_u32(const uint8_t *at)
{
    return (uint32_t)at[0] << 24 | (uint32_t)at[1] << 16 |
           (uint32_t)at[2] << 8 | (uint32_t)at[3];
}

void write_u32(uint8_t *at, uint32_t number)
{
    for (int i = 0; i < 4; i++)
        at[i] = (uint8_t)(number >> (24 - 8 * i));
}

struct header header_read(const uint8_t *image)
{
    struct header h;

    memcpy(h.version, image + VERSION_AT, sizeof h.version);
    h.message_header = h.version[0] == 2 ? BHTF_MESSAGE_HEADER_2
                                         : BHTF_MESSAGE_HEADER;
    h.key_size = read_u32(image + 12);
    h.slots = read_u32(image + 16);
    h.count = read_u32(image + 20);
    h.multiplier = read_u32(image + 24);
    h.start = read_u32(image + 28);
    h.first = read_u32(image + 32);
    h.last = read_u32(image + 36);
    h.data = read_u32(image + 48);
    h.next = read_u32(image + 52);
    return h;
}

uint32_t slot_offset(const struct header *h, uint32_t slot)
{
    return TABLE + slot * (h->key_size + OFFSET_SIZE);
}

uint32_t slot_message(const uint8_t *image, const struct header *h,
                      uint32_t slot)
{
    return read_u32(image + slot_offset(h, slot) + h->key_size);
}

/* A letter, and the length in the rest of the header. */
static uint32_t length_at(const uint8_t *image, const struct header *h,
                          uint32_t offset)
{
    uint32_t last = read_u32(image + offset + h->message_header - 4);

    return h->message_header == BHTF_MESSAGE_HEADER ? last & 0xFFFFFFu : last;
}

int slot_stretch(const uint8_t *image, const struct header *h, uint32_t slot,
                 struct stretch *s)
{
    uint32_t offset = slot_message(image, h, slot);
    uint32_t length;

    s->start = s->end = 0;
    if (offset == 0)
        return 1;
    if (offset < h->data || offset >= h->next ||
        h->next - offset < h->message_header)
        return 0;
    length = length_at(image, h, offset);
    if ((image[offset] != 'a' && image[offset] != 'd') ||
        length > h->next - offset - h->message_header)
        return 0;
    s->start = offset;
    s->end = offset + h->message_header + length;
    return 1;
}

uint32_t scramble_number(const uint8_t *image, uint32_t i)
{
    return read_u32(image + SCRAMBLE + 4 * i);
}

uint32_t home_slot(const uint8_t *image, const struct header *h,
                   const uint8_t *key)
{
    uint32_t hash = h->start;

    for (uint32_t i = 0; i < h->key_size; i++) {
        hash *= h->multiplier;
        if (h->first <= key[i] && key[i] <= h->last)
            hash ^= scramble_number(image, key[i] - h->first);
    }
    return hash % h->slots;
}

uint64_t table_end(uint64_t key_size, uint64_t slots)
{
    uint64_t end = TABLE + slots * (key_size + OFFSET_SIZE);

    return (end + BHTF_PAGE - 1) / BHTF_PAGE * BHTF_PAGE;
}

uint64_t usual_size(uint64_t key_size, uint64_t slots)
{
    uint64_t size;

    if (slots == 0)
        slots = BHTF_SLOTS_DEFAULT;
    if (slots > BHTF_SLOTS_MAX || key_size > BHTF_KEY_MAX)
        return BHTF_PAGE; /* create will refuse the slots or the key size */
    size = table_end(key_size, slots) + slots * BYTES_A_SLOT;
    size = (size + BHTF_PAGE - 1) / BHTF_PAGE * BHTF_PAGE;
    return size < BHTF_IMAGE_MAX ? size : BHTF_IMAGE_MAX;
}

int size_fits(uint64_t size)
{
    return size >= BHTF_PAGE && size <= BHTF_IMAGE_MAX && size % BHTF_PAGE == 0;
}
