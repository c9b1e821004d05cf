/* How long an image must be. */
#include "layer.h"

enum { TABLE = 2048, OFFSET_SIZE = 4 };

static uint64_t whole_pages(uint64_t bytes)
{
    return (bytes + BHTF_PAGE - 1) / BHTF_PAGE * BHTF_PAGE;
}

uint32_t bhtf_image_len(uint32_t key_size, uint32_t slots, uint32_t messages,
                        uint64_t bytes, size_t *image_len)
{
    uint64_t length;

    *image_len = 0;
    if (key_size < 1 || key_size > BHTF_KEY_MAX)
        return BHTF_BAD_KEY_SIZE;
    if (slots > BHTF_SLOTS_MAX)
        return BHTF_BAD_SLOTS;
    if (slots == 0)
        slots = BHTF_SLOTS_DEFAULT;
    if (bytes > BHTF_IMAGE_MAX)
        return BHTF_BAD_LENGTH;
    length = whole_pages(TABLE + (uint64_t)slots * (key_size + OFFSET_SIZE));
    length += whole_pages((uint64_t)messages * BHTF_MESSAGE_HEADER + bytes);
    if (length > BHTF_IMAGE_MAX)
        return BHTF_BAD_LENGTH;
    *image_len = (size_t)length;
    return BHTF_ACCEPTED;
}
