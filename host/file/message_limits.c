/* What an image's version allows of its messages. */
#include "bhtf.h"

enum { VERSION_AT = 5, WIDE = 2 };

/* Which of two numbers holds: in files of version 1, or in those of 2.0.0. */
static uint32_t by_version(const uint8_t *image, size_t image_len,
                           uint32_t narrow, uint32_t wide)
{
    uint32_t count;

    if (bhtf_count(image, image_len, &count) != BHTF_ACCEPTED)
        return 0;
    return image[VERSION_AT] == WIDE ? wide : narrow;
}

uint32_t bhtf_message_max(const uint8_t *image, size_t image_len)
{
    return by_version(image, image_len, BHTF_MESSAGE_MAX, BHTF_MESSAGE_MAX_2);
}

uint32_t bhtf_message_header(const uint8_t *image, size_t image_len)
{
    return by_version(image, image_len, BHTF_MESSAGE_HEADER,
                      BHTF_MESSAGE_HEADER_2);
}
