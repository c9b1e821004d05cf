/* Points in which two images differ. */
#include "bhtf_delta.h"
#include "layer.h"

#include <string.h>

enum { KEY_SIZE_AT = 12 };

struct image {
    const uint8_t *bytes;
    size_t length;
};

static uint32_t text_of(const struct image *i, const uint8_t *key,
                        uint32_t *offset, uint32_t *length)
{
    return bhtf_lookup(i->bytes, i->length, key,
                       layer_u32(i->bytes + KEY_SIZE_AT), offset, length);
}

/* Texts of one point; none has the offset 0. */
static int same_text(const struct image *before, const struct image *after,
                     const struct bhtf_change *c)
{
    return (c->old_offset == 0) == (c->new_offset == 0) &&
           c->old_length == c->new_length &&
           memcmp(before->bytes + c->old_offset, after->bytes + c->new_offset,
                  c->new_length) == 0;
}

/* A point of the second image; 0 for one that is as it was. */
static uint32_t kind_of(const struct image *before, const struct image *after,
                        struct bhtf_change *c)
{
    const uint8_t *key = after->bytes + c->key_offset;
    uint32_t now = text_of(after, key, &c->new_offset, &c->new_length);
    uint32_t old = text_of(before, key, &c->old_offset, &c->old_length);

    if (old == BHTF_ABSENT)
        return BHTF_POINT_NEW;
    if (old != BHTF_ACCEPTED || now != BHTF_ACCEPTED)
        return BHTF_POINT_DAMAGED;
    return same_text(before, after, c) ? 0 : BHTF_POINT_OTHER;
}

/* And one of the first. */
static uint32_t kind_if_gone(const struct image *before,
                             const struct image *after, struct bhtf_change *c)
{
    const uint8_t *key = before->bytes + c->key_offset;
    uint32_t now = text_of(after, key, &c->new_offset, &c->new_length);

    text_of(before, key, &c->old_offset, &c->old_length);
    return now == BHTF_ABSENT ? BHTF_POINT_GONE : 0;
}

static uint32_t ask_images(const struct image *before,
                           const struct image *after)
{
    uint32_t count, number = bhtf_count(before->bytes, before->length, &count);

    if (number == BHTF_ACCEPTED)
        number = bhtf_count(after->bytes, after->length, &count);
    if (number != BHTF_ACCEPTED)
        return number;
    return layer_u32(before->bytes + KEY_SIZE_AT) ==
           layer_u32(after->bytes + KEY_SIZE_AT) ? BHTF_ACCEPTED : BHTF_BAD_KEY;
}

/* The next point of the image at hand that counts; kind 0 if there is none. */
static void find_next(const struct image *before, const struct image *after,
                      struct bhtf_change *c)
{
    const struct image *at = c->first_image ? before : after;
    uint32_t slot;

    do {
        bhtf_walk(at->bytes, at->length, c->next, &slot, &c->key_offset);
        if (c->key_offset == 0)
            return;
        c->next = slot + 1;
        c->kind = (c->first_image ? kind_if_gone : kind_of)(before, after, c);
    } while (c->kind == 0);
}

uint32_t bhtf_changes(const uint8_t *before, size_t before_len,
                      const uint8_t *after, size_t after_len,
                      struct bhtf_change *change)
{
    const struct image old = { before, before_len }, now = { after, after_len };
    uint32_t number = ask_images(&old, &now);

    change->kind = 0;
    if (number != BHTF_ACCEPTED)
        return number;
    find_next(&old, &now, change);
    if (change->kind == 0 && !change->first_image) {
        change->first_image = 1;
        change->next = 0;
        find_next(&old, &now, change);
    }
    if (change->kind == 0)
        change->key_offset = change->old_offset = change->old_length =
            change->new_offset = change->new_length = 0;
    return BHTF_ACCEPTED;
}
