/* Several records as one: the union of their stretches, with the bytes of the
 * image that the last one leads to. A byte that was changed and changed back is
 * in it, too; no older image is needed to make it. */
#include "squash.h"

#include "bhtf_delta.h"
#include "sum.h"
#include "wire.h"

#include <stdlib.h>
#include <string.h>

static int earlier(const void *a, const void *b)
{
    const struct squash_pair *x = a, *y = b;

    return x->at < y->at ? -1 : x->at > y->at;
}

size_t squash_pairs(struct squash_pair *pair, size_t count)
{
    size_t n = 0;

    qsort(pair, count, sizeof *pair, earlier);
    for (size_t i = 0; i < count; i++) {
        struct squash_pair *last = n > 0 ? &pair[n - 1] : NULL;
        uint32_t end = pair[i].at + pair[i].size;

        if (last == NULL || pair[i].at > last->at + last->size)
            pair[n++] = pair[i];
        else if (end > last->at + last->size)
            last->size = end - last->at;
    }
    return n;
}

/* Would the whole image be shorter? */
static int whole_is_shorter(const struct squash_pair *pair, size_t count,
                            uint32_t length)
{
    uint64_t bytes = 8 * (uint64_t)count;

    for (size_t i = 0; i < count; i++)
        bytes += pair[i].size;
    return bytes > (uint64_t)length + 8;
}

size_t squash_record(uint8_t *record, const struct squash_pair *pair,
                     size_t count, const uint8_t *after, uint32_t length,
                     const uint8_t *before_sum, const uint8_t *after_sum)
{
    static const uint8_t magic[8] = { 'B', 'H', 'T', 'F', 'd', 1, 0, 0 };
    const struct squash_pair all = { 0, length };
    uint8_t *at = record + BHTF_DELTA_HEAD;

    if (whole_is_shorter(pair, count, length)) {
        pair = &all;
        count = 1;
    }
    memcpy(record, magic, sizeof magic);
    wire_put_u32(record + 12, length);
    memcpy(record + 16, before_sum, BHTF_SUM);
    memcpy(record + 48, after_sum, BHTF_SUM);
    wire_put_u32(at, (uint32_t)count);
    at += 4;
    for (size_t i = 0; i < count; i++, at += 8) {
        wire_put_u32(at, pair[i].at);
        wire_put_u32(at + 4, pair[i].size);
    }
    for (size_t i = 0; i < count; i++) {
        memcpy(at, after + pair[i].at, pair[i].size);
        at += pair[i].size;
    }
    wire_put_u32(record + 8, (uint32_t)(at - record) + BHTF_SUM);
    sum_of(record, (size_t)(at - record), at);
    return (size_t)(at - record) + BHTF_SUM;
}
