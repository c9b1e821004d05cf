/* What changed from one image to another, as a record that travels. Byte by
 * byte in docs/FORMAT.md.
 *
 * Where single bytes changed here and there, the pairs would take more than
 * the image: then the one pair is 0 and its length. So a record is never much
 * longer than an image. */
#include "delta.h"

#include "layer.h"

#include <string.h>

enum {
    SIZE_AT = 8, LENGTH_AT = 12, BEFORE_AT = 16, AFTER_AT = 48,
    CONTENT_AT = BHTF_DELTA_HEAD,
    PAIR = 8,                              /* bytes of a pair */
    COUNT = 4,                             /* of the pair count */
    LEAST = CONTENT_AT + COUNT + BHTF_SUM  /* of a record */
};

static const uint8_t magic[SIZE_AT] = { 'B', 'H', 'T', 'F', 'd', 1, 0, 0 };

enum { MAGIC_WORD = 5 };  /* bytes of it before the version */

static int same_sum(const uint8_t *a, const uint8_t *b)
{
    return memcmp(a, b, BHTF_SUM) == 0;
}

/* ---- making ---- */

/* What the pairs and new bytes of a record are. */
struct extent {
    uint32_t pairs;
    uint64_t bytes;
    int whole;   /* the one pair is all of the image */
};

static struct extent extent_of(const uint8_t *before, const uint8_t *after,
                               size_t image_len)
{
    struct extent e = { 0, 0, 0 };
    struct layer_run run;
    size_t at = 0;

    while (layer_next_run(before, after, &at, image_len, &run)) {
        e.pairs++;
        e.bytes += run.size;
    }
    e.whole = (uint64_t)e.pairs * PAIR + e.bytes > (uint64_t)image_len + PAIR;
    if (e.whole) {
        e.pairs = 1;
        e.bytes = image_len;
    }
    return e;
}

static void put_pair(uint8_t *pair, uint8_t **bytes, const uint8_t *after,
                     struct layer_run run)
{
    layer_put_u32(pair, (uint32_t)run.from);
    layer_put_u32(pair + 4, (uint32_t)run.size);
    memcpy(*bytes, after + run.from, run.size);
    *bytes += run.size;
}

/* Writes pair count, pairs and new bytes; answers where they end. */
static uint8_t *put_content(uint8_t *to, const struct extent *e,
                            const uint8_t *before, const uint8_t *after,
                            size_t image_len)
{
    uint8_t *pair = to + COUNT;
    uint8_t *bytes = pair + (size_t)e->pairs * PAIR;
    struct layer_run run = { 0, image_len };
    size_t at = 0;

    layer_put_u32(to, e->pairs);
    if (e->whole) {
        put_pair(pair, &bytes, after, run);
        return bytes;
    }
    for (; layer_next_run(before, after, &at, image_len, &run); pair += PAIR)
        put_pair(pair, &bytes, after, run);
    return bytes;
}

static void put_record(uint8_t *record, size_t size, const struct extent *e,
                       const uint8_t *before, const uint8_t *after,
                       size_t image_len, const uint8_t *before_sum)
{
    uint8_t *end;

    memcpy(record, magic, sizeof magic);
    layer_put_u32(record + SIZE_AT, (uint32_t)size);
    layer_put_u32(record + LENGTH_AT, (uint32_t)image_len);
    if (before_sum != NULL)
        memcpy(record + BEFORE_AT, before_sum, BHTF_SUM);
    else
        bhtf_sum(before, image_len, record + BEFORE_AT);
    bhtf_sum(after, image_len, record + AFTER_AT);
    end = put_content(record + CONTENT_AT, e, before, after, image_len);
    bhtf_sum(record, (size_t)(end - record), end);
}

uint32_t bhtf_delta_make(const uint8_t *before, const uint8_t *after,
                         size_t image_len, const uint8_t *before_sum,
                         uint8_t *record, size_t record_len, size_t *size)
{
    uint32_t count, number = bhtf_count(before, image_len, &count);
    struct extent e;

    *size = 0;
    if (number == BHTF_ACCEPTED)
        number = bhtf_count(after, image_len, &count);
    if (number != BHTF_ACCEPTED)
        return number;
    e = extent_of(before, after, image_len);
    *size = LEAST + (size_t)e.pairs * PAIR + (size_t)e.bytes;
    if (record_len < *size)
        return BHTF_DELTA_ROOM;
    put_record(record, *size, &e, before, after, image_len, before_sum);
    return BHTF_ACCEPTED;
}

/* ---- reading ---- */

static uint32_t read_head(const uint8_t *bytes, size_t length)
{
    uint32_t size, image_len;

    if (length == 0)
        return BHTF_DELTA_CUT;
    if (memcmp(bytes, magic, length < MAGIC_WORD ? length : MAGIC_WORD) != 0)
        return BHTF_DELTA_NONE;
    if (length < SIZE_AT)
        return BHTF_DELTA_CUT;
    if (memcmp(bytes, magic, sizeof magic) != 0)
        return BHTF_DELTA_VERSION;
    if (length < BHTF_DELTA_HEAD)
        return BHTF_DELTA_CUT;
    size = layer_u32(bytes + SIZE_AT);
    image_len = layer_u32(bytes + LENGTH_AT);
    return size >= LEAST && image_len <= BHTF_IMAGE_MAX &&
           size <= (uint64_t)image_len + BHTF_DELTA_MOST + PAIR
        ? BHTF_ACCEPTED : BHTF_DELTA_DAMAGED;
}

uint32_t bhtf_delta_head(const uint8_t *bytes, size_t length,
                         struct bhtf_delta *delta)
{
    uint32_t number = read_head(bytes, length);

    memset(delta, 0, sizeof *delta);
    if (number != BHTF_ACCEPTED)
        return number;
    delta->size = layer_u32(bytes + SIZE_AT);
    delta->image_len = layer_u32(bytes + LENGTH_AT);
    memcpy(delta->before, bytes + BEFORE_AT, BHTF_SUM);
    memcpy(delta->after, bytes + AFTER_AT, BHTF_SUM);
    return BHTF_ACCEPTED;
}

/* Are these `size` bytes pairs in their order, inside an image of that length,
 * with as many new bytes as they say? */
static int content_fits(const uint8_t *content, size_t size, uint32_t length)
{
    uint32_t count = layer_u32(content);
    uint64_t end = 0, sum = 0;

    if (count > (size - COUNT) / PAIR)
        return 0;
    for (uint32_t i = 0; i < count; i++) {
        const uint8_t *pair = content + COUNT + (size_t)i * PAIR;
        uint32_t from = layer_u32(pair), bytes = layer_u32(pair + 4);

        if (from < end || bytes > length || from > length - bytes)
            return 0;
        end = (uint64_t)from + bytes;
        sum += bytes;
    }
    return COUNT + (uint64_t)count * PAIR + sum == size;
}

static uint32_t check_rest(const uint8_t *bytes, size_t length,
                           const struct bhtf_delta *delta)
{
    uint8_t sum[BHTF_SUM];
    size_t body = delta->size - BHTF_SUM;

    if (length < delta->size)
        return BHTF_DELTA_CUT;
    bhtf_sum(bytes, body, sum);
    if (!same_sum(sum, bytes + body))
        return BHTF_DELTA_DAMAGED;
    return content_fits(bytes + CONTENT_AT, body - CONTENT_AT,
                        delta->image_len) ? BHTF_ACCEPTED : BHTF_DELTA_WRONG;
}

uint32_t bhtf_delta_check(const uint8_t *bytes, size_t length,
                          struct bhtf_delta *delta)
{
    uint32_t number = bhtf_delta_head(bytes, length, delta);

    if (number == BHTF_ACCEPTED)
        number = check_rest(bytes, length, delta);
    if (number == BHTF_ACCEPTED)
        delta->stretches = layer_u32(bytes + CONTENT_AT);
    else
        memset(delta, 0, sizeof *delta);
    return number;
}

int bhtf_delta_next(const uint8_t *record, struct bhtf_stretch *s)
{
    uint32_t count = layer_u32(record + CONTENT_AT);
    const uint8_t *pair = record + CONTENT_AT + COUNT +
                          (size_t)s->number * PAIR;

    if (s->number >= count)
        return 0;
    s->at = s->number == 0 ? CONTENT_AT + COUNT + (size_t)count * PAIR
                           : s->at + s->length;
    s->offset = layer_u32(pair);
    s->length = layer_u32(pair + 4);
    s->number++;
    return 1;
}

/* ---- applying ---- */

/* Copies the new bytes into an image that they are for. */
static void write_record(const uint8_t *record, uint8_t *image)
{
    struct bhtf_stretch s = { 0, 0, 0, 0 };

    while (bhtf_delta_next(record, &s))
        memcpy(image + s.offset, record + s.at, s.length);
}

/* The bytes of a record that was checked, and its sums in it. */
static size_t size_of(const uint8_t *record)
{
    return layer_u32(record + SIZE_AT);
}

static const uint8_t *before_of(const uint8_t *record)
{
    return record + BEFORE_AT;
}

static const uint8_t *after_of(const uint8_t *record)
{
    return record + AFTER_AT;
}

/* Does a record go on where the one before it ends, or repeat it? */
static int goes_on(const uint8_t *front, const uint8_t *record)
{
    return same_sum(after_of(front), before_of(record)) ||
           (same_sum(before_of(front), before_of(record)) &&
            same_sum(after_of(front), after_of(record)));
}

/* Every record by itself. */
static uint32_t check_all(const uint8_t *records, size_t length,
                          struct bhtf_applied *done)
{
    struct bhtf_delta delta;
    size_t at = 0;

    do {
        uint32_t number = bhtf_delta_check(records + at, length - at, &delta);

        if (number != BHTF_ACCEPTED)
            return number;
        done->record++;
        at += delta.size;
    } while (at < length);
    return BHTF_ACCEPTED;
}

/* What is applied to an image with check sum *sum, and what the sum is then.
 * One that begins there is applied, one that ends there passed over, and so are
 * those that lead up to it without a gap: the image had them. */
static uint32_t take_all(const uint8_t *records, size_t length,
                         size_t image_len, const uint8_t **sum, uint8_t *work,
                         struct bhtf_applied *done)
{
    const uint8_t *front = NULL;
    uint32_t older = 0; /* in front, that are to be led up from */

    done->record = 0;
    for (size_t at = 0; at < length; at += size_of(front), done->record++) {
        const uint8_t *record = records + at;

        if (layer_u32(record + LENGTH_AT) != image_len)
            return BHTF_DELTA_LENGTH;
        if (older > 0 && !goes_on(front, record))
            return BHTF_DELTA_GAP;
        if (same_sum(after_of(record), *sum)) {
            older = 0;
        } else if (same_sum(before_of(record), *sum)) {
            write_record(record, work);
            done->applied++;
            *sum = after_of(record);
        } else {
            older++;
        }
        front = record;
    }
    done->passed = done->record - done->applied;
    if (older > 0)
        done->record -= older;
    return older == 0 ? BHTF_ACCEPTED : BHTF_DELTA_GAP;
}

/* Has the new image the sum that the last record promises, and is it one? */
static uint32_t ask_new(const uint8_t *work, size_t image_len,
                        const uint8_t *promised)
{
    uint8_t sum[BHTF_SUM];
    uint32_t count;

    bhtf_sum(work, image_len, sum);
    return same_sum(sum, promised) &&
           bhtf_count(work, image_len, &count) == BHTF_ACCEPTED
        ? BHTF_ACCEPTED : BHTF_DELTA_FALSE;
}

/* A refused call has applied nothing. */
static uint32_t ended(struct bhtf_applied *done, uint32_t number)
{
    if (number != BHTF_ACCEPTED) {
        done->applied = done->passed = 0;
        memset(done->sum, 0, BHTF_SUM);
    } else {
        done->record = 0;
    }
    return number;
}

uint32_t layer_apply(const uint8_t *image, size_t image_len,
                     const uint8_t *records, size_t records_len,
                     const uint8_t *end, uint8_t *work,
                     struct bhtf_applied *done)
{
    uint32_t count, number = bhtf_count(image, image_len, &count);
    uint8_t before[BHTF_SUM];
    const uint8_t *sum = before;

    memset(done, 0, sizeof *done);
    if (number == BHTF_ACCEPTED)
        number = check_all(records, records_len, done);
    if (number != BHTF_ACCEPTED)
        return ended(done, number);
    bhtf_sum(image, image_len, before);
    memcpy(work, image, image_len);
    number = take_all(records, records_len, image_len, &sum, work, done);
    if (number == BHTF_ACCEPTED && done->applied > 0)
        number = ask_new(work, image_len, sum);
    if (number == BHTF_ACCEPTED && end != NULL && !same_sum(end, sum))
        number = BHTF_DELTA_END;
    if (done->record > 0 && (number == BHTF_DELTA_FALSE ||
                             number == BHTF_DELTA_END))
        done->record--; /* the last one */
    memcpy(done->sum, sum, BHTF_SUM);
    return ended(done, number);
}

uint32_t bhtf_delta_apply(uint8_t *image, size_t image_len,
                          const uint8_t *records, size_t records_len,
                          const uint8_t *end, uint8_t *work, size_t work_len,
                          struct bhtf_applied *done)
{
    uint32_t number;

    memset(done, 0, sizeof *done);
    if (work_len < image_len)
        return BHTF_SHORT_SLICE;
    number = layer_apply(image, image_len, records, records_len, end, work,
                         done);
    if (number == BHTF_ACCEPTED && done->applied > 0)
        memcpy(image, work, image_len);
    return number;
}
