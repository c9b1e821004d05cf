/* The file layer's journal: its bytes, and how they are read and written. */
#include "layer_journal.h"

#include <errno.h>
#include <string.h>
#include <unistd.h>

static const uint8_t head_magic[8] = { 'B', 'H', 'T', 'F', 'J', 'R', 'N', '2' };
static const uint8_t base_magic[8] = { 'B', 'H', 'T', 'F', 'b', 'a', 's', 'e' };

/* ---- numbers ---- */

uint32_t layer_u32(const uint8_t *at)
{
    return (uint32_t)at[0] << 24 | (uint32_t)at[1] << 16 |
           (uint32_t)at[2] << 8 | at[3];
}

void layer_put_u32(uint8_t *at, uint32_t value)
{
    at[0] = (uint8_t)(value >> 24);
    at[1] = (uint8_t)(value >> 16);
    at[2] = (uint8_t)(value >> 8);
    at[3] = (uint8_t)value;
}

static uint64_t take_u64(const uint8_t *at)
{
    return (uint64_t)layer_u32(at) << 32 | layer_u32(at + 4);
}

static void put_u64(uint8_t *at, uint64_t value)
{
    layer_put_u32(at, (uint32_t)(value >> 32));
    layer_put_u32(at + 4, (uint32_t)value);
}

/* ---- head and base ---- */

void layer_put_head(uint8_t bytes[HEAD_BYTES], struct head *h)
{
    memcpy(bytes, head_magic, sizeof head_magic);
    for (int i = 0; i < HEAD_SUM; i++)
        put_u64(bytes + 8 + 8 * i, h->number[i]);
    h->number[HEAD_SUM] = layer_xxh64(bytes, HEAD_BYTES - 8, 0);
    put_u64(bytes + HEAD_BYTES - 8, h->number[HEAD_SUM]);
}

int layer_take_head(const uint8_t bytes[HEAD_BYTES], struct head *h)
{
    for (int i = 0; i < HEAD_NUMBERS; i++)
        h->number[i] = take_u64(bytes + 8 + 8 * i);
    return memcmp(bytes, head_magic, sizeof head_magic) == 0 &&
           h->number[HEAD_SUM] == layer_xxh64(bytes, HEAD_BYTES - 8, 0);
}

void layer_put_base(uint8_t bytes[BASE_BYTES], const struct base *b)
{
    memcpy(bytes, base_magic, sizeof base_magic);
    put_u64(bytes + 8, b->reach);
    put_u64(bytes + 16, b->sum);
    put_u64(bytes + 24, layer_xxh64(bytes, BASE_BYTES - 8, 0));
}

int layer_take_base(const uint8_t bytes[BASE_BYTES], struct base *b)
{
    b->reach = take_u64(bytes + 8);
    b->sum = take_u64(bytes + 16);
    return memcmp(bytes, base_magic, sizeof base_magic) == 0 &&
           take_u64(bytes + 24) == layer_xxh64(bytes, BASE_BYTES - 8, 0);
}

uint64_t layer_content_sum(const uint8_t *content, uint64_t length)
{
    uint64_t sum = 0;

    for (uint64_t at = 0; at < length; at += LAYER_PAGE)
        sum += layer_xxh64(content + at, length - at < LAYER_PAGE
                           ? (size_t)(length - at) : LAYER_PAGE,
                           at / LAYER_PAGE);
    return sum;
}

/* ---- reading and writing ---- */

int layer_write_at(int fd, const void *bytes, size_t length, uint64_t at)
{
    const uint8_t *from = bytes;

    while (length > 0) {
        ssize_t done = pwrite(fd, from, length, (off_t)at);

        if (done < 0 && errno == EINTR)
            continue;
        if (done <= 0)
            return done < 0 ? errno : EIO;
        from += done;
        length -= (size_t)done;
        at += (uint64_t)done;
    }
    return 0;
}

int layer_read_at(int fd, void *bytes, size_t length, uint64_t at)
{
    uint8_t *to = bytes;

    while (length > 0) {
        ssize_t done = pread(fd, to, length, (off_t)at);

        if (done < 0 && errno == EINTR)
            continue;
        if (done <= 0)
            return done < 0 ? errno : EIO;
        to += done;
        length -= (size_t)done;
        at += (uint64_t)done;
    }
    return 0;
}

int layer_flush(const bhtf_file *f, int fd)
{
    int failed;

    if (f->how.flags & BHTF_FILE_NO_SYNC)
        return 0;
    do
        failed = fdatasync(fd);
    while (failed && errno == EINTR);
    return failed ? errno : 0;
}
