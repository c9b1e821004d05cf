/* What a journal is bound by: a sum over the bytes of its file that it does
 * not change.
 *
 * The sum of an image is that of its pages' XXH64, seeded with the page's
 * number, modulo 2^64: a page's share can be taken out and another put in, so
 * that a writer that stays open reads only the pages that it changes.
 */
#include "layer.h"

#include <string.h>

/* ---- XXH64 ---- */

#define P1 UINT64_C(0x9E3779B185EBCA87)
#define P2 UINT64_C(0xC2B2AE3D27D4EB4F)
#define P3 UINT64_C(0x165667B19E3779F9)
#define P4 UINT64_C(0x85EBCA77C2B2AE63)
#define P5 UINT64_C(0x27D4EB2F165667C5)

static uint64_t turn(uint64_t x, int bits)
{
    return x << bits | x >> (64 - bits);
}

/* Little-endian, whatever the machine is; compilers make one load of it. */
static uint64_t word64(const uint8_t *p)
{
    uint64_t x = 0;

    for (int i = 7; i >= 0; i--)
        x = x << 8 | p[i];
    return x;
}

static uint64_t word32(const uint8_t *p)
{
    return (uint64_t)p[3] << 24 | (uint64_t)p[2] << 16 | (uint64_t)p[1] << 8 |
           p[0];
}

static uint64_t stir(uint64_t lane, uint64_t word)
{
    return turn(lane + word * P2, 31) * P1;
}

static uint64_t join(uint64_t h, uint64_t lane)
{
    return (h ^ stir(0, lane)) * P1 + P4;
}

/* Takes in the bytes after the last 32, and ends. */
static uint64_t finish(uint64_t h, const uint8_t *p, size_t left)
{
    for (; left >= 8; p += 8, left -= 8)
        h = turn(h ^ stir(0, word64(p)), 27) * P1 + P4;
    if (left >= 4) {
        h = turn(h ^ word32(p) * P1, 23) * P2 + P3;
        p += 4;
        left -= 4;
    }
    for (; left > 0; p++, left--)
        h = turn(h ^ *p * P5, 11) * P1;
    h = (h ^ h >> 33) * P2;
    h = (h ^ h >> 29) * P3;
    return h ^ h >> 32;
}

uint64_t layer_xxh64(const uint8_t *bytes, size_t length, uint64_t seed)
{
    uint64_t a = seed + P1 + P2, b = seed + P2, c = seed, d = seed - P1;
    size_t left = length;
    uint64_t h;

    if (length < 32)
        return finish(seed + P5 + length, bytes, length);
    for (; left >= 32; bytes += 32, left -= 32) {
        a = stir(a, word64(bytes));
        b = stir(b, word64(bytes + 8));
        c = stir(c, word64(bytes + 16));
        d = stir(d, word64(bytes + 24));
    }
    h = turn(a, 1) + turn(b, 7) + turn(c, 12) + turn(d, 18);
    h = join(join(join(join(h, a), b), c), d);
    return finish(h + length, bytes, left);
}

/* ---- pages ---- */

static size_t pages_of(size_t length)
{
    return length / LAYER_PAGE + (length % LAYER_PAGE != 0);
}

static size_t page_length(size_t length, size_t page)
{
    size_t left = length - page * LAYER_PAGE;

    return left < LAYER_PAGE ? left : LAYER_PAGE;
}

static uint64_t page_sum(const uint8_t *image, size_t length, size_t page)
{
    return layer_xxh64(image + page * LAYER_PAGE, page_length(length, page),
                       page);
}

uint64_t layer_sum(const uint8_t *image, size_t length, uint64_t from,
                   uint64_t to)
{
    size_t end = pages_of((size_t)to);
    uint64_t sum = 0;

    for (size_t page = (size_t)(from / LAYER_PAGE); page < end; page++)
        sum += page_sum(image, length, page);
    return sum;
}

/* ---- pages that stretches meet ---- */

/* The sum of a page in which stretches, from pair i on, count as 0. */
static uint64_t masked_sum(const uint8_t *image, size_t length, size_t page,
                           const uint8_t *pairs, size_t count, size_t i)
{
    size_t start = page * LAYER_PAGE, size = page_length(length, page);
    uint8_t copy[LAYER_PAGE];

    memcpy(copy, image + start, size);
    for (; i < count; i++) {
        size_t from = layer_u32(pairs + 8 * i);
        size_t end = from + layer_u32(pairs + 8 * i + 4);

        if (from >= start + size)
            break;
        from = from > start ? from - start : 0;
        end = end < start + size ? end - start : size;
        memset(copy + from, 0, end - from);
    }
    return layer_xxh64(copy, size, page);
}

uint64_t layer_sum_met(const uint8_t *image, size_t length,
                       const uint8_t *pairs, size_t count, int masked)
{
    size_t next = 0; /* page */
    uint64_t sum = 0;

    for (size_t i = 0; i < count; i++) {
        size_t from = layer_u32(pairs + 8 * i);
        size_t size = layer_u32(pairs + 8 * i + 4);
        size_t page = from / LAYER_PAGE;

        if (size == 0)
            continue;
        for (page = page < next ? next : page;
             page <= (from + size - 1) / LAYER_PAGE; page++) {
            sum += masked ? masked_sum(image, length, page, pairs, count, i)
                          : page_sum(image, length, page);
            next = page + 1;
        }
    }
    return sum;
}
