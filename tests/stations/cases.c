/* Messages of the protocol: each bit of a head, a chunk and a station's word
 * matters, and no size that is told is believed. The last line is 'N passed, M
 * failed'. */
#include "bhtf_delta.h"
#include "object.h"
#include "station.h"

#include <stdio.h>
#include <stdlib.h>
#include <string.h>

static unsigned passed, failed;

static void that(int good, const char *what)
{
    if (good) {
        passed++;
    } else {
        failed++;
        printf("FAILED: %s\n", what);
    }
}

/* How many single changed bits of a message are still taken. */
static unsigned taken(uint8_t *bytes, size_t size,
                      int (*take)(const uint8_t *, size_t))
{
    unsigned n = 0;

    for (size_t i = 0; i < 8 * size; i++) {
        bytes[i / 8] ^= (uint8_t)(1u << i % 8);
        n += take(bytes, size) != 0;
        bytes[i / 8] ^= (uint8_t)(1u << i % 8);
    }
    for (size_t i = 0; i < size; i++)
        n += take(bytes, i) != 0;
    return n;
}

static int take_head(const uint8_t *b, size_t n)
{
    struct wire_head h;

    return wire_head_get(&h, b, n);
}

static int take_chunk(const uint8_t *b, size_t n)
{
    struct wire_chunk c;

    return wire_chunk_get(&c, b, n);
}

static int take_at(const uint8_t *b, size_t n)
{
    struct wire_at a;

    return wire_at_get(&a, b, n);
}

static int take_want(const uint8_t *b, size_t n)
{
    struct wire_place p;

    return wire_want_get(&p, b, n);
}

static struct wire_place place(uint32_t term, uint32_t seq)
{
    struct wire_place p = { "line abc", term, seq, { 1, 2, 3 } };

    return p;
}

static void messages(void)
{
    uint8_t bytes[512], record[40] = { 9 }, signature[WIRE_SIGNATURE] = { 7 };
    struct wire_head h = { place(1, 5), 4096, 4, 3, 2, record, 40, NULL };
    struct wire_chunk c = { 1, 3, record, record + 8, 20 };
    struct wire_at at = { place(1, 5), WIRE_UNFIT };
    struct wire_head back;
    size_t n;

    n = wire_head_put(bytes, &h);
    that(n == WIRE_HEAD + 40 + WIRE_CHECK && take_head(bytes, n), "a head");
    that(taken(bytes, n, take_head) == 0, "a damaged head");
    h.signature = signature;
    n = wire_head_put(bytes, &h);
    that(wire_head_get(&back, bytes, n) && back.signature != NULL &&
         memcmp(back.signature, signature, WIRE_SIGNATURE) == 0, "a signed head");
    that(taken(bytes, n - WIRE_SIGNATURE, take_head) == 0,
         "a damaged head with its signature cut off");
    h.base = 6;
    n = wire_head_put(bytes, &h);
    that(!take_head(bytes, n), "a head whose base is ahead of it");
    n = wire_chunk_put(bytes, &c);
    that(take_chunk(bytes, n), "a chunk");
    that(taken(bytes, n, take_chunk) == 0, "a damaged chunk");
    n = wire_at_put(bytes, &at);
    that(take_at(bytes, n) && taken(bytes, n, take_at) == 0,
         "a damaged word of a station");
    n = wire_want_put(bytes, &h.place);
    that(take_want(bytes, n) && taken(bytes, n, take_want) == 0,
         "a damaged wish of a station");
}

static void order(void)
{
    struct wire_place a = place(1, 5), b = place(1, 6), c = place(2, 0), d = a;

    d.line[0]++;
    that(wire_order(&a, &b) < 0 && wire_order(&b, &a) > 0, "by sequence");
    that(wire_order(&b, &c) < 0, "by term");
    that(wire_rivals(&a, &d) && !wire_rivals(&a, &c), "rivals");
}

static void paths(void)
{
    for (uint32_t from = 0; from < 600; from += 7)
        for (uint32_t to = from + 1; to < 1200; to += 13) {
            uint32_t at = from, steps = 0;
            int good = 1;

            while (at < to && steps++ < 100) {
                uint32_t level = wire_level[wire_step(at, to)];

                good = good && at % level == 0 && at + level <= to;
                at += level;
            }
            that(good && at == to, "a path of records");
        }
}

static void words(void)
{
    that(wire_word("north-1.a_b"), "a word");
    that(!wire_word("") && !wire_word("a/b") && !wire_word("a+") &&
         !wire_word("#") && !wire_word("$SYS") && !wire_word("a b") &&
         !wire_word("123456789012345678901234567890123"), "what is none");
}

static void bombs(void)
{
    uint8_t zeros[65536] = { 0 }, packed[OBJECT_ROOM(65536)], plain[65536];
    size_t n = object_pack(packed, zeros, sizeof zeros), m;

    that(n < 200 && object_unpack(plain, sizeof plain, &m, packed, n) &&
         m == sizeof zeros, "an object comes back");
    that(!object_unpack(plain, 4096, &m, packed, n),
         "one that unpacks to more than there is room for");
    wire_put_u32(packed + 1, 4096);
    that(!object_unpack(plain, 4096, &m, packed, n),
         "one that says less than it unpacks to");
    wire_put_u32(packed + 1, 65537);
    that(!object_unpack(plain, 65536, &m, packed, n),
         "one that says more than there is room for");
    packed[0] = 2;
    that(!object_unpack(plain, 65536, &m, packed, n), "one of another kind");
}

int main(void)
{
    messages();
    order();
    paths();
    words();
    bombs();
    printf("%u passed, %u failed\n", passed, failed);
    return failed > 0;
}
