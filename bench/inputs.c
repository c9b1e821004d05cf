#include "inputs.h"

#include <stdio.h>
#include <stdlib.h>
#include <string.h>

#define TAILS (36u * 36u * 36u * 36u)
enum { NETWORKS = 8, TAIL = 4 };

/* Splitmix64. */
uint64_t draw(struct random *r)
{
    uint64_t z = r->state += 0x9E3779B97F4A7C15u;

    z = (z ^ (z >> 30)) * 0xBF58476D1CE4E5B9u;
    z = (z ^ (z >> 27)) * 0x94D049BB133111EBu;
    return z ^ (z >> 31);
}

uint32_t draw_below(struct random *r, uint32_t bound)
{
    return (uint32_t)(((draw(r) >> 32) * bound) >> 32);
}

/* A tail not seen before. */
static uint32_t draw_tail(struct random *r, uint8_t *used)
{
    uint32_t tail;

    do
        tail = draw_below(r, TAILS);
    while (used[tail]);
    used[tail] = 1;
    return tail;
}

static void write_tail(uint8_t *at, uint32_t tail)
{
    static const char characters[] = "0123456789ABCDEFGHIJKLMNOPQRSTUVWXYZ";

    for (int i = 0; i < TAIL; i++) {
        at[i] = (uint8_t)characters[tail % 36];
        tail /= 36;
    }
}

uint8_t *draw_names(struct random *r, uint32_t key_size, uint32_t count)
{
    uint8_t networks[NETWORKS][KEY_MAX];
    uint32_t prefix = key_size - TAIL;
    uint8_t *names = malloc((size_t)count * key_size);
    uint8_t *used = calloc(TAILS, 1);

    if (!names || !used || count > TAILS / 2)
        abort();
    for (int i = 0; i < NETWORKS; i++)
        for (int j = 0; j < KEY_MAX; j++)
            networks[i][j] = (uint8_t)('A' + draw_below(r, 26));
    for (uint32_t i = 0; i < count; i++) {
        uint8_t *name = names + (size_t)i * key_size;

        memcpy(name, networks[draw_below(r, NETWORKS)], prefix);
        write_tail(name + prefix, draw_tail(r, used));
    }
    free(used);
    return names;
}

uint32_t draw_message(struct random *r, uint32_t name, uint8_t *text)
{
    static const char *const notes[] = {
        "bolt", "pillar", "stone", "church", "pipe", "marker", "tower", "mast",
    };
    unsigned east = draw_below(r, 1000000000), north = draw_below(r, 1000000000);
    unsigned height = draw_below(r, 1000000);
    int length = snprintf((char *)text, TEXT_MAX,
                          "E%06u.%03u N%07u.%03u H%03u.%03u %s",
                          east / 1000, east % 1000, north / 1000, north % 1000,
                          height / 1000, height % 1000, notes[name % 8]);

    return (uint32_t)length;
}
