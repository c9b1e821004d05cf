/* Files that were in use: made by tuned C, in version 1. */
#include "used.h"

#include "../tests/calls.h"

#include <stdio.h>
#include <string.h>

extern const struct calls tuned_c;

enum { LONGEST = 1200 };
enum { NEW = 1, REPLACE = 2, WITHDRAW = 4 };

const struct used_size used_sizes[] = {
    { 65536, 58982, 400, 16777216 },
    { 1048576, 943718, 1060, 640u << 20 },
};

const size_t used_size_count = sizeof used_sizes / sizeof *used_sizes;

/* Names in no order: the number of each, scattered. */
static void name_of(uint8_t *key, uint32_t i)
{
    uint32_t number = (i + 1) * 2654435761u;

    snprintf((char *)key, USED_KEY + 1, "point %010lu", (unsigned long)number);
}

static uint32_t length_of(const struct used_size *z, uint32_t i)
{
    return (uint32_t)((uint64_t)(i * 2246822519u) * (z->longest + 1) >> 32);
}

static uint32_t put(uint8_t *image, const struct used_size *z, uint32_t i,
                    uint32_t length, uint32_t mode)
{
    static uint8_t text[LONGEST + 8];
    uint8_t key[USED_KEY + 1];

    memset(text, 'a' + (int)(i % 26), length);
    name_of(key, i);
    return tuned_c.add(image, z->length, key, USED_KEY, text, length, mode);
}

static uint32_t take(uint8_t *image, const struct used_size *z, uint32_t i)
{
    uint8_t key[USED_KEY + 1];

    name_of(key, i);
    return tuned_c.remove(image, z->length, key, USED_KEY);
}

static uint32_t nothing_dead(uint8_t *image, const struct used_size *z)
{
    uint32_t answers = tuned_c.create(image, z->length, USED_KEY, z->slots, 1);

    for (uint32_t i = 0; i < z->points; i++)
        answers |= put(image, z, i, length_of(z, i), NEW);
    return answers;
}

/* Of twenty points four get a longer text, two go, one's text is withdrawn. */
static uint32_t mixed(uint8_t *image, const struct used_size *z)
{
    uint32_t answers = nothing_dead(image, z);

    for (uint32_t i = 0; i < z->points; i++) {
        uint32_t part = i * 2654435761u >> 16;

        if (part % 20 < 4)
            answers |= put(image, z, i, length_of(z, i) + 1, REPLACE);
        else if (part % 20 < 6)
            answers |= take(image, z, i);
        else if (part % 20 < 7)
            answers |= put(image, z, i, 0, WITHDRAW);
    }
    return answers;
}

static uint32_t half_deleted(uint8_t *image, const struct used_size *z)
{
    uint32_t answers = nothing_dead(image, z);

    for (uint32_t i = 0; i < z->points; i += 2)
        answers |= take(image, z, i);
    return answers;
}

const struct used_kind used_kinds[] = {
    { "mixed", mixed },
    { "half deleted", half_deleted },
    { "nothing dead", nothing_dead },
};

const size_t used_kind_count = sizeof used_kinds / sizeof *used_kinds;
