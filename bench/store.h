/* What the driver asks of a subject; one subject is linked into a program. */
#ifndef STORE_H
#define STORE_H

#include <stddef.h>
#include <stdint.h>
#include <string.h>

enum { DONE = 0, ABSENT = 14, FAILED = 99 };

struct text {
    const uint8_t *bytes;
    size_t length;
};

/* What a walk saw: how many points, their names in any order, and, for an
 * image, where each name stands, in order. Names differ in their last 4
 * bytes. */
struct seen {
    const uint8_t *origin;
    uint32_t key_size;
    uint32_t points;
    uint64_t names;
    uint64_t places;
};

struct store {
    /* Prepares the file; key size, slots and bytes for messages. */
    int (*open)(const char *path, uint32_t key_size, uint32_t slots,
                size_t room);
    /* Makes it empty. */
    int (*reset)(void);
    int (*add)(const uint8_t *key, struct text text);
    int (*replace)(const uint8_t *key, struct text text);
    int (*append)(const uint8_t *key, struct text text); /* may be null */
    int (*remove)(const uint8_t *key);
    int (*lookup)(const uint8_t *key, struct text *text);
    int (*walk)(struct seen *seen);
    int (*check)(void);                                  /* may be null */
    uint32_t (*count)(void);
    /* Around a run of calls, counted with them; both may be null. */
    int (*begin)(int writing);
    int (*end)(void);
    /* The image's bytes; null if the subject has another format. */
    const uint8_t *(*image)(size_t *length);
    void (*close)(void);
};

#ifdef __cplusplus
extern "C" {
#endif
extern const struct store store;
#ifdef __cplusplus
}
#endif

static inline uint64_t mix(uint64_t digest, uint64_t value)
{
    return (digest ^ value) * 0x9E3779B97F4A7C15u;
}

static inline void see(struct seen *seen, const uint8_t *key)
{
    uint32_t tail;

    memcpy(&tail, key + seen->key_size - 4, 4);
    seen->points++;
    seen->names += mix(0, tail);
    if (seen->origin)
        seen->places = mix(seen->places, (uint64_t)(key - seen->origin));
}

#endif
