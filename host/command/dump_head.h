/* What a dump says of a file besides its points: the header's values that make
 * an equal empty file. */
#ifndef DUMP_HEAD_H
#define DUMP_HEAD_H

#include "buffer.h"
#include "file_version.h"

enum { SCRAMBLES_MAX = 256 };

struct dump_head {
    unsigned said;         /* which lines were taken, as bits */
    struct version version; /* 0: not said */
    uint64_t size;         /* of the file; 0: not said */
    uint64_t key_size;     /* 0: not said */
    uint64_t slots;
    uint64_t serial;
    uint64_t seed;
    int seeded;            /* the scramble is that of the seed, and the next
                              six say nothing */
    uint64_t multiplier;
    uint64_t start;
    uint64_t first;        /* scrambled characters, from this one */
    uint64_t last;
    uint32_t scramble[SCRAMBLES_MAX];
    size_t scrambles;
};

/* Those that a dump begins with. */
void dump_head_clear(struct dump_head *t);

/* Of an image that was accepted. */
void dump_head_read(struct dump_head *t, const uint8_t *image, size_t length);

/* One line a value: 0, or -1 for no memory. */
int dump_head_put(const struct dump_head *t, struct buffer *to);

/* Takes such a line, without its end: NULL, or what is wrong. */
const char *dump_head_take(struct dump_head *t, const char *line);

/* NULL if its lines go together, or what is wrong. */
const char *dump_head_whole(const struct dump_head *t);

/* Makes an empty file of the whole image: the library's number, or -1 for no
 * memory. */
int64_t dump_head_create(const struct dump_head *t, uint8_t *image,
                         size_t length);

#endif
