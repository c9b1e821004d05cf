/* Several records as one. */
#ifndef SQUASH_H
#define SQUASH_H

#include <stddef.h>
#include <stdint.h>

/* A stretch of an image. */
struct squash_pair {
    uint32_t at;
    uint32_t size;
};

/* Sorts pairs, and joins those that meet: answers how many are left. */
size_t squash_pairs(struct squash_pair *pair, size_t count);

/* Writes the record that has these pairs and leads to an image. The record has
 * room for the image's length and BHTF_DELTA_MOST bytes. Answers its size. */
size_t squash_record(uint8_t *record, const struct squash_pair *pair,
                     size_t count, const uint8_t *after, uint32_t length,
                     const uint8_t *before_sum, const uint8_t *after_sum);

#endif
