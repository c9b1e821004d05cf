/* Epochs: in a file of them the last four bytes of a key are a number, most
 * significant byte first, after the name, which is padded with zero bytes. */
#ifndef EPOCH_H
#define EPOCH_H

#include "buffer.h"

#include <stdint.h>

#define EPOCH_SIZE 4u

/* An epoch as typed: a number, or a date YYYY-MM-DD, which stands for the days
 * from 1970-01-01 to it, or with `weeks` for the whole weeks from Monday,
 * 1970-01-05, to it, which are those of ISO 8601. Such a week, YYYY-Www, stands
 * for its Monday. 0, or -1 if it is none of these. */
int epoch_read(const char *word, int weeks, uint32_t *epoch);

/* The key of a name as typed and an epoch. A name that is too long stays so,
 * and the library refuses it. 0, or -1 for no memory. */
int epoch_key(struct buffer *key, const uint8_t *typed, size_t length,
              uint32_t epoch, uint32_t key_size);

/* The key of a name: with --epoch in a file of epochs, else as key_from makes
 * it. 0, or -1 for no memory. */
struct options;
int key_named(struct buffer *key, const struct options *o,
              const uint8_t *typed, size_t length, uint32_t key_size);

/* The words for a text that is none. */
#define EPOCH_IS "an epoch is a number from 0 to 4294967295, a date " \
                 "YYYY-MM-DD or a week YYYY-Www"

/* A key of name and epoch as it is shown: "PRISM-07 at 45". 0, or -1 for no
 * memory. */
int dated_show(struct buffer *to, const uint8_t *key, uint32_t key_size);

/* The epoch of a key of key_size bytes, at least five. */
uint32_t epoch_of(const uint8_t *key, uint32_t key_size);

#endif
