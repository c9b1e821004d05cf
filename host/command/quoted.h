/* Bytes as quoted text on one line: what prints as it is, \" \\ \n \r \t, and
 * \xHH for every other byte. */
#ifndef QUOTED_H
#define QUOTED_H

#include "buffer.h"

/* 0, or -1 for no memory. */
int quoted_put(struct buffer *to, const uint8_t *bytes, size_t length);

/* The same to a stream, part by part: a text may be as long as a file. */
int quoted_print(FILE *to, const uint8_t *bytes, size_t length);

/* A name without the zero bytes that pad it: 0, or -1 for no memory. */
int quoted_put_name(struct buffer *to, const uint8_t *key, size_t length);

/* Reads quoted text at `at`: where it ends, or NULL after *wrong was set. */
const uint8_t *quoted_take(struct buffer *to, const uint8_t *at,
                           const uint8_t *end, const char **wrong);

#endif
