/* Numbers, words and names as they are typed, and names as they are shown. */
#ifndef TYPED_H
#define TYPED_H

#include "buffer.h"

/* A number in decimal, or in hexadecimal after 0x: 0 if it is one from 0 to
 * `most`, else -1. */
int number_read(const char *word, uint64_t most, uint64_t *number);

/* The same, where K, M or G, with B or iB after it or not, stands for 2^10,
 * 2^20 or 2^30 times the number, and B alone for bytes. */
int size_read(const char *word, uint64_t most, uint64_t *number);

/* Are the bytes this word, whether in capitals or not? */
int same_word(const uint8_t *bytes, size_t length, const char *word);

/* A name as typed, where \xHH stands for one byte: 0, or -1 for no memory. */
int name_read(struct buffer *name, const uint8_t *typed, size_t length);

/* A name as shown: UTF-8 that prints as it is; other bytes, the backslash and
 * blanks at either end as \xHH; no zero bytes at its end. 0, or -1 for no
 * memory. */
int name_show(struct buffer *shown, const uint8_t *name, size_t length);

/* One byte as \xHH: 0, or -1 for no memory. */
int put_escape(struct buffer *to, uint8_t byte);

#endif
