/* Bytes that grow. */
#ifndef BUFFER_H
#define BUFFER_H

#include <stddef.h>
#include <stdint.h>
#include <stdio.h>

/* All zero is the empty buffer. */
struct buffer {
    uint8_t *bytes;
    size_t length;
    size_t room;
};

/* 0, or -1 when memory is short; the buffer is then as it was. */
int buffer_put(struct buffer *b, const void *bytes, size_t length);
int buffer_put_byte(struct buffer *b, uint8_t byte);
void buffer_free(struct buffer *b);

/* Reads a whole stream, but no more than `most` bytes: 0, or -1 with errno. */
int buffer_read(struct buffer *b, FILE *from, size_t most);

#endif
