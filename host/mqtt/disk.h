/* Small files that are there whole or not at all. */
#ifndef DISK_H
#define DISK_H

#include <stddef.h>
#include <stdint.h>

/* Writes a file by way of another name; `sync`: it is on the disk when this
 * returns. The bytes are those of two pieces. 0, or -1 with errno. */
int disk_write(const char *path, const uint8_t *first, size_t first_size,
               const uint8_t *second, size_t second_size, int sync);

/* The size, 0 if there is none; to NULL only asks. More than `room` bytes are
 * not read. */
size_t disk_read(const char *path, uint8_t *to, size_t room);

/* Memory in pieces that grow. */
struct memory {
    uint8_t *piece[32];
    size_t size[32];
};

uint8_t *memory_lend(struct memory *m, unsigned place, size_t bytes);
void memory_free(struct memory *m);

#endif
