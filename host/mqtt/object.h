/* What is cut into chunks: a record, a manifest or a stretch, packed or plain.
 * The first byte says which: 0, plain bytes follow; 1, the plain size in four
 * bytes and what zstd made of them. */
#ifndef OBJECT_H
#define OBJECT_H

#include <stddef.h>
#include <stdint.h>

/* So many bytes always hold a packed object. */
#define OBJECT_ROOM(plain) ((plain) + 5u)

/* Packs, if that makes it shorter. Answers the object's size. */
size_t object_pack(uint8_t *to, const uint8_t *plain, size_t size);

/* Unpacks into at most `room` bytes, whatever the object says of its size:
 * other than 0 if that went well. */
int object_unpack(uint8_t *plain, size_t room, size_t *plain_size,
                  const uint8_t *object, size_t size);

#endif
