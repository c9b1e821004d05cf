/* The sum of an image that people compare by voice. */
#ifndef SHORT_SUM_H
#define SHORT_SUM_H

#include <stddef.h>
#include <stdint.h>

/* The first eight hexadecimal digits of the SHA-256 of all its bytes, as
 * 7f3a-91c2. Deltas carry the whole sums of both their images. */
#define SHORT_SUM 10u

void sum_shorten(char to[SHORT_SUM], const uint8_t *sum);

/* The same from the image itself. */
void short_sum(char to[SHORT_SUM], const uint8_t *image, size_t length);

#endif
