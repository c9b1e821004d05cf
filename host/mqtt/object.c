/* Objects, packed with libzstd. A station's firmware needs its decoder alone;
 * without WITH_ZSTD objects are plain, and packed ones are refused. */
#include "object.h"

#include "wire.h"

#include <string.h>

enum { PLAIN = 0, PACKED = 1, PACKED_HEAD = 5,
       WORTH = 64 };  /* what is shorter is not tried */

#ifdef WITH_ZSTD

#include <zstd.h>

/* Records and stretches are short: the best level costs little time. A large
 * one takes a faster level. */
static int level_for(size_t size)
{
    return size <= 1u << 20 ? 19 : 9;
}

static size_t pack(uint8_t *to, const uint8_t *plain, size_t size)
{
    size_t n;

    if (size < WORTH)
        return 0;
    n = ZSTD_compress(to + PACKED_HEAD, size - (PACKED_HEAD - 1), plain, size,
                      level_for(size));
    return ZSTD_isError(n) ? 0 : n;
}

static int unpack(uint8_t *plain, size_t want, const uint8_t *packed,
                  size_t size)
{
    size_t n = ZSTD_decompress(plain, want, packed, size);

    return !ZSTD_isError(n) && n == want;
}

#else

static size_t pack(uint8_t *to, const uint8_t *plain, size_t size)
{
    (void)to;
    (void)plain;
    (void)size;
    return 0;
}

static int unpack(uint8_t *plain, size_t want, const uint8_t *packed,
                  size_t size)
{
    (void)plain;
    (void)want;
    (void)packed;
    (void)size;
    return 0;
}

#endif

size_t object_pack(uint8_t *to, const uint8_t *plain, size_t size)
{
    size_t n = pack(to, plain, size);

    if (n > 0) {
        to[0] = PACKED;
        wire_put_u32(to + 1, (uint32_t)size);
        return PACKED_HEAD + n;
    }
    to[0] = PLAIN;
    memcpy(to + 1, plain, size);
    return 1 + size;
}

int object_unpack(uint8_t *plain, size_t room, size_t *plain_size,
                  const uint8_t *object, size_t size)
{
    *plain_size = 0;
    if (size > 1 && object[0] == PLAIN && size - 1 <= room) {
        *plain_size = size - 1;
        memcpy(plain, object + 1, size - 1);
        return 1;
    }
    if (size <= PACKED_HEAD || object[0] != PACKED ||
        wire_u32(object + 1) > room)
        return 0;
    *plain_size = wire_u32(object + 1);
    return unpack(plain, *plain_size, object + PACKED_HEAD,
                  size - PACKED_HEAD);
}
