/* SHA-256. */
#include "sum.h"

#ifdef WITH_CRYPTO

#include <openssl/sha.h>

void sum_of(const uint8_t *bytes, size_t size, uint8_t sum[32])
{
    SHA256(bytes, size, sum);
}

#else

#include "bhtf_delta.h"

void sum_of(const uint8_t *bytes, size_t size, uint8_t sum[32])
{
    bhtf_sum(bytes, size, sum);
}

#endif
