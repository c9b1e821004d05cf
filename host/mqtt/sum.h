/* SHA-256: libcrypto's, which uses the machine's own instructions, where it is
 * linked; else the library's. */
#ifndef SUM_H
#define SUM_H

#include <stddef.h>
#include <stdint.h>

void sum_of(const uint8_t *bytes, size_t size, uint8_t sum[32]);

#endif
