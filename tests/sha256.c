/* sha256: the library's SHA-256 of standard input. sha256 N: those of its
 * first 0 to N bytes, a line each. */
#include "../host/include/bhtf_delta.h"

#include <stdio.h>
#include <stdlib.h>

static uint8_t bytes[1 << 21];

static void print_sum(size_t length)
{
    uint8_t sum[BHTF_SUM];

    bhtf_sum(bytes, length, sum);
    for (size_t i = 0; i < BHTF_SUM; i++)
        printf("%02x", (unsigned)sum[i]);
    putchar('\n');
}

int main(int argc, char **argv)
{
    size_t length = fread(bytes, 1, sizeof bytes, stdin);
    size_t most = argc > 1 ? (size_t)atol(argv[1]) : 0;

    if (length == sizeof bytes || most > length)
        return 1;
    if (argc == 1)
        print_sum(length);
    for (size_t n = 0; argc > 1 && n <= most; n++)
        print_sum(n);
    return 0;
}
