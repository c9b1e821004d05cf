/* The sum of an image that people compare by voice. */
#include "short_sum.h"

#include "bhtf_delta.h"

#include <stdio.h>

void sum_shorten(char to[SHORT_SUM], const uint8_t *sum)
{
    snprintf(to, SHORT_SUM, "%02x%02x-%02x%02x", sum[0], sum[1], sum[2],
             sum[3]);
}

void short_sum(char to[SHORT_SUM], const uint8_t *image, size_t length)
{
    uint8_t sum[BHTF_SUM];

    bhtf_sum(image, length, sum);
    sum_shorten(to, sum);
}
