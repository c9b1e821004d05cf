/* See samples.h. */
#define _POSIX_C_SOURCE 200809L
#include "samples.h"

#include <stdio.h>
#include <stdlib.h>
#include <string.h>
#include <time.h>

static unsigned passed;
static unsigned failed;

void expect(const char *what, int holds)
{
    passed += (unsigned)holds;
    failed += (unsigned)!holds;
    if (!holds)
        printf("FAILED: %s\n", what);
}

double now(void)
{
    struct timespec t;

    clock_gettime(CLOCK_PROCESS_CPUTIME_ID, &t);
    return (double)t.tv_sec * 1e9 + (double)t.tv_nsec;
}

int rising(const void *a, const void *b)
{
    double one = *(const double *)a, other = *(const double *)b;

    return (one > other) - (one < other);
}

double median(const double *of, int count)
{
    double sorted[SAMPLES_MAX];

    memcpy(sorted, of, (size_t)count * sizeof *of);
    qsort(sorted, (size_t)count, sizeof *sorted, rising);
    return sorted[count / 2];
}

int expected(void)
{
    printf("%u passed, %u failed\n", passed, failed);
    return failed != 0;
}
