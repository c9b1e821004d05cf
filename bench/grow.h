/* What growth's benchmark and the other engines' share: names and messages, and
 * times of single calls. */
#ifndef GROW_H
#define GROW_H

#include <stddef.h>
#include <stdint.h>

enum { KEY = 16, TEXT = 32 };

struct times {
    double *of;
    size_t count;
    size_t room;
};

/* The name of a number: no two numbers have the same. */
void name_of(uint8_t *key, uint32_t number);
const uint8_t *text_of(uint32_t number);

/* One call's nanoseconds more. */
void note_time(struct times *t, double spent);
void clear_times(struct times *t);

/* A Markdown line: mean, 99th percentile and longest, in microseconds. */
void print_times(uint32_t slots, const char *what, const char *who,
                 struct times *t);

#endif
