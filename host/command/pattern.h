/* Patterns for names, as shells have them. */
#ifndef PATTERN_H
#define PATTERN_H

#include "buffer.h"

/* * stands for any characters or none, ? for one, [..] for one of several or of
 * a range, [!..] for any other. A character is one of UTF-8, or a byte that is
 * none. \xHH stands for that byte, and a backslash takes the meaning from a *,
 * ?, [ or ] after it. A [ that is not closed is itself. */
struct pattern {
    struct buffer parts;   /* struct part */
    struct buffer ranges;  /* struct range, of the parts in brackets */
    int wild;              /* does it have one of *, ? and [..]? */
};

/* 0, or -1 for no memory; it is freed in both cases. */
int pattern_make(struct pattern *p, const char *typed);
void pattern_free(struct pattern *p);

/* Is all of the name, without its padding, what the pattern says? */
int pattern_matches(const struct pattern *p, const uint8_t *name,
                    size_t length);

#endif
