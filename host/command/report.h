/* A report of the prisms that moved from one epoch to another. */
#ifndef REPORT_H
#define REPORT_H

#include "change.h"
#include "commands.h"
#include "congruence.h"
#include "series.h"

/* What is to be said of a prism, in the order of the report. */
enum standing {
    BEYOND,      /* moved by more than the tolerance */
    BROKEN,      /* a reading is damaged */
    UNREAD,      /* a reading has no coordinates in common with the other */
    MISSING,     /* there is none at one of the epochs, or at both */
    INSIDE,      /* moved by no more, or no tolerance was given */
    STANDINGS
};

struct row {
    const struct prism *prism;
    const struct spot *from;     /* NULL: there is none */
    const struct spot *to;
    struct became became;
    struct displacement d;
    struct congruence test;
    enum standing standing;
};

struct report {
    const struct options *o;
    struct series series;
    struct reckoning r;
    struct precision precision;
    uint32_t from;
    uint32_t to;
    struct row *rows;            /* one for each prism */
    size_t count;
    size_t standings[STANDINGS];
};

/* The word for what is said of a prism. */
const char *standing_word(const struct report *r, const struct row *row);

/* "no reading at 45, the last before it at 44", or the like: why a row has no
 * movement. */
void row_reason(char *to, size_t room, const struct report *r,
                const struct row *row);

/* "5 prisms: 1 beyond 3 mm, 3 within it, 1 missing" */
void report_counts(char *to, size_t room, const struct report *r);

/* The test, its deviations and quantiles, in words; empty without --sigma. */
void report_test(char *to, size_t room, const struct report *r);

/* "2026-11-16 (2967)", or the number alone if that was typed. */
void epoch_show(char *to, size_t room, const char *typed, uint32_t epoch);

/* All of it as text, CSV or JSON: DONE, or TROUBLE after a complaint. */
int report_print(const struct report *r);

/* All of it as a sheet, which is SVG. */
int report_draw(const struct report *r);

#endif
