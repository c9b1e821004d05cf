/* Points that are about to be stored, held against the others: whether they
 * lie where they can be meant to. */
#ifndef JUDGE_H
#define JUDGE_H

#include "neighbours.h"

/* A point that is new, or whose place is. */
struct mover {
    size_t key;          /* where it begins in the keys */
    unsigned long line;  /* of the input; 0: there is none */
    int was_placed;      /* the place that it had: */
    double easting;
    double northing;
    int was_levelled;
    double height;
};

struct movers {
    struct buffer keys;
    struct mover *all;
    size_t count;
    size_t room;
};

/* Takes note of a point; `old` is its text before, NULL if it had none. 0, or
 * -1 for no memory. */
int movers_put(struct movers *m, const struct buffer *key, unsigned long line,
               const struct piece *old);
void movers_free(struct movers *m);

/* What the points are held against. */
struct judgement {
    const char *file;
    const char *input;   /* with the lines; NULL: there is none */
    const struct neighbours *before; /* the file's points before the change */
    const uint8_t *image;            /* and all of it after */
    size_t length;
    uint32_t key_size;
    int dated;           /* the keys are names with epochs */
    uint64_t allowed;    /* bits of OPTION_ALLOW_.. */
};

/* Names the points that lie far from all others or within a centimetre of
 * another, and says if easting and northing seem to have changed places. DONE,
 * REFUSED if that is not allowed, or TROUBLE for no memory. */
int judge(const struct judgement *j, struct movers *m);

#endif
