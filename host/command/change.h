/* What became of a point from one file to another: one reckoning for diff, the
 * plan, apply and show. */
#ifndef CHANGE_H
#define CHANGE_H

#include "coords.h"

enum change {
    SAME,
    WITHIN,   /* moved, by no more than the tolerance, and nothing else */
    NEW,
    GONE,
    MOVED,
    TEXT,     /* not moved, and the text is another one */
    DAMAGED,  /* in one of the files, or in both: nothing is known of it */
    CHANGES
};

/* What it is asked with. */
struct reckoning {
    double tolerance;       /* millimetres that are no move; 0 for none */
    struct record records[2];
    size_t changes[CHANGES]; /* how many of each were reckoned */
};

/* What of a text differs, as bits; more than one may. */
enum detail {
    DETAIL_MOVE = 1,         /* told in millimetres */
    DETAIL_HAIR = 2,         /* by less than MOVE_LEAST */
    DETAIL_PLACE_NEW = 4,
    DETAIL_PLACE_GONE = 8,
    DETAIL_HEIGHT_NEW = 16,
    DETAIL_HEIGHT_GONE = 32,
    DETAIL_NOTE = 64,
    DETAIL_OTHER = 128,      /* one of the texts is not coordinates */
    DETAIL_WRITTEN = 256     /* none of these: another spelling */
};

struct became {
    enum change change;
    unsigned details;
    struct move move;
};

/* The word for a change. */
const char *change_word(enum change change);

/* Reckons, and counts; one of the spots may be NULL. */
struct became reckon(struct reckoning *r, const struct spot *old,
                     const struct spot *now);

/* It in words: "2.0 mm: E +2.0, N +0.0; another note". 0, or -1 for no
 * memory. */
int became_words(struct reckoning *r, struct buffer *to,
                 const struct became *b, const struct spot *old,
                 const struct spot *now);

/* "3 same, 1 new, ..", all of the counts that there are. */
void counts_words(char *to, size_t room, const struct reckoning *r);

/* Did anything change that the tolerance does not pass over? */
int is_changed(const struct reckoning *r);

/* A length of millimetres with its unit, as diff and the plan show it: metres
 * from 1 m on. `sign`: with a plus where it is above zero. */
void length_show(char *to, size_t room, double mm, int sign);

/* Writes a number with that many decimals, and no minus before a zero. */
void decimals_show(char *to, size_t room, double value, int decimals,
                   int sign);

/* --tolerance: millimetres, with mm after them or not. 0, or -1. */
int tolerance_read(double *tolerance, const char *word);

void reckoning_free(struct reckoning *r);

/* ---- all points of two files ---- */

/* Prints to `out` a line for each point that changed, in the order of names,
 * and sorts both sites for it: DONE, or TROUBLE after a complaint. */
int differences_print(struct reckoning *r, struct site *old, struct site *now,
                      int tsv, FILE *out);

#endif
