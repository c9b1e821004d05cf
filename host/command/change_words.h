/* What became of a point: from one text to another, in fields and in
 * millimetres. */
#ifndef CHANGE_WORDS_H
#define CHANGE_WORDS_H

#include "coords.h"

/* A point's text; NULL in its place is no text. */
struct texts {
    int was_there;           /* the point */
    const struct piece *old;
    const struct piece *now;
};

/* In the order of the harm that they may do. */
enum change_kind {
    CHANGE_LOST,   /* something that the point had is gone */
    CHANGE_MOVED,
    CHANGE_TEXT,
    CHANGE_NEW,    /* the point was not there */
    CHANGE_NONE
};

/* Bits of what is lost: those of the fields, and one for a text that is not
 * of fields. */
#define LOST(field) (1u << (field))
#define LOST_TEXT LOST(POINT_FIELDS)

struct text_change {
    enum change_kind kind;
    unsigned lost;
    struct move move; /* as diff reckons it */
    int placed;      /* both have easting and northing */
    int levelled;    /* both have a height */
};

struct text_change change_of(struct texts t);

/* Puts what is lost, with its values, after what `to` holds: 0, or -1 for no memory. */
int lost_put(struct buffer *to, unsigned lost, struct piece old);

/* The change in words: 0, or -1 for no memory. */
int change_put(struct buffer *to, const struct text_change *c,
               struct texts t);

/* The bits that --drop names: 0, or -1 after a complaint. `words` may be
 * NULL, for none. */
int drop_read(const char *words, unsigned *bits);

/* The words for --drop of these bits. */
int drop_put(struct buffer *to, unsigned lost);

#endif
