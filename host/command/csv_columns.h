/* Which field of a CSV file is what. */
#ifndef CSV_COLUMNS_H
#define CSV_COLUMNS_H

#include "point.h"

/* The fields of a point's text, and what stands beside them. */
enum {
    COLUMN_NAME = POINT_FIELDS,
    COLUMN_TEXT,    /* the whole text, byte for byte */
    COLUMN_EMPTY,   /* yes: the text is empty, which is not none */
    COLUMN_EPOCH,   /* of the reading, in a file of epochs */
    COLUMNS,
    COLUMN_SKIPPED = COLUMNS, /* a field that is not wanted */
    COLUMN_X,       /* easting or northing: nobody can tell */
    COLUMN_Y,
    COLUMN_DATE,    /* an epoch where dates are said to be epochs */
    COLUMN_OTHER_UNIT, /* a coordinate, and in brackets something else than m */
    COLUMN_UNKNOWN
};

struct columns {
    int at[COLUMNS]; /* the field that holds it; -1: there is none */
    size_t fields;   /* in each record; 0: not known yet */
    int dates;       /* a column of dates is one of epochs */
    char wrong[96];  /* words, where the columns are wrong */
};

extern const char *const column_words[COLUMNS];

/* What the word says, in capitals or not, with blanks around it or without,
 * and with its unit in brackets, which is metres. */
int column_of(struct piece word);

/* From the value of --columns: DONE, or TROUBLE after a complaint. */
int columns_from_option(struct columns *c, const char *value);

/* Is the record a heading? It has no number and no empty field, and at least
 * two words that name columns. */
int is_heading(const struct record *r);

/* From a heading, or, if *c is known, compared with it: DONE, or TROUBLE after
 * a complaint that begins with `place`. */
int columns_from_heading(struct columns *c, const struct record *r,
                         const char *place);

/* The columns as --columns takes them: 0, or -1 for no memory. */
int columns_show(const struct columns *c, struct buffer *to);

#endif
