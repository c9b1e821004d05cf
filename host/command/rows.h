/* A point as a row: of a table, tab-separated, or as JSON. */
#ifndef ROWS_H
#define ROWS_H

#include "coords.h"

enum row_form {
    ROW_NAME,   /* the name alone */
    ROW_LONG,   /* slot and length of the text before it */
    ROW_TEXT,   /* name, tab and text */
    ROW_TSV,    /* name, slot, easting, northing, height, note */
    ROW_JSON    /* the same as one object */
};

struct rows {
    enum row_form form;
    int counted;          /* do fields and objects tell the slots read? */
    uint32_t slots_read;  /* to find the next point */
    struct buffer name;
    struct record record;
};

/* A heading, where the form has one. */
void rows_begin(const struct rows *r);

/* DONE, or TROUBLE after a complaint. */
int rows_put(struct rows *r, const struct spot *s);

/* A text as JSON writes it. */
void json_put(struct piece p);

void rows_free(struct rows *r);

#endif
